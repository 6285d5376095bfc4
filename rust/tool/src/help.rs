//! What `--help` prints.

use crate::args::Command;

/// The help for a command, or for all of them.
pub fn about(command: Option<Command>) -> String {
    match command {
        None => format!("{OVERVIEW}{COMMON}{STATUS}"),
        Some(command) => format!("{}{COMMON}{STATUS}", usage(command)),
    }
}

const OVERVIEW: &str = "\
hollyspool: a bounded checker for strong-separation logic whose every answer is proved

  hollyspool search FILE [--budget N]    look for a model that fits the formula
  hollyspool judge FILE MODEL            say whether a model fits
  hollyspool encode FILE [--raw]         give the rows that the formula is encoded as
  hollyspool assign FILE ASSIGNMENT      say whether an assignment satisfies those rows
  hollyspool explain FILE                print the formula, the bounds and T, or why it is refused
  hollyspool draw FILE [--budget N]      draw the model that is found, as Graphviz DOT
  hollyspool text FILE [--file]          print the formula as a text, or as a whole SMT-LIB file
  hollyspool translate FILE              print the body that a whole SMT-LIB file becomes

All but the last two take --profile strong or --profile ordinary. hollyspool COMMAND --help says more of a command.
";

const COMMON: &str = "
FILE is the path of a text or a book, or - for standard input. It is a text if it ends in .smt2, or
with --text: a formula such as (sep (pto x y) (ls y sep.nil)). A text says nothing of how far to
look; --n N gives the number of locations besides nil (4 if it is left out), and --p P the most
links of a model's paths (n if it is left out), each up to 8. A whole SMT-LIB file, with
(assert ..), is translated into such a text first. The text is read by a proved call; the
translation is not proved.

--profile says what sep and wand ask of two heaps. In the strong profile, which is used where none is
given, no cell is allocated twice, and a location that stands in both is nil or a declared
variable's: so document 003 and Astral have it. In the ordinary one no cell is allocated twice, and
that is all: so cvc5 and the tools of SL-COMP have it.

MODEL and ASSIGNMENT are hex digits, with or without spaces, or @PATH for a file of bytes. --json
prints one JSON object on standard output, whatever the answer is; bytes are hex digits in it.
";

const STATUS: &str = "
Exit status: 0 found, fits, satisfied, written, accepted; 1 none, doesn't fit, not satisfied;
2 budget spent; 3 refused; 64 bad arguments; 74 output not written.
";

fn usage(command: Command) -> &'static str {
    match command {
        Command::Search => SEARCH,
        Command::Judge => JUDGE,
        Command::Encode => ENCODE,
        Command::Assign => ASSIGN,
        Command::Explain => EXPLAIN,
        Command::Draw => DRAW,
        Command::Text => TEXT,
        Command::Translate => TRANSLATE,
    }
}

const SEARCH: &str = "\
hollyspool search FILE [--budget N] [--profile P] [--json]

Settles the candidates in their order, the first N of them or all, and prints the lowest that fits.
\"None\" speaks of the bounds: no model with v variables, n locations and no simple path over p links
fits. It is never unsat. A book with a declared variable that no atom names is refused.

A search that takes over a second reports on standard error. The search itself is one proved call
and can't be looked into; so beside it shorter searches settle the first candidates, twice as many
each time, and the report says how many of them don't fit and which share of T they are. The last
report, when the search has ended, has what is settled in all.
";

const JUDGE: &str = "\
hollyspool judge FILE MODEL [--profile P] [--json]

A model is v bytes, each variable's location (0 to n), and then n bytes, the value at each location
from 1 (0 to n, or ff for unallocated). The variables of a text are its names, as they first appear.
";

const ENCODE: &str = "\
hollyspool encode FILE [--raw] [--profile P] [--json]

Prints the rows in words, a row a line: x is a variable, A an array, S a set, r an earlier row; the
variables of a text have its names. LONG holds where there is no simple path over k links. --raw
prints the encoding's bytes instead. In the ordinary profile there is no APART row, nor the AND
after it; the bytes don't say which profile they are of.
";

const ASSIGN: &str = "\
hollyspool assign FILE ASSIGNMENT [--profile P] [--json]

An assignment is v bytes, each variable's location (0 to n), then n bytes for each array (0 to n),
then one byte for each set (bit 0 for location 1). Encode says which arrays and sets there are.
The rows are those that encode gives in the same profile.
";

const EXPLAIN: &str = "\
hollyspool explain FILE [--profile P] [--json]

Prints the formula in readable notation, the bounds, T (the number of candidates), the number of
rows of the encoding in the profile, the formula as a text, and stray variables if there are any: variables from 1
to v that no atom names. The book is accepted all the same, but search refuses it. For a book that
is refused: the number, what it means, the byte that it points at, what stands there and what
should. For a text: its names with their variables, or the line and column where it is refused and
what was expected.
";

const DRAW: &str = "\
hollyspool draw FILE [--budget N] [--profile P] [--json]

Searches as search does and prints the model as a digraph: a node for each location, with the
variables that are there; nil is a box, and what is not allocated is dashed. For a picture:
hollyspool draw FILE | dot -Tsvg > model.svg

The numbers are only names, and the picture says so: with the locations from 1 to n renumbered, in
stack and heap together, a model fits exactly if it fitted before. That is proved, in each profile.
";

const TEXT: &str = "\
hollyspool text FILE [--file] [--json]

Prints a book's formula as a text, on a line: its variables are v1, v2, .., and (= v1 v2) stands
beside sep.emp, as in a text it holds on any heap. The text holds on the same models as the book,
variables matched by name, where every declared variable is named by an atom. Standard error says
where one is not, and where the text is too deep or has too many nodes to be read back.

--file prints a whole SMT-LIB file that declares v1, v2, .. and asserts the text. That file is not
proved to mean anything: other tools have an ordinary sep, other bounds or none, and cvc5 has no ls.
Hollyspool itself reads it back, through translate.
";

const TRANSLATE: &str = "\
hollyspool translate FILE [--json]

Prints the text that a whole SMT-LIB file becomes, which is what every other command reads of it.
It takes set-logic, set-info, declare-sort, declare-heap, declare-const, declare-fun, define-fun,
several assert, check-sat and get-model; and, or and sep over any number of formulas, true, false,
=>, xor, ite, let, and the spellings of nil and emp. A constant that is declared and not used gets
(= z z), so that its location stays named. = and distinct hold on any heap. Names that a text can't
have become a, b, ..; answers have the file's own. What it doesn't know it refuses, with line and
column.

The translation is not proved: read the text, and believe that.
";
