//! The commands of a file.

use crate::cells::{self, Cell};
use crate::formula::{Bound, Reader, WORDS};
use crate::phrase::{Phrase, Term};
use crate::sexp::{self, shown, Sexp};
use crate::Unknown;

/// The commands that SMT-LIB has; those that are not known here are refused by name.
const COMMANDS: [&str; 33] = [
    "assert",
    "check-sat",
    "check-sat-assuming",
    "check-unsat",
    "declare-codatatypes",
    "declare-const",
    "declare-datatype",
    "declare-datatypes",
    "declare-fun",
    "declare-heap",
    "declare-sort",
    "define-const",
    "define-fun",
    "define-fun-rec",
    "define-funs-rec",
    "define-sort",
    "echo",
    "exit",
    "get-assertions",
    "get-assignment",
    "get-info",
    "get-model",
    "get-option",
    "get-proof",
    "get-unsat-core",
    "get-value",
    "pop",
    "push",
    "reset",
    "reset-assertions",
    "set-info",
    "set-logic",
    "set-option",
];

/// Whether the first list of a file begins with a command, so that it is no bare body.
pub fn is_whole_file(file: &[u8]) -> bool {
    let text = String::from_utf8_lossy(file);
    let lines = text.lines().map(|line| line.split(';').next());
    let mut words = lines.flatten().flat_map(|line| {
        let spread = line.replace('(', " ( ").replace(')', " ) ");
        let words: Vec<String> = spread.split_whitespace().map(str::to_owned).collect();
        words
    });
    let [first, second] = [words.next(), words.next()];
    first.as_deref() == Some("(") && second.is_some_and(|word| COMMANDS.contains(&&*word))
}

/// A definition that is not recursive.
#[derive(Clone, Debug)]
pub struct Definition {
    pub name: String,
    /// How many there are.
    pub parameters: usize,
    pub phrase: Phrase,
}

/// Sorts of locations that need no declaration: Astral's and, without its numbers, cvc5's.
const SORTS: [&str; 2] = ["Loc", "Int"];

/// What the commands have said so far.
#[derive(Debug)]
pub struct Script {
    /// The constants, all of them locations.
    pub constants: Vec<String>,
    pub cell: Option<Cell>,
    /// The names of the list segment.
    pub lists: Vec<String>,
    pub definitions: Vec<Definition>,
    pub asserts: Vec<Phrase>,
    /// The sorts that are declared.
    sorts: Vec<String>,
    /// The sort of the locations.
    sort: Option<String>,
    /// Whether the assertions have been asked about.
    asked: bool,
}

impl Script {
    pub fn read(file: &[u8]) -> Result<Script, Unknown> {
        let mut script = Script {
            constants: Vec::new(),
            cell: None,
            lists: vec!["ls".to_owned()],
            definitions: Vec::new(),
            asserts: Vec::new(),
            sorts: SORTS.map(str::to_owned).to_vec(),
            sort: None,
            asked: false,
        };
        for command in sexp::read(file)? {
            if script.command(&command)? == Goes::NoFurther {
                break;
            }
        }
        match script.asserts.is_empty() {
            true => Unknown::at(file.len(), "the end of a file that asserts nothing"),
            false => Ok(script),
        }
    }

    fn command(&mut self, command: &Sexp) -> Result<Goes, Unknown> {
        let Some((head, operands)) = command.list().and_then(<[Sexp]>::split_first) else {
            return Unknown::at(command.at, "an empty list where a command must stand");
        };
        match (head.symbol().unwrap_or_default(), operands) {
            ("set-logic" | "set-info" | "set-option" | "get-model" | "echo", _) => {}
            ("check-sat", []) => self.asked = !self.asserts.is_empty(),
            ("exit", []) => return Ok(Goes::NoFurther),
            ("declare-sort", [name, arity]) if is_zero(arity) => {
                self.sorts.extend(name.symbol().map(str::to_owned));
            }
            ("declare-datatypes", _) => self.declare_cell(command, cells::cell(operands))?,
            ("declare-datatype", _) => self.declare_cell(command, cells::single_cell(operands))?,
            ("declare-heap", [types]) => self.declare_heap(types)?,
            ("declare-const", [name, sort]) => self.declare(name, sort)?,
            ("declare-fun", [name, parameters, sort]) if is_empty(parameters) => {
                self.declare(name, sort)?;
            }
            ("define-fun", [name, parameters, sort, body]) if sort.is("Bool") => {
                self.define(name, parameters, body)?;
            }
            ("define-fun-rec", _) => self.define_list(command, operands)?,
            ("assert", [formula]) => self.assert(command, formula)?,
            (word, _) if COMMANDS.contains(&word) => {
                let what = format!("{word}, which is not known here in this form");
                return Unknown::at(command.at, what);
            }
            _ => return Unknown::at(head.at, "a word that is no command"),
        }
        Ok(Goes::On)
    }

    fn assert(&mut self, command: &Sexp, formula: &Sexp) -> Result<(), Unknown> {
        if self.asked {
            let what = "an assertion after check-sat: a second question, of which there may be one";
            return Unknown::at(command.at, what);
        }
        let phrase = self.reader(Vec::new()).formula(formula)?;
        self.asserts.push(phrase);
        Ok(())
    }

    fn reader(&self, scope: Vec<(String, Bound)>) -> Reader<'_> {
        Reader {
            script: self,
            scope,
        }
    }

    fn declare(&mut self, name: &Sexp, sort: &Sexp) -> Result<(), Unknown> {
        let symbol = self.new_name(name)?;
        self.locations(sort)?;
        self.constants.push(symbol);
        Ok(())
    }

    /// A name that has no meaning yet.
    fn new_name(&self, name: &Sexp) -> Result<String, Unknown> {
        let Some(symbol) = name.symbol() else {
            return Unknown::at(name.at, "no name where one must stand");
        };
        let is_name = |name: &String| name == symbol;
        if WORDS.contains(&symbol)
            || self.constants.iter().any(is_name)
            || self.lists.iter().any(is_name)
            || self.definitions.iter().any(|one| one.name == symbol)
        {
            let what = format!("{}, which has a meaning already", shown(symbol));
            return Unknown::at(name.at, what);
        }
        Ok(symbol.to_owned())
    }

    /// Takes a sort as that of the locations: there is one.
    fn locations(&mut self, sort: &Sexp) -> Result<(), Unknown> {
        let name = match sort.symbol() {
            Some(name) if self.sorts.iter().any(|declared| declared == name) => name,
            _ => return Unknown::at(sort.at, "a sort that is not the locations'"),
        };
        match &self.sort {
            Some(sort_so_far) if sort_so_far != name => {
                let what = format!("{name}, a second sort of locations beside {sort_so_far}");
                Unknown::at(sort.at, what)
            }
            _ => {
                self.sort = Some(name.to_owned());
                Ok(())
            }
        }
    }

    /// `(LOC LOC)`, or `(LOC CELL)` where cells have a type.
    fn declare_heap(&mut self, types: &Sexp) -> Result<(), Unknown> {
        let Some([from, to]) = types.list() else {
            return Unknown::at(types.at, "a heap of other than one type of cell");
        };
        self.locations(from)?;
        match &self.cell {
            Some(cell) if to.is(&cell.sort) => Ok(()),
            _ => self.locations(to),
        }
    }

    fn declare_cell(&mut self, command: &Sexp, cell: Option<Cell>) -> Result<(), Unknown> {
        let Some(cell) = cell.filter(|_| self.cell.is_none()) else {
            let what = "a datatype other than one cell with one constructor and one field";
            return Unknown::at(command.at, what);
        };
        self.locations(&cell.field)?;
        self.cell = Some(cell);
        Ok(())
    }

    /// A definition is read where it stands, so it is not recursive.
    fn define(&mut self, name: &Sexp, parameters: &Sexp, body: &Sexp) -> Result<(), Unknown> {
        let symbol = self.new_name(name)?;
        let mut scope = Vec::new();
        for parameter in parameters.list().unwrap_or_default() {
            match parameter.list() {
                Some([name, sort]) if name.symbol().is_some() => {
                    self.locations(sort)?;
                    let name = name.symbol().unwrap_or_default().to_owned();
                    scope.push((name, Bound::Term(Term::Parameter(scope.len()))));
                }
                _ => return Unknown::at(parameter.at, "a parameter of other than name and sort"),
            }
        }
        self.definitions.push(Definition {
            name: symbol,
            parameters: scope.len(),
            phrase: self.reader(scope).formula(body)?,
        });
        Ok(())
    }

    /// A recursive definition, which can be that of the list segment alone.
    fn define_list(&mut self, command: &Sexp, operands: &[Sexp]) -> Result<(), Unknown> {
        match cells::list_segment(operands, self.cell.as_ref()) {
            Some(name) if name == "ls" => Ok(()),
            Some(_) => {
                let name = self.new_name(&operands[0])?;
                self.lists.push(name);
                Ok(())
            }
            None => Unknown::at(
                command.at,
                "a recursive definition other than that of list segments",
            ),
        }
    }
}

/// Whether a file goes on behind a command.
#[derive(PartialEq, Eq)]
enum Goes {
    On,
    NoFurther,
}

fn is_empty(sexp: &Sexp) -> bool {
    sexp.list().is_some_and(<[Sexp]>::is_empty)
}

fn is_zero(sexp: &Sexp) -> bool {
    matches!(&sexp.kind, sexp::Kind::Other(number) if number == "0")
}
