//! Texts that are refused, shown as a compiler would.

use cases::line::{about, Call};
use hollyspool::MOST_BOOK;

use crate::json::Json;
use crate::machines::fields;
use crate::run::run_on;

/// A text, the line and column, what is said, the caret's column in the line shown, and what was
/// expected.
type Shown = (&'static [u8], [u64; 2], &'static str, &'static str);

const SHOWN: &[Shown] = &[
    (
        b"(sep (pto x y)\n     (lsx y sep.nil))\n",
        [2, 9],
        "bad text (26): no formula can go on with 'x' here",
        "a space and then a name or `sep.nil`",
    ),
    (
        b"",
        [1, 1],
        "bad text (26): the text ends before its formula does",
        "`(` or `sep.emp`",
    ),
    (
        b"(not sep.emp\n\n",
        [3, 1],
        "bad text (26): the text ends before its formula does",
        "`)`",
    ),
    (
        b"(not sep.emp",
        [1, 13],
        "bad text (26): the text ends before its formula does",
        "`)`",
    ),
    (
        b"sep.emp\r\n",
        [1, 8],
        "bad text (26): a carriage return, as files from Windows have them; only spaces and line \
          feeds may separate",
        "a space, a line feed or the end of the text",
    ),
    (
        b"(pto x\ty)",
        [1, 7],
        "bad text (26): a tab; only spaces and line feeds may separate",
        "more of the name or a space and then a name or `sep.nil`",
    ),
    (
        b"; a queue\n(pto x y)",
        [1, 1],
        "bad text (26): no formula can go on with ';' here; comments stand in whole files only, \
          those with assert",
        "`(` or `sep.emp`",
    ),
    (
        b"\xef\xbb\xbf(pto x y)",
        [1, 1],
        "bad text (26): a byte order mark; a text begins with its formula",
        "`(` or `sep.emp`",
    ),
    (
        b"(\n=x y)",
        [2, 2],
        "bad text (26): no formula can go on with 'x' here",
        "a space and then a name or `sep.nil`",
    ),
    (
        b"(all x y)",
        [1, 3],
        "bad text (26): no formula can go on with 'l' here",
        "`and`",
    ),
    (
        b"(And x y)",
        [1, 2],
        "bad text (26): no formula can go on with 'A' here; names are lower-case letters and digits",
        "`and`, `or`, `sep`, `wand`, `not`, `=`, `distinct`, `pto` or `ls`",
    ),
    (
        b"(pto x \xc3\xa9)",
        [1, 8],
        "bad text (26): no formula can go on with '\u{e9}' here",
        "a name or `sep.nil`",
    ),
    (
        b"(pto x \xff)",
        [1, 8],
        "bad text (26): no formula can go on with byte ff here",
        "a name or `sep.nil`",
    ),
    (
        b"(pto distinct x)",
        [1, 13],
        "bad text (26): no formula can go on with 't' here; distinct is a word, and no name",
        "more of the name or a space and then a name or `sep.nil`",
    ),
    (
        b"(pto sep x)",
        [1, 9],
        "bad text (26): no formula can go on with a space here; sep is a word, and no name",
        "more of the name or `sep.nil`",
    ),
    (
        b"(pto a23456789 x)",
        [1, 14],
        "bad text (26): no formula can go on with '9' here; a name has at most eight letters and \
          digits",
        "a space and then a name or `sep.nil`",
    ),
    (
        b"(pto x y) z",
        [1, 11],
        "bad text (26): no formula can go on with 'z' here",
        "the end of the text",
    ),
    (
        b"(and (pto a b) (and (pto c d) (and (pto e f) (and (pto g h) (pto i1 j)))))",
        [1, 66],
        "too many names (28): i1 is the ninth, and a text has at most eight",
        "",
    ),
];

#[test]
fn shown() {
    for (text, [line, column], said, expected) in SHOWN {
        let refused = run_on(text, &["search", "--text", "-"]);
        assert_eq!((refused.status, &*refused.out), (3, ""));
        let lines: Vec<&str> = refused.err.lines().collect();
        let [first, second, third] = lines[..] else {
            panic!("not three lines: {}", refused.err);
        };
        assert_eq!(first, format!("<stdin>:{line}:{column}: {said}"));
        assert!(second.starts_with(&format!("  {line} |")), "{second}");
        let (margin, caret) = third.split_once('^').expect("a caret");
        assert_eq!(margin.len() as u64, column + 5, "{}", refused.err);
        let expected = match *expected {
            "" => String::new(),
            expected => format!(" expected {expected}"),
        };
        assert_eq!(caret, expected, "{first}");
        // What was asked for is the complaint itself.
        let explained = run_on(text, &["explain", "--text", "-"]);
        let printed = (explained.status, &*explained.out, &*explained.err);
        assert_eq!(printed, (3, &*refused.err, ""));
    }
}

#[test]
fn for_machines() {
    for (text, [line, column], _, expected) in SHOWN {
        let run = run_on(text, &["search", "--text", "-", "--json"]);
        let fields = fields(&run);
        assert_eq!(run.status, 3);
        assert_eq!(fields["line"], Json::Number(*line));
        assert_eq!(fields["column"], Json::Number(*column));
        let number = if expected.is_empty() { 28 } else { 26 };
        assert_eq!(fields["number"], Json::Number(number));
        let text = (!expected.is_empty()).then(|| Json::Text((*expected).to_owned()));
        assert_eq!(fields.get("expected"), text.as_ref());
    }
}

/// The item that passes 64 nodes, at its last byte; and a list that is too deep, at its bracket.
#[test]
fn too_large() {
    let wide = format!("{}sep.emp{}", "(and\n(= x y)\n".repeat(13), ")".repeat(13));
    let refused = run_on(wide.as_bytes(), &["search", "--text", "-"]);
    let said = "<stdin>:27:19: too many nodes (27): with the item that ends here the formula has";
    assert!(refused.err.starts_with(said), "{}", refused.err);
    let deep = format!("{}sep.emp{}", "(not ".repeat(17), ")".repeat(17));
    let refused = run_on(deep.as_bytes(), &["search", "--text", "-"]);
    let lines: Vec<&str> = refused.err.lines().collect();
    assert!(
        lines[0].ends_with("'(' here; lists stand at most 16 deep"),
        "{}",
        lines[0]
    );
    assert!(lines[2].ends_with("^ expected `sep.emp`"), "{}", lines[2]);
    // A long line is shown around its byte.
    assert!(lines[1].starts_with("  1 | …") && lines[1].chars().count() < 130);
    let caret = lines[2].chars().position(|c| c == '^');
    assert_eq!(lines[1].chars().nth(caret.expect("a caret")), Some('('));
}

/// A text of a megabyte is refused at its byte, in good time.
#[test]
fn long_texts() {
    let text = format!("(pto x{}?)", " ".repeat(1 << 20));
    let refused = run_on(text.as_bytes(), &["search", "--text", "-"]);
    assert!(
        refused.err.starts_with("<stdin>:1:1048583: "),
        "{}",
        refused.err
    );
    assert_eq!(refused.err.lines().count(), 3);
}

/// Texts of the case files: the place is the proved import's, and something is expected there.
#[test]
fn as_the_import_says() {
    let mut refused = 0;
    for case in about(Call::Import).iter().step_by(17) {
        let text = &case.book;
        let answer = hollyspool::import(text, 2, 2, &mut [0; MOST_BOOK]);
        let run = run_on(text, &["explain", "--text", "-", "--json", "--n", "2"]);
        let fields = fields(&run);
        assert_eq!(fields["number"], Json::Number(answer.number));
        assert_eq!(fields["place"], Json::Number(answer.place));
        if answer.number == 0 {
            continue;
        }
        let before = String::from_utf8_lossy(&text[..answer.place as usize]);
        let last = before.split('\n').next_back().expect("a line");
        let lines = 1 + before.matches('\n').count() as u64;
        assert_eq!(fields["line"], Json::Number(lines));
        assert_eq!(fields["column"], Json::Number(1 + last.len() as u64));
        let expected =
            matches!(fields.get("expected"), Some(Json::Text(words)) if !words.is_empty());
        assert_eq!(expected, answer.number == 26, "{fields:?}");
        refused += 1;
    }
    assert!(refused > 50, "{refused}");
}
