//! The body of each construct, and of files as other tools have them.

use hollyspool::Book;

use crate::body;

/// What stands behind `(assert ` and the equations of x, y and z.
fn asserted(formula: &str) -> String {
    let text = body(&format!("(assert (and {formula} (distinct x y z)))"));
    let inner = text.split_whitespace().collect::<Vec<_>>().join(" ");
    let rest = " (and (distinct x y) (and (distinct x z) (distinct y z))))";
    let inner = inner
        .strip_prefix("(and ")
        .and_then(|text| text.strip_suffix(rest));
    inner.unwrap_or_else(|| panic!("{text}")).to_owned()
}

const CONSTRUCTS: &[(&str, &str)] = &[
    ("(pto x y)", "(pto x y)"),
    ("true", "(= sep.nil sep.nil)"),
    ("false", "(distinct sep.nil sep.nil)"),
    // nil and emp in all spellings.
    ("(ls x nil)", "(ls x sep.nil)"),
    ("(ls x sep.nil)", "(ls x sep.nil)"),
    ("(ls x (as nil Loc))", "(ls x sep.nil)"),
    ("(ls x (as sep.nil Loc))", "(ls x sep.nil)"),
    ("emp", "sep.emp"),
    ("sep.emp", "sep.emp"),
    ("(emp)", "sep.emp"),
    ("(sep.emp)", "sep.emp"),
    ("(_ emp Loc Loc)", "sep.emp"),
    ("(_ sep.emp Loc Loc)", "sep.emp"),
    // Several operands.
    ("(and emp)", "sep.emp"),
    (
        "(or emp true emp)",
        "(or sep.emp (or (= sep.nil sep.nil) sep.emp))",
    ),
    ("(= x y z)", "(and (= x y) (= y z))"),
    ("(not (= x y))", "(not (= x y))"),
    ("(wand emp emp)", "(wand sep.emp sep.emp)"),
    (
        "(septraction emp (pto x y))",
        "(not (wand sep.emp (not (pto x y))))",
    ),
    ("(=> emp (pto x y))", "(or (not sep.emp) (pto x y))"),
    (
        "(=> emp emp emp)",
        "(or (not sep.emp) (or (not sep.emp) sep.emp))",
    ),
    (
        "(xor emp (pto x y))",
        "(or (and sep.emp (not (pto x y))) (and (not sep.emp) (pto x y)))",
    ),
    (
        "(ite emp (pto x y) (ls x y))",
        "(or (and sep.emp (pto x y)) (and (not sep.emp) (ls x y)))",
    ),
    // Names of other things.
    (
        "(let ((a x) (f emp)) (or f (pto a z)))",
        "(or sep.emp (pto x z))",
    ),
    ("(let ((x y) (y x)) (pto x y))", "(pto y x)"),
    ("(let ((x y)) (let ((y x)) (pto x y)))", "(pto y y)"),
    ("(! emp :named first :other \"a (\"\" b\")", "sep.emp"),
    ("(pto |x| y) ; |not| \"read\n", "(pto x y)"),
];

#[test]
fn constructs() {
    for (formula, expected) in CONSTRUCTS {
        assert_eq!(asserted(formula), *expected, "{formula}");
    }
}

#[test]
fn definitions() {
    let file = "
        (define-fun cell ((a Loc) (b Loc)) Bool (pto a b))
        (define-fun both ((a Loc)) Bool (sep (cell a z) (cell x a)))
        (define-fun none () Bool emp)
        (assert (or none (both y)))";
    assert_eq!(body(file), "(or sep.emp (sep (pto y z) (pto x y)))\n");
}

/// A constant that no assertion has keeps its location named.
#[test]
fn declared_and_not_used() {
    assert_eq!(
        body("(assert (ls x nil))"),
        "(and (ls x sep.nil) (and (= y y) (= z z)))\n"
    );
}

/// Listing 6.1 of document 003.
#[test]
fn astral() {
    let file = include_str!("astral.smt2");
    assert!(smtlib::is_whole_file(file.as_bytes()));
    let body = smtlib::translate(file.as_bytes()).expect("it is known");
    assert_eq!(
        body.text,
        "(and\n  (and (ls x y) (sep (not sep.emp) (sep (not sep.emp) (not sep.emp))))\n  (= z z))\n"
    );
    assert!(body.renamed.is_empty());
}

/// A file of SL-COMP's kind: a type of cells, and the list segment as a definition.
#[test]
fn sl_comp() {
    let file = include_str!("slcomp.smt2");
    let body = smtlib::translate(file.as_bytes()).expect("it is known");
    assert_eq!(
        body.text,
        "(and\n  (and (= sep.nil sep.nil) (sep (pto a b) (ls b sep.nil)))\n  (not (ls a sep.nil)))\n"
    );
    let names = [("a", "x_emp"), ("b", "y_long_name")];
    let names = names.map(|(new, old)| (new.to_owned(), old.to_owned()));
    assert_eq!(body.renamed, names);
}

/// Line ends, tabs and comments of every kind.
#[test]
fn blanks() {
    let file = include_str!("astral.smt2");
    let plain = smtlib::translate(file.as_bytes());
    for other in [
        file.replace('\n', "\r\n"),
        file.replace(' ', "\t"),
        file.replace('(', " ; (\n("),
    ] {
        assert_eq!(smtlib::translate(other.as_bytes()), plain);
        assert!(smtlib::is_whole_file(other.as_bytes()));
    }
}

#[test]
fn names() {
    let file = "
        (declare-const Head Int)
        (declare-const |a b| Int)
        (declare-const tail12345 Int)
        (declare-const a Int)
        (declare-const lsx Int)
        (assert (and (pto Head |a b|) (pto tail12345 a) (pto lsx lsx)))";
    let body = smtlib::translate(file.as_bytes()).expect("it is known");
    assert_eq!(body.text, "(and (pto b c) (and (pto d a) (pto lsx lsx)))\n");
    for (name, expected) in [
        ("b", "Head"),
        ("c", "|a b|"),
        ("d", "tail12345"),
        ("a", "a"),
    ] {
        assert_eq!(body.file_name(name), expected);
    }
}

/// Where nesting to the right would be too deep, it is balanced, and the bench takes it.
#[test]
fn many_operands() {
    for (count, word) in [(16, "and"), (17, "and"), (18, "sep"), (30, "or")] {
        let text = body(&format!("(assert ({word}{}))", " (pto x y)".repeat(count)));
        let parsed = Book::parse(&text, 2, 2);
        assert!(parsed.is_ok(), "{count}: {parsed:?}");
        let lists = text
            .split_whitespace()
            .filter(|word| word.starts_with('('))
            .count();
        // The operands, the pairs of them, and one equation beside them.
        assert_eq!(lists, 2 * count - 1 + 2, "{text}");
    }
}

/// Long bodies are broken into lines; every line is short, and the body means the same.
#[test]
fn lines() {
    let text = body(&format!(
        "(assert (sep{}))",
        " (ls x y) (pto y x)".repeat(9)
    ));
    assert!(text.lines().count() > 1 && text.lines().all(|line| line.len() <= 80));
    assert!(Book::parse(&text, 2, 2).is_ok());
}

#[test]
fn whole_files() {
    for (text, is) in [
        ("(set-logic ALL)", true),
        ("; a comment\n\r\n ( assert\n true)", true),
        ("(sep (pto x y) sep.emp)", false),
        ("; a comment\n(pto x y)", false),
        ("(assertion)", false),
        ("sep.emp", false),
        ("", false),
        ("((assert))", false),
    ] {
        assert_eq!(smtlib::is_whole_file(text.as_bytes()), is, "{text}");
    }
}
