//! Whole SMT-LIB files, through the translator.

use crate::json::Json;
use crate::machines::fields;
use crate::run::{run, run_on};

const FILE: &str = "\
(set-logic QF_SHLS) ; as SL-COMP has it
(declare-sort Loc 0)
(declare-heap (Loc Loc))
(declare-const Head Loc)
(declare-const next_one Loc)
(assert (sep (pto Head next_one) (ls next_one (as nil Loc))))
(assert (distinct Head next_one nil))
(check-sat)
(get-model)
";

const SAID: &str = "hollyspool: <stdin> is a whole file: what was checked is a body translated from \
                    it, and the translation is not proved; `hollyspool translate` prints the body\n";

const BODY: &str = "\
(and
  (sep (pto a b) (ls b sep.nil))
  (and (distinct a b) (and (distinct a sep.nil) (distinct b sep.nil))))
";

#[test]
fn found_under_the_names_of_the_file() {
    let found = run_on(FILE.as_bytes(), &["search", "--text", "-", "--n", "2"]);
    assert_eq!((found.status, &*found.err), (0, SAID));
    assert_eq!(
        found.out,
        "found: Head=2 next_one=1 ; 1→0, 2→1\nmodel 02 01 00 01\ntried 90 of T = 144\n"
    );
    let drawn = run_on(FILE.as_bytes(), &["draw", "--text", "-"]);
    assert!(drawn.out.contains("label=\"2\\nHead\""), "{}", drawn.out);
    assert_eq!(drawn.err, SAID);
}

#[test]
fn translated() {
    let translated = run_on(FILE.as_bytes(), &["translate", "-"]);
    assert_eq!((translated.status, &*translated.out), (0, BODY));
    assert_eq!(
        translated.err,
        "hollyspool: a stands for Head, b stands for next_one\n"
    );
    // The body is what was checked.
    let checked = run_on(BODY.as_bytes(), &["search", "--text", "-"]);
    let found = run_on(FILE.as_bytes(), &["search", "--text", "-"]);
    let [whole, body] = [&found, &checked].map(|run| run.out.split_once('\n').map(|out| out.1));
    assert_eq!(whole, body);
}

#[test]
fn for_machines() {
    let run = run_on(FILE.as_bytes(), &["search", "--text", "-", "--json"]);
    let fields = fields(&run);
    assert_eq!(fields["translated"], Json::Text(BODY.to_owned()));
    let names = ["Head", "next_one"].map(|name| Json::Text(name.to_owned()));
    assert_eq!(fields["names"], Json::List(names.to_vec()));
}

/// "None" is never unsat.
#[test]
fn none() {
    let path = concat!(
        env!("CARGO_MANIFEST_DIR"),
        "/../smtlib/tests/files/slcomp.smt2"
    );
    let none = run(&["search", path]);
    assert_eq!(none.status, 1);
    assert_eq!(
        none.out,
        "none: nothing fits within the bounds v = 2, n = 4, p = 4; that is not unsat\n\
         tried 32400 of T = 32400\n"
    );
}

#[test]
fn not_known() {
    let file = FILE.replace("(ls next_one", "(dls next_one");
    let refused = run_on(file.as_bytes(), &["search", "--text", "-"]);
    assert_eq!((refused.status, &*refused.out), (3, ""));
    assert_eq!(
        refused.err,
        "<stdin>:6:35: not translated: dls, which is not known here\n  \
         6 | (assert (sep (pto Head next_one) (dls next_one (as nil Loc))))\n    \
         |                                   ^\n"
    );
    let run = run_on(file.as_bytes(), &["translate", "-", "--json"]);
    assert_eq!(run.status, 3);
    let fields = fields(&run);
    assert_eq!(
        [&fields["line"], &fields["column"]],
        [6, 35].map(Json::Number).each_ref()
    );
    assert!(!fields.contains_key("number"));
}

/// What the proved import refuses of a body is shown in the body.
#[test]
fn a_body_that_is_refused() {
    let names = ["a", "b", "c", "d", "e", "f", "g", "h", "I"];
    let declared = names.map(|name| format!("(declare-const {name} Loc)"));
    let file = format!("{}(assert emp)", declared.concat());
    let refused = run_on(file.as_bytes(), &["search", "--text", "-"]);
    assert_eq!(refused.status, 3);
    let said = "<stdin> (translated):";
    assert!(refused.err.starts_with(said), "{}", refused.err);
    assert!(
        refused.err.contains("too many names (28): i is the ninth"),
        "{}",
        refused.err
    );
}
