//! A body as a whole file, for tools that read nothing else.

use std::fmt::Write;

/// A file that declares these constants and asserts this body, whose words it keeps. Nil gets its
/// sort, which cvc5 asks for.
///
/// ```
/// let names = ["x", "y"].map(str::to_owned);
/// let file = smtlib::whole_file("(and (distinct x sep.nil) (pto x y))", &names);
/// assert_eq!(
///     file,
///     "\
/// (set-logic QF_ALL)
/// (declare-sort Loc 0)
/// (declare-heap (Loc Loc))
/// (declare-const x Loc)
/// (declare-const y Loc)
/// (assert (and (distinct x (as sep.nil Loc)) (pto x y)))
/// (check-sat)
/// "
/// );
/// let body = smtlib::translate(file.as_bytes()).unwrap();
/// assert_eq!(body.text, "(and (distinct x sep.nil) (pto x y))\n");
/// ```
pub fn whole_file(body: &str, constants: &[String]) -> String {
    let mut file =
        "(set-logic QF_ALL)\n(declare-sort Loc 0)\n(declare-heap (Loc Loc))\n".to_owned();
    for name in constants {
        writeln!(file, "(declare-const {name} Loc)").expect("a text takes all");
    }
    // No name has a dot, so it is the term wherever it stands.
    let body = body.replace("sep.nil", "(as sep.nil Loc)");
    file + &format!("(assert {body})\n(check-sat)\n")
}
