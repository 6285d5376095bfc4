//! Whole files and the bodies they become.

mod back;
mod bodies;
mod meaning;
mod refused;

/// The body of a file that declares x, y and z as locations and then has this.
pub fn body(rest: &str) -> String {
    let file = format!("{HEAD}{rest}");
    let body = smtlib::translate(file.as_bytes()).unwrap_or_else(|unknown| panic!("{unknown:?}"));
    body.text
}

/// A file's first commands.
pub const HEAD: &str = "\
(set-logic QF_SHLS)
(set-info :status sat)
(declare-sort Loc 0)
(declare-heap (Loc Loc))
(declare-const x Loc)
(declare-fun y () Loc)
(declare-const z Loc)
";
