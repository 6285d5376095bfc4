//! Inputs for the tests of every bench: the lines of the case files, made books, and made texts.

pub mod cost;
pub mod line;
pub mod made;
pub mod random;
pub mod renumber;
pub mod texts;
