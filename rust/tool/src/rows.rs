//! The rows of an encoding, in words.

use crate::names::variable;

/// The bytes of a row.
pub const ROW: usize = 10;

/// The name of each row operator, from 1, and what its operands are: variables (x), arrays (A),
/// sets (S) or earlier rows (r).
const ROWS: [(&str, &str); 13] = [
    ("EQ", "xx"),
    ("NE", "xx"),
    ("EMPTY", "S"),
    ("ONE", "Sx"),
    ("AT", "Axx"),
    ("CHAIN", "ASxx"),
    ("AND", "rr"),
    ("OR", "rr"),
    ("NOT", "r"),
    ("SPLIT", "SSS"),
    ("APART", "ASS"),
    ("SAME", "AAS"),
    ("LONG", "AS"),
];

/// The rows that have a k: CHAIN and LONG.
const WITH_K: [u8; 2] = [6, 13];

/// A row, as the encoder writes it, with these names for variables 1, 2, ..
pub fn in_words(row: &[u8; ROW], names: &[String]) -> String {
    let [operator, k, operands @ ..] = row;
    let (name, kinds) = ROWS[usize::from(*operator) - 1];
    let mut words = name.to_owned();
    for (kind, &pair) in kinds.chars().zip(operands.as_chunks().0) {
        words += &match (kind, u16::from_le_bytes(pair)) {
            ('x', 0) => " nil".to_owned(),
            ('x', number) => format!(" {}", variable(number.into(), names)),
            (kind, number) => format!(" {kind}{number}"),
        };
    }
    if WITH_K.contains(operator) {
        words += &format!(" k={k}");
    }
    words
}
