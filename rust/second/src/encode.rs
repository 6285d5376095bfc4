//! Document 01, "The encoding": the rows as bytes of a book; and document 02, [9]: the profile.

use crate::answer::{settled, Answer, Number};
use crate::book::{body, Book, BOUNDS, CONTENTS};
use crate::profile::Profile;
use crate::rows::{Row, Table};

/// The bytes of a row.
const ROW: usize = 10;

/// Writes the encoding of the book's formula, as a book.
pub fn encode(book: &[u8], out: &mut [u8]) -> Answer {
    encode_in(Profile::Strong, book, out)
}

/// The same in a profile. The bytes don't say in which.
pub fn encode_in(profile: Profile, book: &[u8], out: &mut [u8]) -> Answer {
    settled(encoded(profile, book, out))
}

fn encoded(profile: Profile, book: &[u8], out: &mut [u8]) -> Result<Answer, Answer> {
    let accepted = Book::accept(book)?;
    let rows = Table::of(profile, &accepted)?.rows;
    let head = CONTENTS + BOUNDS;
    let out = out
        .get_mut(..head + ROW * rows.len())
        .ok_or(Answer::plain(Number::OutputShort))?;
    let [low, high] = ((ROW * rows.len()) as u16).to_le_bytes();
    let start = CONTENTS as u8;
    let contents = [2, 1, start, 0, BOUNDS as u8, 0, 3, head as u8, 0, low, high];
    out[..CONTENTS].copy_from_slice(&contents);
    out[CONTENTS..head].copy_from_slice(&book[body(book, 0)]);
    for (row, bytes) in rows.iter().zip(out[head..].chunks_exact_mut(ROW)) {
        bytes.copy_from_slice(&row_bytes(row));
    }
    Ok(Answer::plain(Number::Yes))
}

/// Operator, k, four operands of two bytes, low first; unused ones are 0.
fn row_bytes(row: &Row) -> [u8; ROW] {
    let (operator, k, operands) = match *row {
        Row::Eq(x, y) => (1, 0, [x, y, 0, 0]),
        Row::Ne(x, y) => (2, 0, [x, y, 0, 0]),
        Row::Empty(set) => (3, 0, [set, 0, 0, 0]),
        Row::One(set, x) => (4, 0, [set, x, 0, 0]),
        Row::At(array, x, y) => (5, 0, [array, x, y, 0]),
        Row::Chain(k, array, set, x, y) => (6, k, [array, set, x, y]),
        Row::And(first, second) => (7, 0, [first, second, 0, 0]),
        Row::Or(first, second) => (8, 0, [first, second, 0, 0]),
        Row::Not(row) => (9, 0, [row, 0, 0, 0]),
        Row::Split(whole, first, second) => (10, 0, [whole, first, second, 0]),
        Row::Apart(array, first, second) => (11, 0, [array, first, second, 0]),
        Row::Same(array, other, set) => (12, 0, [array, other, set, 0]),
        Row::Long(k, array, set) => (13, k, [array, set, 0, 0]),
    };
    let mut bytes = [operator, k, 0, 0, 0, 0, 0, 0, 0, 0];
    for (pair, operand) in bytes[2..].chunks_exact_mut(2).zip(operands) {
        pair.copy_from_slice(&u16::to_le_bytes(operand));
    }
    bytes
}
