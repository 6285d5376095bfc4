//! Document 02, [8]: the text of a book's formula.

use crate::answer::{settled, Answer, Number};
use crate::book::Book;

/// What stands before, between and behind an operator's operands, for operators 1 to 10. The one
/// operand of operator 8 is followed by the last of them.
const AROUND: [[&str; 3]; 10] = [
    ["(and (= ", " ", ") sep.emp)"],
    ["(and (distinct ", " ", ") sep.emp)"],
    ["(pto ", " ", ")"],
    ["(ls ", " ", ")"],
    ["(and ", " ", ")"],
    ["(or ", " ", ")"],
    ["(and ", " (not ", "))"],
    ["(not ", "", ")"],
    ["(sep ", " ", ")"],
    ["(not (wand ", " (not ", ")))"],
];

/// More bytes than a node takes for itself: those of the longest atom.
const MOST_OF_A_NODE: usize = 40;

/// Writes the text of the book's formula.
pub fn export(book: &[u8], out: &mut [u8]) -> Answer {
    settled(exported(book, out))
}

fn exported(book: &[u8], out: &mut [u8]) -> Result<Answer, Answer> {
    let text = text(&Book::accept(book)?);
    let written = out
        .get_mut(..text.len())
        .ok_or(Answer::plain(Number::OutputShort))?;
    written.copy_from_slice(&text);
    Ok(Answer::plain(Number::Yes))
}

/// The text of an accepted book's formula.
pub fn text(book: &Book) -> Vec<u8> {
    let mut text = Vec::with_capacity(MOST_OF_A_NODE * book.nodes.len());
    write(book.nodes, book.root(), &mut text);
    text
}

fn write(nodes: &[[u8; 3]], node: usize, text: &mut Vec<u8>) {
    let [operator, a, b] = nodes[node];
    let [before, between, behind] = AROUND[usize::from(operator) - 1];
    let mut operand = |around: &str, operand: u8| {
        text.extend_from_slice(around.as_bytes());
        match (operator, operand) {
            (1..=4, 0) => text.extend_from_slice(b"sep.nil"),
            (1..=4, variable) => text.extend_from_slice(&[b'v', b'0' + variable]),
            (_, child) => write(nodes, child.into(), text),
        }
    };
    operand(before, a);
    if operator != 8 {
        operand(between, b);
    }
    text.extend_from_slice(behind.as_bytes());
}
