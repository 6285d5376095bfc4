//! The byte that a book's refusal points at. Which refusal it is, the proved reader says.

use std::ops::Range;

use hollyspool::{Bounds, Refusal};

/// Where the first body starts.
const CONTENTS: usize = 11;

/// The bodies, by entry.
const BODIES: [&str; 2] = ["the bounds", "the formula"];

/// Where the formula starts, in a book whose bounds are as they should be.
const FORMULA: usize = CONTENTS + 3;

/// The longest book.
const LONGEST: usize = 206;

/// A field of the book and what should be there.
pub struct Fault {
    /// One byte, or the two of an offset or a length.
    pub bytes: Range<usize>,
    pub should: String,
}

impl Fault {
    /// The field that `refusal`, as `read` gave it for `book`, points at.
    pub fn of(book: &[u8], refusal: Refusal) -> Option<Fault> {
        Some(match refusal {
            Refusal::BookLength => length(book),
            Refusal::Contents => one(0, "the number of entries, 2"),
            Refusal::Bounds => bounds(book),
            Refusal::Formula => two(9, "a length that is 3 or more and a multiple of 3"),
            Refusal::Operator { node } => one(start(node), "an operator, 1 to 10"),
            Refusal::Operand { node } => operand(book, node),
            Refusal::Tree { node } => one(
                start(node),
                "a node that is the child of exactly one node, once",
            ),
            Refusal::EntryKind { entry } => kind(entry as usize),
            Refusal::EntryStretch { entry } => stretch(book, entry as usize),
            _ => return None,
        })
    }

    /// What stands in the field; none where the book ends before it.
    pub fn value(&self, book: &[u8]) -> Option<u16> {
        match *book.get(self.bytes.clone())? {
            [low, high] => Some(u16::from_le_bytes([low, high])),
            [byte] => Some(byte.into()),
            _ => unreachable!("a field has one byte or two"),
        }
    }
}

/// A fault of one byte.
fn one(at: usize, should: impl Into<String>) -> Fault {
    Fault {
        bytes: at..at + 1,
        should: should.into(),
    }
}

/// A fault of an offset or a length.
fn two(at: usize, should: impl Into<String>) -> Fault {
    Fault {
        bytes: at..at + 2,
        should: should.into(),
    }
}

/// The first byte of a node.
fn start(node: u64) -> usize {
    FORMULA + 3 * node as usize
}

fn length(book: &[u8]) -> Fault {
    if book.len() < CONTENTS {
        one(book.len(), format!("at least {CONTENTS} bytes"))
    } else {
        one(LONGEST, format!("the end, after at most {LONGEST} bytes"))
    }
}

/// The first byte of an entry.
fn entry_start(entry: usize) -> usize {
    1 + 5 * entry
}

fn kind(entry: usize) -> Fault {
    let (kind, body) = (entry + 1, BODIES[entry]);
    one(entry_start(entry), format!("kind {kind}, {body}"))
}

/// The offset of an entry or, where that is right, its length. All before this entry is right.
fn stretch(book: &[u8], entry: usize) -> Fault {
    let body = BODIES[entry];
    let two_bytes = |at: usize| usize::from(u16::from_le_bytes([book[at], book[at + 1]]));
    let (start, why) = match entry {
        0 => (CONTENTS, "the end of the contents"),
        _ => (CONTENTS + two_bytes(4), "the end of the bounds"),
    };
    let [offset, length] = [1, 3].map(|at| entry_start(entry) + at);
    if two_bytes(offset) != start {
        return two(offset, format!("the offset of {body}, {start}, {why}"));
    }
    let rest = book.len() - start;
    let right = match entry {
        0 => format!("at most {rest}"),
        _ => rest.to_string(),
    };
    two(
        length,
        format!("the length of {body}, {right}, up to the book's end"),
    )
}

fn bounds(book: &[u8]) -> Fault {
    let body = hollyspool::body(book, 0);
    let too_large = body.iter().position(|&bound| bound > Bounds::MOST);
    match too_large {
        Some(at) if body.len() == 3 => {
            one(CONTENTS + at, format!("a bound, 0 to {}", Bounds::MOST))
        }
        _ => two(4, "the length of the bounds, 3"),
    }
}

/// The first operand of a node that is out of range.
fn operand(book: &[u8], node: u64) -> Fault {
    let at = start(node);
    let [operator, a, _] = [book[at], book[at + 1], book[at + 2]];
    if operator > 4 && node == 0 {
        return one(at, "an atom, 1 to 4: node 0 has no children");
    }
    let v = book[CONTENTS];
    let (a_is_right, should) = match operator {
        1..=4 => (a <= v, format!("a variable, 0 to {v}")),
        _ => (
            u64::from(a) < node,
            format!("a child, the number of a node lower than {node}"),
        ),
    };
    match (a_is_right, operator) {
        (false, _) => one(at + 1, should),
        (true, 8) => one(at + 2, "0, since operator 8 has no b"),
        (true, _) => one(at + 2, should),
    }
}
