//! Document 01, "The problem book": contents, bodies, bounds and the formula's tree; and document
//! 02, [1]: what in the contents is wrong.

use std::ops::Range;

use crate::answer::{settled, Answer, Number};

/// The largest value of each bound. Nothing else says how many locations or variables there are.
pub const MOST: usize = 8;

/// The most nodes a formula has.
pub const MOST_NODES: usize = 64;

/// The bounds and the formula.
const ENTRIES: usize = 2;

/// The bytes of an entry: kind, offset, length.
const ENTRY: usize = 5;

/// The bytes before the first body: the number of entries, and the entries.
pub const CONTENTS: usize = 1 + ENTRY * ENTRIES;

/// The bytes of a bounds body.
pub const BOUNDS: usize = 3;

/// The bytes of a node.
const NODE: usize = 3;

/// The bytes of the longest book.
pub const LONGEST: usize = CONTENTS + BOUNDS + NODE * MOST_NODES;

/// How many variables and locations there are, and the path bound.
#[derive(Clone, Copy, Debug, PartialEq, Eq)]
pub struct Bounds {
    pub v: usize,
    pub n: usize,
    pub p: usize,
}

/// An accepted book: bounds within their limits and nodes that make one tree.
#[derive(Clone, Copy, Debug)]
pub struct Book<'a> {
    pub bounds: Bounds,
    /// Operator, a, b. The last node is the root.
    pub nodes: &'a [[u8; NODE]],
}

/// What an operand is.
enum Kind {
    Variable,
    Child,
    Zero,
}

/// The kinds of a and b, for operators 1 to 10.
const KINDS: [[Kind; 2]; 10] = {
    use Kind::{Child, Variable, Zero};
    [
        [Variable, Variable],
        [Variable, Variable],
        [Variable, Variable],
        [Variable, Variable],
        [Child, Child],
        [Child, Child],
        [Child, Child],
        [Child, Zero],
        [Child, Child],
        [Child, Child],
    ]
};

/// Accepts a book (number 0) or says why not.
pub fn read(book: &[u8]) -> Answer {
    settled(Book::accept(book).map(|_| Answer::plain(Number::Yes)))
}

/// Where the body of an entry stands in the book, as `start..end`. Empty for a book refused for its
/// length or its contents, and for an entry other than 0 and 1.
pub fn body(book: &[u8], entry: u64) -> Range<usize> {
    match (bodies(book), entry) {
        (Ok([bounds, _]), 0) => bounds,
        (Ok([_, formula]), 1) => formula,
        _ => 0..0,
    }
}

impl<'a> Book<'a> {
    /// The book behind the bytes, or the refusal.
    pub fn accept(book: &'a [u8]) -> Result<Book<'a>, Answer> {
        let [bounds, formula] = bodies(book)?;
        let bounds = read_bounds(&book[bounds])?;
        let nodes = read_nodes(&book[formula])?;
        check_tree(nodes, bounds.v)?;
        Ok(Book { bounds, nodes })
    }

    /// The number of the root.
    pub fn root(&self) -> usize {
        self.nodes.len() - 1
    }
}

/// Numbers 10 and 11, and then entry by entry 23 and 24: the two bodies, in order, without gaps.
fn bodies(book: &[u8]) -> Result<[Range<usize>; ENTRIES], Answer> {
    if book.len() < CONTENTS || book.len() > LONGEST {
        return Err(Answer::plain(Number::BookLength));
    }
    if usize::from(book[0]) != ENTRIES {
        return Err(Answer::plain(Number::Contents));
    }
    let first = stretch(book, 0, CONTENTS)?;
    let second = stretch(book, 1, first.end)?;
    Ok([first, second])
}

/// Numbers 23 and 24: the body of an entry, which starts at `start` and ends within the book, the
/// last entry's with the book.
fn stretch(book: &[u8], entry: usize, start: usize) -> Result<Range<usize>, Answer> {
    let at = 1 + ENTRY * entry;
    if usize::from(book[at]) != entry + 1 {
        return Err(Answer::at(Number::EntryKind, entry));
    }
    let two_bytes = |at: usize| usize::from(u16::from_le_bytes([book[at], book[at + 1]]));
    let offset = two_bytes(at + 1);
    let end = offset + two_bytes(at + 3);
    let ends_well = match entry + 1 {
        ENTRIES => end == book.len(),
        _ => end <= book.len(),
    };
    if offset == start && ends_well {
        Ok(start..end)
    } else {
        Err(Answer::at(Number::EntryStretch, entry))
    }
}

/// Number 12.
fn read_bounds(body: &[u8]) -> Result<Bounds, Answer> {
    match *body {
        [v, n, p] if [v, n, p].iter().all(|&bound| usize::from(bound) <= MOST) => Ok(Bounds {
            v: v.into(),
            n: n.into(),
            p: p.into(),
        }),
        _ => Err(Answer::plain(Number::Bounds)),
    }
}

/// Number 13. The most nodes need no test here: a longer formula makes too long a book.
fn read_nodes(body: &[u8]) -> Result<&[[u8; NODE]], Answer> {
    match body.as_chunks() {
        (nodes, []) if !nodes.is_empty() => Ok(nodes),
        _ => Err(Answer::plain(Number::Formula)),
    }
}

/// Numbers 14 and 15, nodes upwards, and then 16.
fn check_tree(nodes: &[[u8; NODE]], v: usize) -> Result<(), Answer> {
    let mut uses = [0u8; MOST_NODES];
    for (node, &[operator, a, b]) in nodes.iter().enumerate() {
        let kinds = KINDS
            .get(usize::from(operator).wrapping_sub(1))
            .ok_or(Answer::at(Number::Operator, node))?;
        for (kind, byte) in kinds.iter().zip([a, b]) {
            let operand = usize::from(byte);
            let sound = match kind {
                Kind::Variable => operand <= v,
                Kind::Child => operand < node,
                Kind::Zero => operand == 0,
            };
            if !sound {
                return Err(Answer::at(Number::Operand, node));
            }
            if let Kind::Child = kind {
                uses[operand] += 1;
            }
        }
    }
    let below_the_root = &uses[..nodes.len() - 1];
    match below_the_root.iter().position(|&used| used != 1) {
        Some(node) => Err(Answer::at(Number::Tree, node)),
        None => Ok(()),
    }
}
