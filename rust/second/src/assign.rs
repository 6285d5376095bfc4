//! Document 01, "The encoding": what each row means, and the judge of assignments; and document 02,
//! [9]: the profile.

use crate::answer::{settled, Answer, Number};
use crate::book::{Book, Bounds, MOST};
use crate::model::{is_short, locs, named, Bytes, Set};
use crate::profile::Profile;
use crate::rows::{Operand, Row, Table};

/// Says whether the assignment satisfies the rows that the encoder gives for the book.
pub fn assign(book: &[u8], assignment: &[u8]) -> Answer {
    assign_in(Profile::Strong, book, assignment)
}

/// The same in a profile.
pub fn assign_in(profile: Profile, book: &[u8], assignment: &[u8]) -> Answer {
    settled(assigned(profile, book, assignment))
}

fn assigned(profile: Profile, book: &[u8], assignment: &[u8]) -> Result<Answer, Answer> {
    let book = Book::accept(book)?;
    let table = Table::of(profile, &book)?;
    let assignment = Assignment::accept(book.bounds, &table, assignment)?;
    Ok(Answer::yes_or_no(assignment.satisfies(&table.rows)))
}

struct Assignment {
    /// The location of each variable; variable 0 is nil.
    stack: Bytes,
    /// The value of each array at each location; the one at nil is never looked at.
    arrays: Vec<Bytes>,
    sets: Vec<Set>,
    named: Set,
}

impl Assignment {
    /// The assignment behind the bytes, or number 21 or 22.
    fn accept(bounds: Bounds, table: &Table, bytes: &[u8]) -> Result<Assignment, Answer> {
        let Bounds { v, n, .. } = bounds;
        let values = v + n * usize::from(table.arrays);
        if bytes.len() != values + usize::from(table.sets) {
            return Err(Answer::plain(Number::AssignmentLength));
        }
        let out_of_range = |(place, &byte): (usize, &u8)| {
            if place < values {
                usize::from(byte) > n
            } else {
                u16::from(byte) >> n != 0
            }
        };
        if let Some(place) = bytes.iter().enumerate().position(out_of_range) {
            return Err(Answer::at(Number::AssignmentValue, place));
        }
        let stack = after_nil(&bytes[..v]);
        Ok(Assignment {
            stack,
            arrays: (0..usize::from(table.arrays))
                .map(|array| after_nil(&bytes[v + n * array..][..n]))
                .collect(),
            sets: bytes[values..]
                .iter()
                .map(|&set| Set::from(set) << 1)
                .collect(),
            named: named(&stack, v),
        })
    }

    /// Whether the last row holds.
    fn satisfies(&self, rows: &[Row]) -> bool {
        let mut truths = Vec::with_capacity(rows.len());
        for row in rows {
            truths.push(self.holds(row, &truths));
        }
        truths.ends_with(&[true])
    }

    /// Whether a row holds, given the truths of the rows before it.
    fn holds(&self, row: &Row, truths: &[bool]) -> bool {
        let truth = |row: Operand| truths[usize::from(row)];
        let at = |variable: Operand| self.stack[usize::from(variable)];
        let set = |set: Operand| self.sets[usize::from(set)];
        let array = |array: Operand| &self.arrays[usize::from(array)];
        match *row {
            Row::Eq(x, y) => at(x) == at(y),
            Row::Ne(x, y) => at(x) != at(y),
            Row::Empty(s) => set(s) == 0,
            Row::One(s, x) => at(x) != 0 && set(s) == 1 << at(x),
            Row::At(a, x, y) => at(x) != 0 && array(a)[usize::from(at(x))] == at(y),
            Row::Chain(k, a, s, x, y) => chain(k, array(a), set(s), at(x), at(y)),
            Row::And(first, second) => truth(first) && truth(second),
            Row::Or(first, second) => truth(first) || truth(second),
            Row::Not(row) => !truth(row),
            Row::Split(s, s1, s2) => set(s1) & set(s2) == 0 && set(s1) | set(s2) == set(s),
            Row::Apart(a, s1, s2) => {
                locs(array(a), set(s1)) & locs(array(a), set(s2)) & !self.named == 0
            }
            Row::Same(a, b, s) => agree(array(a), array(b), set(s)),
            Row::Long(k, a, s) => is_short(array(a), set(s), k.into()),
        }
    }
}

/// A byte for nil, and then the bytes.
fn after_nil(bytes: &[u8]) -> Bytes {
    let mut all = Bytes::default();
    all[1..=bytes.len()].copy_from_slice(bytes);
    all
}

/// Whether two arrays have the same values on the set.
fn agree(one: &Bytes, other: &Bytes, set: Set) -> bool {
    (1..=MOST).all(|location| set >> location & 1 == 0 || one[location] == other[location])
}

/// Exactly k links from one location to the other, all k + 1 locations different, the first k
/// making the set and nil not among them.
fn chain(k: u8, array: &Bytes, set: Set, from: u8, to: u8) -> bool {
    let mut at = from;
    let mut passed: Set = 0;
    for _ in 0..k {
        if at == 0 || passed >> at & 1 == 1 {
            return false;
        }
        passed |= 1 << at;
        at = array[usize::from(at)];
    }
    at == to && passed >> at & 1 == 0 && passed == set
}
