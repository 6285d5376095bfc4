//! Document 01, "When a node holds": the truth table, and the judge of models; and document 02, [4]: the
//! path bound of a model, and [9]: the profile.

use crate::answer::{settled, Answer};
use crate::book::Book;
use crate::model::{is_short, locs, named, Bytes, Heap, Model, Set};
use crate::profile::Profile;

/// Says whether the model fits the book's formula.
pub fn judge(book: &[u8], model: &[u8]) -> Answer {
    judge_in(Profile::Strong, book, model)
}

/// The same in a profile.
pub fn judge_in(profile: Profile, book: &[u8], model: &[u8]) -> Answer {
    settled(judged(profile, book, model))
}

fn judged(profile: Profile, book: &[u8], model: &[u8]) -> Result<Answer, Answer> {
    let book = Book::accept(book)?;
    let model = Model::accept(book.bounds, model)?;
    let judge = Judge::new(profile, &book, model.stack);
    Ok(Answer::yes_or_no(judge.fits(&model.heap)))
}

/// A judge of heaps, for one profile, one book and one stack.
pub struct Judge<'a> {
    book: &'a Book<'a>,
    stack: Bytes,
    /// The locations at which separate heaps that share no cell may not meet all the same.
    barred: Set,
}

impl<'a> Judge<'a> {
    /// Works out the barred locations, once for all heaps: strongly disjoint heaps meet at named
    /// locations alone.
    pub fn new(profile: Profile, book: &'a Book<'a>, stack: Bytes) -> Judge<'a> {
        let barred = match profile {
            Profile::Strong => !named(&stack, book.bounds.v),
            Profile::Ordinary => 0,
        };
        Judge {
            book,
            stack,
            barred,
        }
    }

    /// Whether the stack with this heap fits the formula: it holds, and no path of the heap is too
    /// long. Parts and added heaps have no path bound.
    pub fn fits(&self, heap: &Heap) -> bool {
        is_short(&heap.value, heap.allocated, self.book.bounds.p)
            && self.holds(self.book.root(), &heap.value, heap.allocated)
    }

    /// Whether a node holds on the heap that has these values at the locations in `set`. Parts and
    /// unions are sets over the same values.
    fn holds(&self, node: usize, value: &Bytes, set: Set) -> bool {
        let [operator, a, b] = self.book.nodes[node].map(usize::from);
        match operator {
            1 => set == 0 && self.stack[a] == self.stack[b],
            2 => set == 0 && self.stack[a] != self.stack[b],
            3 => self.points_to(a, b, value, set),
            4 => self.list(a, b, value, set),
            5 => self.holds(a, value, set) && self.holds(b, value, set),
            6 => self.holds(a, value, set) || self.holds(b, value, set),
            7 => self.holds(a, value, set) && !self.holds(b, value, set),
            8 => !self.holds(a, value, set),
            9 => self.separates(a, b, value, set),
            10 => self.septracts(a, b, value, set),
            _ => unreachable!("an accepted book has operators 1 to 10"),
        }
    }

    /// Operator 3. Nil's bit is in no heap's set, so nothing points from nil.
    fn points_to(&self, x: usize, y: usize, value: &Bytes, set: Set) -> bool {
        let source = self.stack[x];
        set == 1 << source && value[usize::from(source)] == self.stack[y]
    }

    /// Operator 4. Each link takes its source out of the set, so no location comes twice, and in
    /// the end nothing may be left over.
    fn list(&self, x: usize, y: usize, value: &Bytes, set: Set) -> bool {
        let (mut at, last) = (self.stack[x], self.stack[y]);
        let mut left = set;
        while at != last {
            if left >> at & 1 == 0 {
                return false;
            }
            left ^= 1 << at;
            at = value[usize::from(at)];
        }
        left == 0
    }

    /// Operator 9: the parts of the set, upward.
    fn separates(&self, a: usize, b: usize, value: &Bytes, set: Set) -> bool {
        let mut part: Set = 0;
        loop {
            let rest = set ^ part;
            if self.apart(value, part, rest)
                && self.holds(a, value, part)
                && self.holds(b, value, rest)
            {
                return true;
            }
            if part == set {
                return false;
            }
            part = part.wrapping_sub(set) & set;
        }
    }

    /// Operator 10: the added heaps, in candidate order. Cells that meet the heap at a barred
    /// location are left out from the start.
    fn septracts(&self, a: usize, b: usize, value: &Bytes, set: Set) -> bool {
        let met = self.barred & locs(value, set);
        let targets = self.book.bounds.locations() & !met;
        let sources = self.book.bounds.cells() & !met & !set;
        let mut added = Heap {
            value: *value,
            allocated: 0,
        };
        loop {
            if self.holds(a, &added.value, added.allocated)
                && self.holds(b, &added.value, added.allocated | set)
            {
                return true;
            }
            if added.step(sources, targets) {
                return false;
            }
        }
    }

    /// Whether two sets of cells that share no cell are separate.
    fn apart(&self, value: &Bytes, one: Set, other: Set) -> bool {
        self.barred == 0 || locs(value, one) & locs(value, other) & self.barred == 0
    }
}
