//! The proved search's loop once more, in plain Rust, to count what it judges and which blocks it looks at, which the proved one
//! doesn't tell. It is a copy for counting, and nothing rests on it. Each module is named after the crates that it copies, with
//! the names of their functions, so that the two can be read side by side; the judge is the second bench's.

mod blocks;
mod candidates;
mod facts;
mod levels;

use second::answer::{Answer, Number};
use second::book::{Book, Bounds};
use second::candidate::count;
use second::judge::Judge;
use second::profile::Profile;

use blocks::{is_looking, level};
use candidates::{bump, heap_of, number_after, stack_of};
use facts::{root_facts, Entries};
use levels::{out_of_order_from, unnamed};

/// What a search has done.
#[derive(Clone, Copy, Debug, Default)]
pub struct Counts {
    /// The candidates that were judged.
    pub judged: u64,
    /// The blocks that were looked at, whether they are passed over: one for each stack that the search comes to, and those of a
    /// stack's heaps.
    pub blocks: u64,
}

/// The answer of the search of a book whose variables are all named, and what it took.
pub fn search(profile: Profile, book: &Book, budget: u64) -> (Answer, Counts) {
    let total = count(book.bounds);
    let mut sweep = Sweep {
        profile,
        book,
        counts: Counts::default(),
    };
    let answer = match sweep.through(total.min(budget)) {
        Some(number) => Answer::tried(Number::Yes, number + 1),
        None if total <= budget => Answer::tried(Number::No, total),
        None => Answer::tried(Number::Spent, budget),
    };
    (answer, sweep.counts)
}

/// The way through the candidates (crate `sweep`). Each step gives the number of the first that fits and is not passed over.
struct Sweep<'a> {
    profile: Profile,
    book: &'a Book<'a>,
    counts: Counts,
}

impl Sweep<'_> {
    /// The way through all candidates below `to`, from stack to stack.
    fn through(&mut self, to: u64) -> Option<u64> {
        let Bounds { v, n, .. } = self.book.bounds;
        let mut stack = 0;
        let mut i = 0;
        while i < to {
            self.counts.blocks += 1;
            let out_of_order = out_of_order_from(stack, v);
            let free = out_of_order.unwrap_or(0);
            let next = number_after(n, i, n + free);
            if out_of_order.is_none() {
                let found = self.stack(stack, i, next.min(to));
                if found.is_some() {
                    return found;
                }
            }
            stack = bump(stack, free, v, n + 1);
            i = next;
        }
        None
    }

    /// The way through the candidates with one stack.
    fn stack(&mut self, stack: u64, from: u64, to: u64) -> Option<u64> {
        let Bounds { v, n, .. } = self.book.bounds;
        let entries = root_facts(self.book, stack)?;
        let judge = Judge::new(self.profile, self.book, stack_of(stack, v));
        self.heaps(&judge, &entries, unnamed(stack, v, n), from, to)
    }

    /// The way through the heaps of one stack, which has these facts and these locations that are not named.
    fn heaps(
        &mut self,
        judge: &Judge,
        entries: &Entries,
        unnamed: u64,
        from: u64,
        to: u64,
    ) -> Option<u64> {
        let n = self.book.bounds.n;
        let looking = is_looking(entries, unnamed, n);
        let mut heap = 0;
        let mut i = from;
        while i < to {
            let (over, looked) = level(looking, entries, unnamed, n, heap);
            self.counts.blocks += looked;
            if over.is_none() {
                self.counts.judged += 1;
                if judge.fits(&heap_of(heap, n)) {
                    return Some(i);
                }
            }
            let free = over.unwrap_or(0);
            heap = bump(heap, free, n, n + 2);
            i = number_after(n, i, free);
        }
        None
    }
}
