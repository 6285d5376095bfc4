//! Document 01, "Candidates and budget": the search; and document 02, [3]: the books it
//! refuses, and [9]: the profile.

use crate::answer::{settled, Answer, Number};
use crate::book::{Book, Bounds};
use crate::candidate::count;
use crate::judge::Judge;
use crate::model::Model;
use crate::profile::Profile;

/// Looks for the lowest candidate that fits, and writes it if its number is below the budget.
pub fn search(book: &[u8], budget: u64, out: &mut [u8]) -> Answer {
    search_in(Profile::Strong, book, budget, out)
}

/// The same in a profile.
pub fn search_in(profile: Profile, book: &[u8], budget: u64, out: &mut [u8]) -> Answer {
    settled(searched(profile, book, budget, out))
}

fn searched(profile: Profile, book: &[u8], budget: u64, out: &mut [u8]) -> Result<Answer, Answer> {
    let book = Book::accept(book)?;
    if let Some(variable) = stray(&book) {
        return Err(Answer::at(Number::StrayVariable, variable));
    }
    let Bounds { v, n, .. } = book.bounds;
    let out = out
        .get_mut(..v + n)
        .ok_or(Answer::plain(Number::OutputShort))?;
    let total = count(book.bounds);
    let (found, tried) = first_fit(profile, &book, Model::default(), total.min(budget));
    Ok(match found {
        Some(model) => {
            model.write(book.bounds, out);
            Answer::tried(Number::Yes, tried)
        }
        None if tried == total => Answer::tried(Number::No, tried),
        None => Answer::tried(Number::Spent, tried),
    })
}

/// The lowest declared variable that no atom names. Operands of connectives are nodes.
fn stray(book: &Book) -> Option<usize> {
    let atoms = || book.nodes.iter().filter(|node| node[0] <= 4);
    (1..=book.bounds.v)
        .find(|&variable| !atoms().any(|&[_, a, b]| [a, b].map(usize::from).contains(&variable)))
}

/// The first candidate that fits among `limit` candidates from this one on, and how many were tried: each
/// of them, one after the other.
pub fn first_fit(
    profile: Profile,
    book: &Book,
    mut candidate: Model,
    limit: u64,
) -> (Option<Model>, u64) {
    let (cells, locations) = (book.bounds.cells(), book.bounds.locations());
    let mut tried = 0;
    loop {
        let judge = Judge::new(profile, book, candidate.stack);
        loop {
            if tried == limit {
                return (None, tried);
            }
            tried += 1;
            if judge.fits(&candidate.heap) {
                return (Some(candidate), tried);
            }
            if candidate.heap.step(cells, locations) {
                break;
            }
        }
        candidate.step_stack(book.bounds);
    }
}
