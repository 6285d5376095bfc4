//! The search beside the second bench, which tries each candidate in turn: the same answer and the same bytes
//! at every budget that tells one from another.

use cases::cost::{any_size, tame};
use cases::made::{book, exchanged, name_all, small, tree};
use cases::random::Random;
use second::answer::{Answer, Number};
use second::book::Bounds;
use second::candidate::count;
use second::search::search_in;

use crate::compare::{proved, PROFILES};
use crate::search::OPERATORS;

/// What the output holds before a search.
const BEFORE: u8 = 0xA5;

/// So many candidates are few.
const FEW: u64 = 48;

/// The nodes that trying all candidates of one random book may visit.
const VISITS: u64 = 4_000_000;

/// Every book of up to three nodes over up to two variables and three locations.
#[test]
fn every_small_book() {
    for v in 0..=2 {
        let trees = small(v);
        for n in 0..=3 {
            for p in 0..=n {
                for nodes in &trees {
                    same_at_every_budget([v, n, p], nodes);
                }
            }
        }
    }
}

#[test]
fn random_books() {
    let mut random = Random::new(0x10E);
    let mut answers = [0; 3];
    for round in 0..4_000 {
        let [most, n, p] = [(); 3].map(|()| random.up_to(4));
        let mut nodes = tree(&mut random, most, 1 + round % 24, &OPERATORS);
        let v = name_all(&mut random, &mut nodes, most);
        let most = VISITS / total([v, n, p]);
        if tame(&mut nodes, n, any_size(n), most.min(10_000)) <= most {
            for answer in same_at_every_budget([v, n, p], &nodes) {
                answers[answer] += 1;
            }
        }
    }
    assert!(answers.iter().all(|&count| count > 100), "{answers:?}");
}

#[test]
fn exchanges() {
    for n in 2..=4 {
        for (bounds, nodes) in exchanged(n) {
            let [_, ordinary] = same_at_every_budget(bounds, &nodes);
            assert_eq!(ordinary, 1, "{bounds:?}");
        }
    }
}

/// Compares searches of a book, in each profile. Says whether something fits at candidate 0 (0), at a later
/// one (1), or nothing (2).
fn same_at_every_budget(bounds: [u8; 3], nodes: &[[u8; 3]]) -> [usize; 2] {
    let book = book(bounds, nodes);
    let room = usize::from(bounds[0] + bounds[1]) + 1;
    let total = total(bounds);
    PROFILES.map(|(profile, second)| {
        let mut lowest = vec![BEFORE; room];
        let whole = search_in(second, &book, u64::MAX, &mut lowest);
        for budget in budgets(whole.tried, total) {
            let mut out = vec![BEFORE; room];
            let answer = proved(hollyspool::search_in(profile, &book, budget, &mut out));
            let (expected, bytes) = match budget < whole.tried {
                true => (Answer::tried(Number::Spent, budget), &vec![BEFORE; room]),
                false => (whole, &lowest),
            };
            assert_eq!(
                (answer, &out),
                (expected, bytes),
                "{budget} for {book:?} in {profile:?}"
            );
        }
        match whole {
            Answer {
                number: 0,
                tried: 1,
                ..
            } => 0,
            Answer { number: 0, .. } => 1,
            _ => 2,
        }
    })
}

/// Every budget up to T and one more where candidates are few; otherwise budgets around the first fit, or
/// around T where there is none, each once. A book that is refused has tried none.
fn budgets(tried: u64, total: u64) -> Vec<u64> {
    if total <= FEW {
        return (0..=total + 1).chain([u64::MAX]).collect();
    }
    let mut budgets = vec![0, tried / 2, tried.saturating_sub(1), tried, u64::MAX];
    if tried == total {
        budgets.push(total + 1);
    }
    budgets.dedup();
    budgets
}

fn total([v, n, p]: [u8; 3]) -> u64 {
    let [v, n, p] = [v, n, p].map(usize::from);
    count(Bounds { v, n, p })
}
