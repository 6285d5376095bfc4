//! The search: random books, outputs that are too short.

use cases::cost::{any_size, tame};
use cases::made::{book, name_all, tree};
use cases::random::Random;
use second::search::search_in;

use crate::compare::{proved, MOST, PROFILES};

pub const OPERATORS: [u8; 16] = [1, 2, 2, 3, 3, 3, 4, 5, 5, 6, 7, 8, 9, 9, 9, 10];

/// The node visits that one random search may take.
const VISITS: u64 = 2_000_000;

#[test]
fn random_books() {
    let mut random = Random::new(0x5EA);
    for round in 0..3_000 {
        let (bounds, mut nodes) = made(&mut random, 1 + round % 64, &OPERATORS);
        let most = random.one_of(&[100, 10_000, 600_000]);
        let visits = tame(&mut nodes, bounds[1], any_size(bounds[1]), most);
        let limit = (VISITS / visits).clamp(1, 200_000);
        let room = usize::from(bounds[0] + bounds[1]) + random.below(3);
        same_search(&book(bounds, &nodes), limit, room);
        same_search(
            &book(bounds, &nodes),
            random.below(limit as usize) as u64,
            room,
        );
    }
}

/// Whatever would be found, under v + n bytes is too short; a stray variable comes before.
#[test]
fn short_outputs() {
    let mut random = Random::new(0x5807);
    for round in 0..20_000 {
        let (bounds, nodes) = made(&mut random, 1 + round % 8, &[1, 2, 3, 4, 5, 6, 8]);
        let budget = random.one_of(&[0, 1, 2, 100]);
        let room = random.below(2 * usize::from(MOST) + 4);
        same_search(&book(bounds, &nodes), budget, room);
    }
}

/// Bounds and a tree whose atoms name every variable, but for some with stray ones.
fn made(random: &mut Random, count: usize, operators: &[u8]) -> ([u8; 3], Vec<[u8; 3]>) {
    let mut bounds = [(); 3].map(|()| random.up_to(MOST));
    let mut nodes = tree(random, bounds[0], count, operators);
    if random.below(8) > 0 {
        bounds[0] = name_all(random, &mut nodes, bounds[0]);
    }
    (bounds, nodes)
}

/// Compares two searches and every byte of their outputs.
fn same_search(book: &[u8], budget: u64, room: usize) {
    for (profile, second) in PROFILES {
        let (mut out, mut expected) = (vec![0xA5; room], vec![0xA5; room]);
        let answer = proved(hollyspool::search_in(profile, book, budget, &mut out));
        let second = search_in(second, book, budget, &mut expected);
        assert_eq!(
            (answer, out),
            (second, expected),
            "{budget} for {book:?} in {profile:?}"
        );
    }
}
