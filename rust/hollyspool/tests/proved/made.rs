//! Random books, accepted and nearly so.

use cases::made::{book, tree};
use cases::random::Random;
use second::book::CONTENTS;

use crate::compare::{same_reading, MOST};

const OPERATORS: [u8; 10] = [1, 2, 3, 4, 5, 6, 7, 8, 9, 10];

#[test]
fn accepted_books() {
    let mut random = Random::new(0x5EED);
    for round in 0..100_000 {
        let book = made(&mut random, round);
        assert_eq!(hollyspool::read(&book).number, 0, "{book:?}");
        same_reading(&book);
    }
}

/// Up to three bytes of the bodies changed by a little, so that most books get past the contents.
#[test]
fn nearly_accepted_books() {
    let mut random = Random::new(0xDA11A6E);
    for round in 0..300_000 {
        let mut book = made(&mut random, round);
        for _ in 0..=random.below(3) {
            let at = CONTENTS + random.below(book.len() - CONTENTS);
            book[at] = match random.below(4) {
                0 => random.byte(),
                1 => random.up_to(12),
                2 => book[at].wrapping_add(1),
                _ => book[at].wrapping_sub(1),
            };
        }
        same_reading(&book);
    }
}

/// Any nodes at all, under contents that are as stated.
#[test]
fn any_nodes() {
    let mut random = Random::new(0xF0E57);
    for _ in 0..200_000 {
        let count = random.below(5);
        let nodes: Vec<[u8; 3]> = (0..count)
            .map(|_| [random.up_to(11), random.up_to(4), random.up_to(4)])
            .collect();
        let bounds = [(); 3].map(|()| random.up_to(MOST + 1));
        same_reading(&book(bounds, &nodes));
    }
}

fn made(random: &mut Random, round: usize) -> Vec<u8> {
    let bounds = [(); 3].map(|()| random.up_to(MOST));
    let nodes = tree(random, bounds[0], 1 + round % 64, &OPERATORS);
    book(bounds, &nodes)
}
