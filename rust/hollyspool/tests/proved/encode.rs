//! The encoder: all small books, random books at every length of output.

use cases::made::{book, small, tree};
use cases::random::Random;
use hollyspool::MOST_ENCODED;
use second::encode::encode_in;

use crate::compare::{proved, MOST, PROFILES};

/// Few negations, so that most books have an encoding.
const OPERATORS: [u8; 16] = [1, 2, 3, 3, 4, 4, 5, 5, 6, 6, 7, 8, 9, 9, 10, 10];

#[test]
fn every_small_book() {
    for p in 0..=MOST {
        for nodes in small(2) {
            same_encoding(&book([2, 2, p], &nodes), 200);
        }
    }
}

#[test]
fn random_books() {
    let mut random = Random::new(0xE2C);
    for round in 0..5_000 {
        let bounds = [(); 3].map(|()| random.up_to(MOST));
        let nodes = tree(&mut random, bounds[0], 1 + round % 64, &OPERATORS);
        let book = book(bounds, &nodes);
        for length in same_encoding(&book, MOST_ENCODED + 1) {
            for room in [
                length.saturating_sub(1),
                length,
                length + 1,
                random.below(MOST_ENCODED),
            ] {
                same_encoding(&book, room);
            }
        }
    }
}

/// Compares two encodings in each profile, and every byte of their outputs. Gives the lengths that were
/// written.
fn same_encoding(book: &[u8], room: usize) -> [usize; 2] {
    PROFILES.map(|(profile, second)| {
        let (mut out, mut expected) = (vec![0xA5; room], vec![0xA5; room]);
        let answer = proved(hollyspool::encode_in(profile, book, &mut out));
        let second = encode_in(second, book, &mut expected);
        assert_eq!(
            (answer, &out),
            (second, &expected),
            "{room} for {book:?} in {profile:?}"
        );
        match second.number {
            0 => 14 + usize::from(u16::from_le_bytes([out[9], out[10]])),
            _ => 0,
        }
    })
}
