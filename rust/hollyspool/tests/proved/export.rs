//! The text of a book: all small books, random books at every length of output.

use cases::made::{book, small, tree};
use cases::random::Random;
use hollyspool::MOST_TEXT;
use second::write::export;

use crate::compare::{proved, MOST};

const OPERATORS: [u8; 10] = [1, 2, 3, 4, 5, 6, 7, 8, 9, 10];

#[test]
fn every_small_book() {
    for nodes in small(2) {
        let book = book([2, 2, 2], &nodes);
        let length = same_text(&book, MOST_TEXT);
        for room in 0..=length {
            same_text(&book, room);
        }
    }
}

#[test]
fn random_books() {
    let mut random = Random::new(0x8E2C);
    for round in 0..20_000 {
        let bounds = [(); 3].map(|()| random.up_to(MOST));
        let nodes = tree(&mut random, bounds[0], 1 + round % 64, &OPERATORS);
        let book = book(bounds, &nodes);
        let length = same_text(&book, MOST_TEXT);
        for room in [length - 1, length, length + 1, random.below(MOST_TEXT)] {
            same_text(&book, room);
        }
    }
}

/// A byte changed: most such books are refused.
#[test]
fn damaged_books() {
    let mut random = Random::new(0xDA8);
    for round in 0..20_000 {
        let bounds = [(); 3].map(|()| random.up_to(MOST));
        let nodes = tree(&mut random, bounds[0], 1 + round % 16, &OPERATORS);
        let mut book = book(bounds, &nodes);
        let at = random.below(book.len());
        book[at] = random.up_to(12);
        same_text(&book, MOST_TEXT);
        same_text(&book, random.below(MOST_TEXT));
    }
}

/// 32 inequalities of nil, a septraction for each two formulas, and a negation above them.
#[test]
fn longest() {
    let mut nodes = vec![[2, 0, 0]; 32];
    nodes.extend((0..31).map(|join| [10, 2 * join, 2 * join + 1]));
    nodes.push([8, 62, 0]);
    let book = book([MOST; 3], &nodes);
    assert_eq!(same_text(&book, MOST_TEXT), MOST_TEXT);
    same_text(&book, MOST_TEXT - 1);
}

/// Compares two texts and every byte of their outputs. Gives the length that was written.
fn same_text(book: &[u8], room: usize) -> usize {
    let (mut out, mut expected) = (vec![0; room], vec![0; room]);
    let answer = proved(hollyspool::export(book, &mut out));
    let second = export(book, &mut expected);
    assert_eq!((answer, &out), (second, &expected), "{room} for {book:?}");
    out.iter().position(|&byte| byte == 0).unwrap_or(room)
}
