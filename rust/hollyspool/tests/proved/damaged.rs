//! Accepted books, damaged in one place each.

use std::collections::BTreeSet;

use cases::line::all;
use cases::made::book;
use second::book::CONTENTS;

use crate::compare::{same_reading, MOST};

/// Ends of ranges in a book, and their neighbours.
const BYTES: [u8; 26] = [
    0, 1, 2, 3, 4, 5, 6, 7, 8, 9, 10, 11, 12, 13, 14, 15, 16, 63, 64, 65, 127, 128, 192, 206, 254,
    255,
];

#[test]
fn undamaged() {
    for book in accepted() {
        assert_eq!(hollyspool::read(&book).number, 0, "{book:?}");
    }
}

#[test]
fn cut_short() {
    for book in accepted() {
        for length in 0..=book.len() {
            same_reading(&book[..length]);
        }
    }
}

/// Under contents that are left as they were, and under contents that say so.
#[test]
fn one_byte_longer() {
    for mut book in accepted() {
        book.push(0);
        let last = book.len() - 1;
        for byte in 0..=255 {
            book[last] = byte;
            same_reading(&book);
        }
        let length = u16::from_le_bytes([book[9], book[10]]) + 1;
        book[9..CONTENTS].copy_from_slice(&length.to_le_bytes());
        same_reading(&book);
    }
}

#[test]
fn one_byte_changed() {
    for mut book in accepted() {
        for at in 0..book.len() {
            let byte = book[at];
            for other in BYTES
                .into_iter()
                .chain([byte.wrapping_add(1), byte.wrapping_sub(1)])
            {
                book[at] = other;
                same_reading(&book);
            }
            book[at] = byte;
        }
    }
}

/// Two neighbouring bytes, entries or nodes in each other's place.
#[test]
fn two_fields_swapped() {
    for mut book in accepted() {
        let fields = (0..book.len() - 1).map(|at| (at, 1));
        let entries = [(1, 5)].into_iter();
        let nodes = (CONTENTS + 3..book.len() - 3).step_by(3).map(|at| (at, 3));
        for (at, length) in fields.chain(entries).chain(nodes) {
            book[at..at + 2 * length].rotate_left(length);
            same_reading(&book);
            book[at..at + 2 * length].rotate_left(length);
        }
    }
}

/// The formula starting at every byte, under contents that say so.
#[test]
fn bodies_moved() {
    for mut book in accepted() {
        for length in 0..=book.len() - CONTENTS {
            book[4] = length as u8;
            book[7] = (CONTENTS + length) as u8;
            book[9] = (book.len() - CONTENTS - length) as u8;
            same_reading(&book);
        }
    }
}

#[test]
fn lengths() {
    for length in [
        0, 1, 2, 10, 11, 12, 13, 14, 16, 17, 205, 206, 207, 255, 256, 65_535,
    ] {
        for byte in BYTES {
            same_reading(&vec![byte; length]);
        }
        let mut longest = largest();
        longest.resize(length, 0);
        same_reading(&longest);
    }
}

/// The books of the case lines that are accepted, each once, and some made here.
fn accepted() -> BTreeSet<Vec<u8>> {
    let mut books: BTreeSet<Vec<u8>> = all().into_iter().map(|case| case.book).collect();
    books.retain(|book| second::book::read(book).number == 0);
    books.extend([
        book([0, 0, 0], &[[1, 0, 0]]),
        book([MOST; 3], &[[4, MOST, 0], [8, 0, 0]]),
        book([1, 2, 3], &[[3, 1, 0], [2, 0, 1], [10, 1, 0]]),
        largest(),
    ]);
    books
}

/// The longest book: 32 atoms, joined by 31 nodes, and a negation above them.
fn largest() -> Vec<u8> {
    let mut nodes = vec![[4, MOST, MOST - 1]; 32];
    nodes.extend((0..31).map(|join| [9, 2 * join, 2 * join + 1]));
    nodes.push([8, 62, 0]);
    book([MOST; 3], &nodes)
}
