//! Texts, as the proved import and the second bench read them.

use std::collections::BTreeSet;

use cases::line::{about, Call};
use cases::random::Random;
use cases::texts::{text, tokens, Shape};
use hollyspool::{Book, MOST_BOOK};

use crate::compare::proved;

/// The texts of the lines, cut at every length, and with every byte changed.
#[test]
fn damaged_texts() {
    let mut bytes = b"() \n\t\r.;=aelnopstx09XZ\0\xff".iter().cycle();
    let texts: BTreeSet<Vec<u8>> = about(Call::Import).into_iter().map(|c| c.book).collect();
    for mut text in texts {
        same(&text);
        for at in 0..text.len() {
            same(&text[..at]);
            let byte = text[at];
            text[at] = *bytes.next().expect("a cycle has no end");
            same(&text);
            text[at] = byte;
        }
    }
}

/// Any n and p.
#[test]
fn bounds() {
    for n in (0..=10).chain([255, 256, 1 << 32, u64::MAX]) {
        for p in (0..=10).chain([255, 256, 1 << 32, u64::MAX]) {
            for text in ["(ls x y)", "(ls x y", ""] {
                same_at(text.as_bytes(), n, p, 17);
                same_at(text.as_bytes(), n, p, 16);
            }
        }
    }
}

/// A text that is accepted has a name for each variable, and its book is accepted with all of them
/// named.
#[test]
fn names() {
    let mut random = Random::new(0x7E47);
    let mut parsed = 0;
    for round in 0..20_000 {
        let shape = Shape {
            items: 1 + round % 24,
            depth: 16,
            names: 1 + round % 9,
        };
        let tokens = tokens(&mut random, shape);
        let text = text(&mut random, &tokens, round % 3);
        same(&text);
        if let Ok((book, names)) = Book::parse(&text, 3, 2) {
            assert_eq!(names.len(), usize::from(book.bounds().v));
            assert!(book.stray().is_empty());
            assert_eq!((book.bounds().n, book.bounds().p), (3, 2));
            parsed += 1;
        }
    }
    assert!(parsed > 10_000, "{parsed}");
}

/// Compares both benches on one text.
fn same(text: &[u8]) {
    same_at(text, 2, 3, MOST_BOOK);
}

fn same_at(text: &[u8], n: u64, p: u64, room: usize) {
    let [mut one, mut other] = [(); 2].map(|()| vec![0xA5; room]);
    let answer = proved(hollyspool::import(text, n, p, &mut one));
    let expected = second::import::import(text, n, p, &mut other);
    let shown = String::from_utf8_lossy(text);
    assert_eq!(answer, expected, "{shown}");
    assert_eq!(one, other, "{shown}");
}
