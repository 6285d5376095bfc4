//! Texts of books: read back, they hold on the same models.

use std::fs;

use cases::cost::{any_size, tame};
use cases::made::{book, name_all, small, tree};
use cases::random::Random;
use hollyspool::{judge, Book, Bounds, Refusal, Verdict, MOST_NODES};

use crate::candidates::candidate;

const OPERATORS: [u8; 13] = [1, 2, 3, 3, 4, 4, 5, 6, 7, 8, 9, 9, 10];

/// A book that was written and read again, with the names of its variables.
struct Back {
    book: Book,
    names: Vec<String>,
}

impl Back {
    /// The book of a book's text, at the same n and p.
    fn of(book: &Book) -> Result<Back, Refusal> {
        let Bounds { n, p, .. } = book.bounds();
        let text = book.text().expect("an accepted book has a text");
        let (book, names) = Book::parse(text, n.into(), p.into())?;
        Ok(Back { book, names })
    }

    /// The model that gives each name the location that its variable has.
    fn matched(&self, model: &[u8]) -> Vec<u8> {
        let mut matched = model.to_vec();
        for (at, location) in model.iter().enumerate().take(self.names.len()) {
            let variable = format!("v{}", at + 1);
            let name = self.names.iter().position(|name| *name == variable);
            matched[name.expect("each variable is named")] = *location;
        }
        matched
    }

    fn agrees(&self, book: &Book, model: &[u8]) {
        let matched = self.matched(model);
        let [one, other] = [(book, model), (&self.book, &matched)]
            .map(|(book, model)| judge(book.bytes(), model).settled().expect("in range"));
        assert_eq!(one, other, "{book:?} on {model:?}");
    }
}

#[test]
fn every_small_book() {
    for [v, n] in [[0, 2], [1, 1], [1, 2], [2, 1]] {
        for nodes in small(v) {
            let book = Book::accept(&book([v, n, 1], &nodes)).expect("it is accepted");
            if !book.stray().is_empty() {
                continue;
            }
            let back = Back::of(&book).expect("three nodes are few");
            for number in 0..book.bounds().candidates() {
                back.agrees(&book, &candidate(book.bounds(), number));
            }
        }
    }
}

#[test]
fn random_books() {
    let mut random = Random::new(0x8EAD);
    let mut fits = [0; 2];
    for round in 0..4_000 {
        let [most, n, p] = [(); 3].map(|()| random.up_to(3));
        let mut nodes = tree(&mut random, most, 1 + round % 12, &OPERATORS);
        let v = name_all(&mut random, &mut nodes, most);
        tame(&mut nodes, n, any_size(n), 1_000);
        let book = Book::accept(&book([v, n, p], &nodes)).expect("it is accepted");
        let Ok(back) = Back::of(&book) else { continue };
        for _ in 0..20 {
            let number = random.below(book.bounds().candidates() as usize);
            let model = candidate(book.bounds(), number as u64);
            back.agrees(&book, &model);
            let fit = judge(book.bytes(), &model).settled() == Ok(Verdict::Yes);
            fits[usize::from(fit)] += 1;
        }
    }
    assert!(fits.iter().all(|&count| count > 5_000), "{fits:?}");
}

/// A stray variable names its location in the book, and does not stand in the text: document 01's P8
/// and P7. So a book with one may hold where its text does not.
#[test]
fn stray_variable() {
    let some_cell = "(not (and (= sep.nil sep.nil) sep.emp))";
    let nodes = [[1, 0, 0], [8, 0, 0], [1, 0, 0], [8, 2, 0], [9, 1, 3]];
    let book = Book::accept(&book([1, 3, 3], &nodes)).expect("it is accepted");
    assert_eq!(book.stray(), [1]);
    assert_eq!(book.text(), Ok(format!("(sep {some_cell} {some_cell})")));
    let back = Back::of(&book).expect("it is read");
    assert_eq!(back.book.bounds().v, 0);
    // Cells 1 and 2 both hold 3.
    let cells = [3, 3, 255];
    let with = judge(book.bytes(), &[&[3], &cells[..]].concat());
    assert_eq!(with.settled(), Ok(Verdict::Yes));
    let without = judge(back.book.bytes(), &cells);
    assert_eq!(without.settled(), Ok(Verdict::No));
}

/// A text that is too deep, or that makes too many nodes, is written and not read.
#[test]
fn not_read_back() {
    let mut deep = vec![[3, 1, 1]];
    deep.extend((0..16).map(|below| [8, below, 0]));
    let deep = Book::accept(&book([1, 1, 1], &deep)).expect("it is accepted");
    let refused = Back::of(&deep).err();
    assert_eq!(refused, Some(Refusal::BadText { byte: 80 }));

    // 11 equations of six nodes and 10 joins: 76 nodes.
    let mut many = vec![[1, 1, 1]; 11];
    many.extend((0..10).map(|join| [5, 2 * join, 2 * join + 1]));
    assert!(many.len() < MOST_NODES);
    let many = Book::accept(&book([1, 1, 1], &many)).expect("it is accepted");
    assert!(matches!(
        Back::of(&many).err(),
        Some(Refusal::ManyNodes { .. })
    ));
}

/// The sample books.
#[test]
fn samples() {
    let books = concat!(env!("CARGO_MANIFEST_DIR"), "/../../books");
    for file in fs::read_dir(books).expect("a folder") {
        let path = file.expect("a file").path();
        let book = Book::accept(&fs::read(&path).expect("a sample")).expect("a book");
        let back = Back::of(&book).expect("it is read");
        for number in 0..book.bounds().candidates() {
            back.agrees(&book, &candidate(book.bounds(), number));
        }
    }
}
