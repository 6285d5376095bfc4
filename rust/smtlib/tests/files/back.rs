//! Texts of books in whole files, translated back.

use cases::made::{book, small, tree};
use cases::random::Random;
use hollyspool::{Book, Bounds};
use smtlib::{is_whole_file, translate, whole_file};

/// The file of a book's text becomes that text again, with an equation for each declared variable
/// that does not stand in it.
fn same_text(bounds: [u8; 3], nodes: &[[u8; 3]]) {
    let book = Book::accept(&book(bounds, nodes)).expect("it is accepted");
    let text = book.text().expect("a text");
    let names: Vec<String> = (1..=bounds[0]).map(|x| format!("v{x}")).collect();
    let file = whole_file(&text, &names);
    assert!(is_whole_file(file.as_bytes()));
    let body = translate(file.as_bytes()).unwrap_or_else(|unknown| panic!("{unknown:?}: {file}"));
    let equation = |x: &u8| format!("(= v{x} v{x})");
    let stray: Vec<String> = book.stray().iter().map(equation).collect();
    let whole = [text].into_iter().chain(stray).rev();
    let expected = whole.reduce(|rest, one| format!("(and {one} {rest})"));
    let words: Vec<&str> = body.text.split_whitespace().collect();
    assert_eq!(Some(words.join(" ")), expected);
    assert!(body.renamed.is_empty());
}

#[test]
fn every_small_book() {
    for nodes in small(2) {
        same_text([2, 2, 2], &nodes);
    }
}

#[test]
fn random_books() {
    let mut random = Random::new(0xF11E);
    for round in 0..5_000 {
        let v = random.up_to(Bounds::MOST);
        let nodes = tree(
            &mut random,
            v,
            1 + round % 64,
            &[1, 2, 3, 4, 5, 6, 7, 8, 9, 10],
        );
        same_text([v, 3, 3], &nodes);
    }
}
