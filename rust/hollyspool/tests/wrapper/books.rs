//! Books there and back, and the notation of formulas.

use std::collections::BTreeMap;

use cases::made::{book, small, tree};
use cases::random::Random;
use hollyspool::{
    search, Book, Bounds, Formula, Refusal, Unwritable, Verdict, MOST_MODEL, MOST_NODES, NIL,
};

const OPERATORS: [u8; 10] = [1, 2, 3, 4, 5, 6, 7, 8, 9, 10];

/// A book's formula, written anew, is accepted and has that formula; its nodes may be numbered
/// otherwise.
#[test]
fn there_and_back() {
    let mut random = Random::new(0xB00C);
    for round in 0..5_000 {
        let [v, n, p] = [(); 3].map(|()| random.up_to(Bounds::MOST));
        let nodes = tree(&mut random, v, 1 + round % MOST_NODES, &OPERATORS);
        let made = book([v, n, p], &nodes);
        let accepted = Book::accept(&made).expect("it is accepted");
        assert_eq!(accepted.bytes(), made);
        let written = Book::new(v, n, p, accepted.formula()).expect("it can be written");
        assert_eq!(written.bounds(), accepted.bounds());
        assert_eq!(Book::accept(written.bytes()), Ok(written));
    }
}

/// The lowest variable that a book lists as stray is the one that the search names.
#[test]
fn stray_as_the_search_says() {
    let mut random = Random::new(0x57A1);
    for round in 0..20_000 {
        let [v, n, p] = [(); 3].map(|()| random.up_to(Bounds::MOST));
        let nodes = tree(&mut random, v, 1 + round % 16, &OPERATORS);
        let book = Book::accept(&book([v, n, p], &nodes)).expect("it is accepted");
        let searched = search(book.bytes(), 0, &mut [0; MOST_MODEL]).settled();
        let expected = match book.stray().first() {
            Some(&variable) => Err(Refusal::StrayVariable {
                variable: variable.into(),
            }),
            None => Ok(Verdict::Spent),
        };
        assert_eq!(searched, expected, "{book:?}");
    }
}

/// Different formulas read differently.
#[test]
fn notation_is_unambiguous() {
    let mut written: BTreeMap<String, Formula> = BTreeMap::new();
    for nodes in small(1) {
        let accepted = Book::accept(&book([1, 1, 1], &nodes)).expect("it is accepted");
        let formula = accepted.formula().clone();
        for formula in [formula.clone().and_not(formula.clone()), formula] {
            let before = written.insert(formula.to_string(), formula.clone());
            assert!(before.is_none_or(|before| before == formula), "{formula}");
        }
    }
}

#[test]
fn brackets() {
    let [x, y] = [1, 2];
    let cell = || Formula::Points(x, y);
    let list = || Formula::List(y, NIL);
    for (formula, text) in [
        (Formula::Equal(x, y), "x1 = x2"),
        (Formula::Differ(x, NIL), "x1 ≠ nil"),
        (cell(), "x1 ↦ x2"),
        (list(), "ls(x2, nil)"),
        (cell().and(list()), "x1 ↦ x2 ∧ ls(x2, nil)"),
        (cell().or(list().negated()), "x1 ↦ x2 ∨ ¬ls(x2, nil)"),
        (cell().and_not(list()), "x1 ↦ x2 ∧ ¬ls(x2, nil)"),
        (cell().and(list().negated()), "x1 ↦ x2 ∧ (¬ls(x2, nil))"),
        (cell().negated(), "¬(x1 ↦ x2)"),
        (list().negated().negated(), "¬¬ls(x2, nil)"),
        (
            cell().star(list()).star(cell()),
            "(x1 ↦ x2 * ls(x2, nil)) * x1 ↦ x2",
        ),
        (
            cell().septraction(list().or(cell())),
            "x1 ↦ x2 −⊛ (ls(x2, nil) ∨ x1 ↦ x2)",
        ),
    ] {
        assert_eq!(formula.to_string(), text);
    }
}

#[test]
fn what_makes_no_book() {
    let empty = Formula::Equal(NIL, NIL);
    let chain = |count| (1..count).fold(empty.clone(), |formula, _| formula.negated());
    assert!(Book::new(0, 0, 0, &chain(MOST_NODES)).is_ok());
    for (book, error, words) in [
        (
            Book::new(0, 0, 0, &chain(MOST_NODES + 1)),
            Unwritable::Nodes { count: 65 },
            "the formula has 65 nodes, but a book has at most 64",
        ),
        (
            Book::new(0, 9, 0, &empty),
            Unwritable::Bound {
                name: 'n',
                value: 9,
            },
            "n is 9, but a bound is 0 to 8",
        ),
        (
            Book::new(2, 2, 2, &empty.clone().star(Formula::List(1, 3))),
            Unwritable::Variable { variable: 3, v: 2 },
            "the formula mentions x3, but v is 2",
        ),
    ] {
        assert_eq!(book, Err(error));
        assert_eq!(error.to_string(), words);
    }
}
