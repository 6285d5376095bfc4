//! The calls in a profile, and the plain ones, which are the strong ones.

use hollyspool::{
    assign, assign_in, encode, encode_in, judge, judge_in, search, search_in, Book, Formula,
    Profile, MOST_ENCODED, NIL,
};

use crate::candidates::candidate;

/// P7's formula: two parts that both have cells.
fn two_parts() -> Formula {
    let some_cell = || Formula::Equal(NIL, NIL).negated();
    some_cell().star(some_cell())
}

/// x = 1, y = 2 ; 1→3, 2→3.
const P7: [u8; 5] = [1, 2, 3, 3, 255];

#[test]
fn p7() {
    let book = Book::new(2, 3, 3, &two_parts()).expect("it can be written");
    let numbers = Profile::ALL.map(|profile| judge_in(profile, book.bytes(), &P7).number);
    assert_eq!(numbers, [1, 0]);
    // Array 0, set 0, and a set for each part.
    let assignment = [1, 2, 3, 3, 0, 0b11, 0b01, 0b10];
    let numbers = Profile::ALL.map(|profile| assign_in(profile, book.bytes(), &assignment).number);
    assert_eq!(numbers, [1, 0]);
}

#[test]
fn plain_calls_are_strong() {
    assert_eq!(Profile::default(), Profile::Strong);
    let book = Book::new(0, 3, 3, &two_parts()).expect("it can be written");
    let bytes = book.bytes();
    let mut apart = 0;
    for number in 0..book.bounds().candidates() {
        let model = candidate(book.bounds(), number);
        let [strong, ordinary] = Profile::ALL.map(|profile| judge_in(profile, bytes, &model));
        assert_eq!(judge(bytes, &model), strong);
        apart += usize::from(strong != ordinary);
        let assignment = [&model[..], &[3, 1, 2]].concat();
        assert_eq!(
            assign(bytes, &assignment),
            assign_in(Profile::Strong, bytes, &assignment)
        );
    }
    assert!(apart > 0);
    let [mut one, mut other] = [[0xA5; 3]; 2];
    assert_eq!(
        search(bytes, u64::MAX, &mut one),
        search_in(Profile::Strong, bytes, u64::MAX, &mut other)
    );
    assert_eq!(one, other);
    let [mut one, mut other] = [[0xA5; MOST_ENCODED]; 2];
    assert_eq!(
        encode(bytes, &mut one),
        encode_in(Profile::Strong, bytes, &mut other)
    );
    assert_eq!(one, other);
}

/// Every APART row goes, and the AND after it; LONG and AND stay at the end.
#[test]
fn rows() {
    let one_cell = |x| Formula::Points(x, NIL);
    let formula = one_cell(1).septraction(one_cell(1).star(one_cell(2)));
    let book = Book::new(2, 2, 2, &formula).expect("it can be written");
    let [strong, ordinary] = Profile::ALL.map(|profile| {
        let mut out = [0; MOST_ENCODED];
        assert_eq!(encode_in(profile, book.bytes(), &mut out).number, 0);
        let rows = usize::from(out[9]) + 256 * usize::from(out[10]);
        let operators = out[14..14 + rows].chunks(10).map(|row| row[0]);
        operators.collect::<Vec<u8>>()
    });
    assert_eq!(strong.len() - ordinary.len(), 4);
    assert_eq!(strong.iter().filter(|&&row| row == 11).count(), 2);
    assert!(!ordinary.contains(&11));
    assert!(strong.ends_with(&[12, 7, 13, 7]) && ordinary.ends_with(&[12, 7, 13, 7]));
}

/// Without operator 8 the profiles give every model the same answer.
#[test]
fn alike_without_negation() {
    let [x, y] = [1, 2];
    let lists = || Formula::List(x, y).star(Formula::List(y, NIL));
    let formulas = [
        lists(),
        Formula::Points(x, y).septraction(lists()),
        lists().or(Formula::Points(x, y).star(Formula::Points(y, x))),
    ];
    for formula in formulas {
        let book = Book::new(2, 3, 3, &formula).expect("it can be written");
        for number in 0..book.bounds().candidates() {
            let model = candidate(book.bounds(), number);
            let [one, other] = Profile::ALL.map(|profile| judge_in(profile, book.bytes(), &model));
            assert_eq!(one, other, "{formula:?} on {model:?}");
        }
    }
}
