//! Document 02, [13]: the ends of the ranges at eight locations and eight variables.

use cases::made::book;
use hollyspool::{
    assign, encode, export, import, judge, judge_in, read, search, Book, Bounds, Formula, Profile,
    Refusal, MOST_BOOK, MOST_ENCODED, MOST_MODEL, MOST_TEXT, NIL,
};

#[test]
fn twelve_begins_at_nine() {
    for at in 0..3 {
        let number = |bound: u8| {
            let mut bounds = [1; 3];
            bounds[at] = bound;
            read(&book(bounds, &[[3, 1, 1]])).settled().err()
        };
        assert_eq!([7, 8].map(number), [None, None]);
        assert_eq!([9, 255].map(number), [Some(Refusal::Bounds); 2]);
    }
}

/// Nil and eight locations are nine: two parts meet at location 8, named by x or not.
#[test]
fn nine_locations() {
    let some_cell = || Formula::Equal(NIL, NIL).negated();
    let two_parts = Book::new(1, 8, 8, &some_cell().star(some_cell())).expect("it can be written");
    for (x, numbers) in [(0, [1, 0]), (7, [1, 0]), (8, [0, 0])] {
        let model = [x, 8, 8, 255, 255, 255, 255, 255, 255];
        let judged = Profile::ALL.map(|profile| judge_in(profile, two_parts.bytes(), &model));
        assert_eq!(judged.map(|answer| answer.number), numbers, "{x}");
    }
    // A list through all eight, and nine different locations on its way.
    let list = Book::new(1, 8, 8, &Formula::List(1, NIL)).expect("it can be written");
    let model = [8, 0, 1, 2, 3, 4, 5, 6, 7];
    assert_eq!(judge(list.bytes(), &model).number, 0);
    let shorter = Book::new(1, 8, 7, &Formula::List(1, NIL)).expect("it can be written");
    assert_eq!(judge(shorter.bytes(), &model).number, 1);
}

/// At eight locations every set byte is in range; at seven the highest bit is not.
#[test]
fn set_bytes() {
    let nothing = [[1, 0, 0]];
    let all = |n: usize| [vec![0; n], vec![255]].concat();
    assert_eq!(assign(&book([0, 8, 8], &nothing), &all(8)).number, 1);
    let refused = assign(&book([0, 7, 7], &nothing), &all(7));
    assert_eq!((refused.number, refused.place), (22, 7));
}

/// 32 lists, one of them under a negation, and 31 septractions have the most rows.
#[test]
fn most_rows() {
    let mut nodes = vec![[4, 1, 8]; 32];
    nodes.extend([[8, 31, 0], [10, 32, 30]]);
    nodes.extend((0..30).map(|join| [10, 33 + join, 29 - join]));
    let book = book([8; 3], &nodes);
    let mut out = [0; MOST_ENCODED];
    assert_eq!(encode(&book, &mut out[..MOST_ENCODED - 1]).number, 20);
    assert_eq!(encode(&book, &mut out).number, 0);
    assert_eq!(u16::from_le_bytes([out[9], out[10]]), 7_640);
}

#[test]
fn eight_names() {
    let eight = "(and (pto a b) (and (pto c d) (and (pto e f) (pto g h))))";
    let mut out = [0; MOST_BOOK];
    assert_eq!(import(eight.as_bytes(), 8, 8, &mut out).number, 0);
    assert_eq!(out[11..14], [8; 3]);
    let nine = eight.replace("(pto g h)", "(and (pto g h) (pto i h))");
    let refused = import(nine.as_bytes(), 8, 8, &mut out);
    let place = nine.find('i').expect("a ninth name");
    assert_eq!((refused.number, refused.place), (28, place as u64));
    let mut text = [0; MOST_TEXT];
    assert_eq!(export(&book([8; 3], &[[4, 7, 8]]), &mut text).number, 0);
    assert!(text.starts_with(b"(ls v7 v8)\0"));
}

/// All eight variables and all eight cells are searched and written.
#[test]
fn longest_model() {
    let bounds = Bounds { v: 8, n: 8, p: 8 };
    assert_eq!(bounds.model_length(), MOST_MODEL);
    let names = [(1, 2), (3, 4), (5, 6), (7, 8)].map(|(x, y)| Formula::Equal(x, y));
    let names = names.into_iter().reduce(Formula::star).expect("four");
    let cells = Formula::Equal(NIL, NIL).negated().star(names);
    let book = Book::new(8, 8, 8, &cells).expect("it can be written");
    let mut out = [7; MOST_MODEL + 1];
    assert_eq!(
        search(book.bytes(), 9, &mut out[..MOST_MODEL - 1]).number,
        20
    );
    let found = search(book.bytes(), u64::MAX, &mut out);
    assert_eq!((found.number, found.tried), (0, 2));
    let cells = [0, 255, 255, 255, 255, 255, 255, 255, 7];
    assert_eq!(out[..], [[0; 8].as_slice(), &cells].concat());
}
