//! What `explain` says of books, accepted and refused.

use crate::run::{run, run_on, sample, P1, STRAY};

#[test]
fn accepted() {
    let explained = run(&["explain", &sample("queue_ends_and_loops")]);
    assert_eq!(explained.status, 0);
    assert_eq!(
        explained.out,
        "formula  ls(x1, nil) ∧ (x1 ↦ x1 * (nil = nil ∨ ¬(nil = nil)))\nnodes    8\n\
         bounds   v = 1, n = 4, p = 4\nT        6480 candidates\nrows     28\n\
         text     (and (ls v1 sep.nil) (sep (pto v1 v1) (or (and (= sep.nil sep.nil) sep.emp) \
         (not (and (= sep.nil sep.nil) sep.emp)))))\n"
    );
}

/// A book with stray variables is accepted, and explain names them.
#[test]
fn stray_variables() {
    let explained = run_on(&STRAY, &["explain", "-"]);
    assert_eq!((explained.status, &*explained.err), (0, ""));
    assert_eq!(
        explained.out,
        "formula  x2 ↦ nil\nnodes    1\nbounds   v = 4, n = 1, p = 1\nT        48 candidates\n\
         rows     5\ntext     (pto v2 sep.nil)\nstray    x1, x3, x4: declared, but named by no atom; search refuses the book\n"
    );
}

/// P1's book with one byte changed: the number, and the byte it points at.
#[test]
fn one_byte_changed() {
    for (at, value, number, points_at) in [
        (0, 3, 11, "0 is 03"),
        (1, 2, 23, "1 is 02"),
        (2, 12, 24, "2 is 0c 00 (12)"),
        (3, 1, 24, "2 is 0b 01 (267)"),
        (4, 4, 24, "7 is 0e 00 (14)"),
        (4, 7, 24, "4 is 07 00 (7)"),
        (5, 1, 24, "4 is 03 01 (259)"),
        (6, 1, 23, "6 is 01"),
        (7, 15, 24, "7 is 0f 00 (15)"),
        (8, 1, 24, "7 is 0e 01 (270)"),
        (9, 2, 24, "9 is 02 00 (2)"),
        (10, 1, 24, "9 is 03 01 (259)"),
        (11, 9, 12, "11 is 09"),
        (13, 255, 12, "13 is ff"),
        (14, 0, 14, "14 is 00"),
        (14, 11, 14, "14 is 0b"),
        (14, 8, 15, "14 is 08"),
        (15, 2, 15, "15 is 02"),
        (16, 2, 15, "16 is 02"),
    ] {
        let mut book = P1;
        book[at] = value;
        let explained = run_on(&book, &["explain", "-"]);
        assert_eq!(explained.status, 3, "{at} {value}");
        points(&explained.out, number, points_at);
    }
}

/// Each field of the contents with a wrong value: what is wrong, and what should stand there.
#[test]
fn fields_of_the_contents() {
    for (at, should) in [
        (0, "the number of entries, 2"),
        (1, "kind 1, the bounds"),
        (2, "offset of the bounds, 11, the end of the contents"),
        (4, "length of the bounds, at most 6, up to the book's end"),
        (6, "kind 2, the formula"),
        (7, "offset of the formula, 14, the end of the bounds"),
        (9, "length of the formula, 3, up to the book's end"),
    ] {
        let meaning = match at {
            0 => "the number of entries is not 2",
            1 => "entry 0 has a wrong kind",
            2 | 4 => "entry 0 has a wrong offset or length",
            6 => "entry 1 has a wrong kind",
            _ => "entry 1 has a wrong offset or length",
        };
        let mut book = P1;
        book[at] = 99;
        let explained = run_on(&book, &["explain", "-"]).out;
        let start = format!("meaning  {meaning}\nbyte     {at} is 63");
        assert!(explained.contains(&start), "{explained}");
        assert!(explained.ends_with(&format!("{should}\n")), "{explained}");
    }
}

/// Faults that take more than a byte.
#[test]
fn larger_faults() {
    let with = |bounds: &[u8], formula: &[u8]| {
        let [first, second] = [bounds, formula].map(|body| body.len() as u8);
        let contents = [2, 1, 11, 0, first, 0, 2, 11 + first, 0, second, 0];
        [&contents, bounds, formula].concat()
    };
    for (book, number, byte) in [
        (P1[..10].to_vec(), 10, "10 is not there"),
        (vec![0; 300], 10, "206 is 00"),
        (with(&[1, 1], &[3, 1, 1]), 12, "4 is 02 00 (2)"),
        (with(&[1, 1, 1], &[]), 13, "9 is 00 00 (0)"),
        (with(&[1, 1, 1], &[3, 1, 1, 8]), 13, "9 is 04 00 (4)"),
        (P1[..16].to_vec(), 24, "9 is 03 00 (3)"),
        (P1[..13].to_vec(), 24, "4 is 03 00 (3)"),
        (
            with(&[1, 1, 1], &[3, 1, 1, 8, 0, 1]),
            15,
            "19 is 01; expected 0",
        ),
        (with(&[1, 1, 1], &[3, 1, 1, 8, 1, 0]), 15, "18 is 01"),
        (with(&[1, 1, 1], &[3, 1, 1, 9, 0, 1]), 15, "19 is 01"),
        (with(&[1, 1, 1], &[3, 1, 1, 9, 0, 0]), 16, "14 is 03"),
        (
            with(&[1, 1, 1], &[3, 1, 1, 3, 1, 1, 8, 0, 0]),
            16,
            "17 is 03",
        ),
    ] {
        let explained = run_on(&book, &["explain", "-"]);
        assert_eq!(explained.status, 3, "{book:?}");
        points(&explained.out, number, byte);
    }
}

/// Whether the text has the number, words, and the byte.
fn points(text: &str, number: u64, byte: &str) {
    let lines: Vec<&str> = text.lines().collect();
    let [refused, meaning, points_at] = lines[..] else {
        panic!("not three lines: {text}");
    };
    assert_eq!(refused, format!("refused  number {number}"));
    assert!(meaning.starts_with("meaning  "), "{text}");
    assert!(points_at.starts_with(&format!("byte     {byte}")), "{text}");
    assert!(points_at.contains("; expected "), "{text}");
}
