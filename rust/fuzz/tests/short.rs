//! A short run: no difference; every call gives every number that it can give, in each profile, and no
//! other; few searches end at a stray variable; the profiles are told apart; and models are renumbered.

use std::process::Command;

/// The numbers of a book's refusals, which every call on a book gives.
const BOOK: [u64; 9] = [10, 11, 12, 13, 14, 15, 16, 23, 24];

/// The calls in the order of the tally: whether it is on a book, and the other numbers it gives.
const CALLS: [(&str, bool, &[u64]); 11] = [
    ("read", true, &[0]),
    ("import", false, &[0, 12, 20, 26, 27, 28]),
    ("export", true, &[0, 20]),
    ("judge", true, JUDGE),
    ("judge, ordinary", true, JUDGE),
    ("search", true, SEARCH),
    ("search, ordinary", true, SEARCH),
    ("encode", true, ENCODE),
    ("encode, ordinary", true, ENCODE),
    ("assign", true, ASSIGN),
    ("assign, ordinary", true, ASSIGN),
];

const JUDGE: &[u64] = &[0, 1, 17, 18];
const SEARCH: &[u64] = &[0, 1, 2, 20, 25];
const ENCODE: &[u64] = &[0, 19, 20];
const ASSIGN: &[u64] = &[0, 1, 19, 21, 22];

#[test]
fn no_difference() {
    let run = Command::new(env!("CARGO_BIN_EXE_fuzz"))
        .arg("30000")
        .output()
        .expect("it runs");
    let errors = String::from_utf8_lossy(&run.stderr);
    assert!(run.status.success(), "{errors}");
    let text = String::from_utf8_lossy(&run.stdout);
    let lines: Vec<&str> = text.lines().collect();
    let [_, _, table @ .., profiles, renumbered, texts] = &lines[..] else {
        panic!("few lines: {text}");
    };
    let rows = table.iter().map(|line| {
        let words = line.split_whitespace();
        words.map(|word| word.parse().expect("a count")).collect()
    });
    let rows: Vec<Vec<u64>> = rows.collect();
    let numbers: Vec<u64> = rows.iter().map(|row| row[0]).collect();
    assert_eq!(numbers, (0..=2).chain(10..=28).collect::<Vec<_>>());
    for row in &rows {
        for ((call, on_a_book, others), &count) in CALLS.iter().zip(&row[1..]) {
            let gives = (*on_a_book && BOOK.contains(&row[0])) || others.contains(&row[0]);
            assert_eq!(count > 0, gives, "{call} gives {} {count} times", row[0]);
        }
    }
    let searches = |numbers: &[u64]| -> u64 {
        let rows = rows.iter().filter(|row| numbers.contains(&row[0]));
        rows.map(|row| row[6] + row[7]).sum()
    };
    assert!(searches(&[0, 1, 2]) > 5 * searches(&[25]));
    told_apart(profiles);
    let [fit, misfit] = counts(renumbered)[..] else {
        panic!("not two counts: {renumbered}");
    };
    assert!(fit > 1_000 && misfit > 1_000, "{renumbered}");
    read_back(texts);
}

/// The profiles answer inputs of all three kinds: alike without operator 8 and with it, and apart.
fn told_apart(line: &str) {
    let [without, 8, with, apart] = counts(line)[..] else {
        panic!("not three counts and operator 8: {line}");
    };
    assert!(without > 1_000 && with > 1_000 && apart > 50, "{line}");
}

/// Most texts of books are read back, and models of both kinds compared.
fn read_back(line: &str) {
    let [read, not, fit, misfit] = counts(line)[..] else {
        panic!("not four counts: {line}");
    };
    assert!(read > 5 * not && not > 100, "{line}");
    assert!(fit > 1_000 && misfit > 1_000, "{line}");
}

/// The numbers that stand in a line.
fn counts(line: &str) -> Vec<u64> {
    let words = line.split(|c: char| !c.is_ascii_digit());
    words.filter_map(|word| word.parse().ok()).collect()
}

#[test]
fn bad_arguments() {
    for args in [&["x"][..], &["1", "0"], &["1", "1", "1"], &["-1"]] {
        let run = Command::new(env!("CARGO_BIN_EXE_fuzz"))
            .args(args)
            .output()
            .expect("it runs");
        assert_eq!(run.status.code(), Some(64), "{args:?}");
        assert_eq!(String::from_utf8_lossy(&run.stderr).lines().count(), 1);
    }
}
