//! Each call at its deepest, on a stack of 64 KiB: the deepest text that there is, read, and books with one
//! operator nested as deep as 64 nodes allow. A stack that is too small ends the whole process, so each is
//! done in a process of its own.

use std::process::Command;
use std::thread;

use cases::made::{book, nested};
use hollyspool::{Answer, Bounds, MOST_BOOK, MOST_ENCODED, MOST_MODEL, MOST_TEXT};

const STACK: usize = 64 * 1024;

/// All bounds as large as they may be.
const BOUNDS: [u8; 3] = [Bounds::MOST; 3];

/// The operators that a deep book nests.
const NESTED: [u8; 3] = [8, 9, 10];

/// Each a test that the one below runs.
const DEEP: [&str; 8] = [
    "nested_not",
    "nested_and",
    "nested_wand",
    "written",
    "judged",
    "searched",
    "encoded",
    "assigned",
];

#[test]
fn deepest_in_64_kib() {
    let tests = std::env::current_exe().expect("it has a path");
    for deep in DEEP {
        let run = Command::new(&tests)
            .args(["--ignored", "--exact", deep])
            .output()
            .expect("it runs");
        let said = String::from_utf8_lossy(&run.stdout);
        assert!(
            run.status.success() && said.contains("1 passed"),
            "{deep} takes more than {STACK} bytes of stack: {}",
            run.status
        );
    }
}

#[test]
#[ignore = "run by deepest_in_64_kib"]
fn nested_not() {
    read("(not ", "sep.emp", ")");
}

#[test]
#[ignore = "run by deepest_in_64_kib"]
fn nested_and() {
    read("(and sep.emp ", "sep.emp", ")");
}

/// The inner list on the a side, and a relation of four nodes in it.
#[test]
#[ignore = "run by deepest_in_64_kib"]
fn nested_wand() {
    read("(wand ", "(distinct x y)", " sep.emp)");
}

/// Reads a text with lists sixteen deep.
fn read(before: &str, inside: &str, after: &str) {
    let times = 16 - usize::from(inside.starts_with('('));
    let text = format!("{}{inside}{}", before.repeat(times), after.repeat(times));
    let [_, n, p] = BOUNDS.map(u64::from);
    settled(move || hollyspool::import(text.as_bytes(), n, p, &mut [0; MOST_BOOK]));
}

#[test]
#[ignore = "run by deepest_in_64_kib"]
fn written() {
    on_deep_books(|book| hollyspool::export(book, &mut [0; MOST_TEXT]));
}

#[test]
#[ignore = "run by deepest_in_64_kib"]
fn judged() {
    let mut model = [0; MOST_MODEL];
    model[MOST_MODEL / 2..].fill(255);
    on_deep_books(move |book| hollyspool::judge(book, &model));
}

/// The first candidate is judged, and holds or is the last within the budget.
#[test]
#[ignore = "run by deepest_in_64_kib"]
fn searched() {
    on_deep_books(|book| {
        // The search refuses declared variables that no atom names.
        let mut book = book.to_vec();
        book[11] = 0;
        hollyspool::search(&book, 1, &mut [0; MOST_MODEL])
    });
}

#[test]
#[ignore = "run by deepest_in_64_kib"]
fn encoded() {
    on_deep_books(|book| hollyspool::encode(book, &mut [0; MOST_ENCODED]));
}

/// All arrays and sets are 0.
#[test]
#[ignore = "run by deepest_in_64_kib"]
fn assigned() {
    on_deep_books(|book| {
        let with = |least| book[14..].chunks(3).filter(|node| node[0] >= least).count();
        let [v, n, _] = BOUNDS.map(usize::from);
        let length = v + n * (1 + with(10)) + 1 + 2 * with(9);
        hollyspool::assign(book, &[0; 512][..length])
    });
}

/// Makes the call on each deep book.
fn on_deep_books(call: impl Fn(&[u8]) -> Answer + Copy + Send + 'static) {
    for operator in NESTED {
        let book = book(BOUNDS, &nested(operator));
        settled(move || call(&book));
    }
}

/// Makes the call on a small stack; it is not refused.
fn settled(call: impl FnOnce() -> Answer + Send + 'static) {
    let small = thread::Builder::new().stack_size(STACK);
    let answer = small.spawn(call).expect("it starts").join();
    assert!(answer.expect("it ends").settled().is_ok());
}
