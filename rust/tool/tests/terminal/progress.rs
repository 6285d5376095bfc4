//! Reports of long searches.

use std::io::{BufRead, BufReader};
use std::process::Stdio;
use std::time::{Duration, Instant};

use hollyspool::{Book, Formula, NIL};

use crate::run::{run_on, tool};

/// The book of a formula under two negations, over eight locations: whoever doesn't look below them can't
/// tell what a heap that fits has.
fn hidden(v: u8, formula: Formula) -> Vec<u8> {
    let book = Book::new(v, 8, 8, &formula.negated().negated()).expect("it can be written");
    book.bytes().to_vec()
}

/// A search of hours reports after a second, and soon says what is settled.
#[test]
fn while_it_runs() {
    // nil ↦ x1, which nothing fits, and equations that name the other variables and are never reached.
    let names = [(3, 4), (5, 6), (7, 8)].map(|(x, y)| Formula::Equal(x, y));
    let names = names.into_iter().fold(Formula::Equal(1, 2), Formula::and);
    let hopeless = hidden(8, Formula::Points(NIL, 1).and(names));
    let path = format!("{}/long.book", env!("CARGO_TARGET_TMPDIR"));
    std::fs::write(&path, hopeless).expect("there is room for a book");
    let mut child = tool(&["search", &path])
        .stdout(Stdio::null())
        .stderr(Stdio::piped())
        .spawn()
        .expect("the tool starts");
    let errors = child.stderr.take().expect("it has a standard error");
    let mut lines = BufReader::new(errors).lines().map_while(Result::ok);
    // On a busy machine the first reports may come before anything is settled.
    let line = lines.find(|line| line.contains("none of the first"));
    child.kill().expect("it is still searching");
    child.wait().expect("it ends");
    let line = line.expect("it reports");
    assert!(line.starts_with("searching for "), "{line}");
    assert!(line.ends_with(" % of T"), "{line}");
}

/// A search of over a second ends with what is settled; a shorter one says nothing.
#[test]
fn when_it_has_ended() {
    // The first candidate takes seconds: each of 10^8 heaps is added to it, and fits none of these.
    let never = || Formula::Differ(NIL, NIL);
    let none = never().or(never()).or(never().or(never()));
    let slow = hidden(0, none.septraction(never()));
    for budget in [0, 1] {
        let started = Instant::now();
        let run = run_on(&slow, &["search", "-", "--budget", &budget.to_string()]);
        let took = started.elapsed();
        assert_eq!(run.status, 2);
        // The tool's own time is shorter than what it took to start and end it.
        assert!(took >= Duration::from_secs(1) || run.err.is_empty());
        assert!(took < Duration::from_secs(4) || budget == 0 || !run.err.is_empty());
        if let Some(last) = run.err.lines().last() {
            assert!(last.starts_with("searched for "), "took {took:?}: {last}");
            let settled = format!(": {budget} candidates settled, 0.0 % of T");
            assert!(last.ends_with(&settled), "{last}");
        }
    }
}
