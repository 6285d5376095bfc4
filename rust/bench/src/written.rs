//! Bytes of text written a second, by the proved export and by the second one, and how much stack the proved export takes.

use std::hint::black_box;
use std::time::Instant;

use cases::made::{book, nested};
use hollyspool::{Bounds, MOST_TEXT};

use crate::formulas::{largest, BOUNDS, FORMULAS, NESTED};
use crate::stack;

/// Of so many runs the fastest counts.
const RUNS: usize = 99;

/// How often a text is written in a run.
const OFTEN: usize = 1_000;

pub fn write() {
    println!("bounds 6 6 6, megabytes of text written a second");
    println!(
        "{:<40} {:>6} {:>12} {:>12} {:>6}",
        "formula", "bytes", "proved", "second", "ratio"
    );
    for (name, nodes) in FORMULAS {
        compare(name, &book(BOUNDS, nodes));
    }
    compare("64 nodes", &largest());
    compare("31 septractions of 32 inequalities", &longest());
}

/// The book with the longest text.
fn longest() -> Vec<u8> {
    let mut nodes = vec![[2, 0, 0]; 32];
    nodes.extend((0..31).map(|join| [10, 2 * join, 2 * join + 1]));
    nodes.push([8, 62, 0]);
    book(BOUNDS, &nodes)
}

fn compare(name: &str, book: &[u8]) {
    let mut fastest = [f64::INFINITY; 2];
    for _ in 0..RUNS {
        let proved = time(book, |b, o| hollyspool::export(b, o).number);
        let second = time(book, |b, o| second::write::export(b, o).number);
        fastest = [fastest[0].min(proved), fastest[1].min(second)];
    }
    let mut out = [0; MOST_TEXT];
    hollyspool::export(book, &mut out);
    let bytes = out.iter().take_while(|&&byte| byte != 0).count();
    let [proved, second] = fastest.map(|taken| (bytes * OFTEN) as f64 / 1e6 / taken);
    let ratio = proved / second;
    println!("{name:<40} {bytes:>6} {proved:>12.0} {second:>12.0} {ratio:>6.2}");
}

/// The time to write a book's text so often.
fn time(book: &[u8], export: impl Fn(&[u8], &mut [u8]) -> u64) -> f64 {
    let mut out = [0; MOST_TEXT];
    let start = Instant::now();
    for _ in 0..OFTEN {
        assert_eq!(export(black_box(book), black_box(&mut out)), 0);
    }
    start.elapsed().as_secs_f64()
}

/// Prints how much stack the proved export takes at its deepest.
pub fn depths() {
    println!(
        "a book written, deepest nesting of an operator, bytes of stack (at most 65536 allowed)"
    );
    for (name, operator) in NESTED {
        let book = book([Bounds::MOST; 3], &nested(operator));
        let mut out = [0; MOST_TEXT];
        let mut number = 2;
        let depth = stack::depth(&mut || number = hollyspool::export(&book, &mut out).number);
        assert_eq!(number, 0);
        assert!(depth <= 65536, "{name} takes {depth} bytes");
        println!("{name:<40} {depth:>12}");
    }
}
