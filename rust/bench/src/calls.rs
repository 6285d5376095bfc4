//! Books read, books encoded and assignments judged a second.

use std::hint::black_box;
use std::time::Instant;

use cases::made::book;

use crate::formulas::{largest, BOUNDS, FORMULAS};
use crate::judged::RUNS;

pub fn read() {
    println!("bounds 6 6 6, books read a second");
    println!(
        "{:<34} {:<12} {:>12} {:>12} {:>6}",
        "formula", "call", "proved", "second", "ratio"
    );
    let book = largest();
    compare_calls(
        "64 nodes",
        "read",
        |_| hollyspool::read(black_box(&book)).number,
        |_| second::book::read(black_box(&book)).number,
    );
}

pub fn encoded() {
    println!("bounds 6 6 6, books encoded a second, and assignments judged a second");
    println!(
        "{:<34} {:<12} {:>12} {:>12} {:>6}",
        "formula", "call", "proved", "second", "ratio"
    );
    for (name, nodes) in FORMULAS {
        let book = book(BOUNDS, nodes);
        if second::encode::encode(&book, &mut [0; hollyspool::MOST_ENCODED]).number == 0 {
            compare_calls(
                name,
                "encode",
                |out| hollyspool::encode(black_box(&book), out).number,
                |out| second::encode::encode(black_box(&book), out).number,
            );
            let assignment = vec![0; length(nodes)];
            compare_calls(
                name,
                "assign",
                |_| hollyspool::assign(black_box(&book), black_box(&assignment)).number,
                |_| second::assign::assign(black_box(&book), black_box(&assignment)).number,
            );
        }
    }
}

/// Prints how often a second each side answers, which must be 0 or 1 on both.
fn compare_calls(
    name: &str,
    call: &str,
    proved: impl Fn(&mut [u8]) -> u64,
    second: impl Fn(&mut [u8]) -> u64,
) {
    let mut out = [0; hollyspool::MOST_ENCODED];
    let mut fastest = [f64::INFINITY; 2];
    for _ in 0..20 * RUNS {
        let [first, other] = [call_time(&mut out, &proved), call_time(&mut out, &second)];
        fastest = [fastest[0].min(first), fastest[1].min(other)];
    }
    let [proved, second] = fastest.map(|taken| f64::from(CALLS) / taken);
    let ratio = proved / second;
    println!("{name:<34} {call:<12} {proved:>12.0} {second:>12.0} {ratio:>6.2}");
}

const CALLS: u32 = 4_096;

fn call_time(out: &mut [u8], call: impl Fn(&mut [u8]) -> u64) -> f64 {
    let start = Instant::now();
    for _ in 0..CALLS {
        assert!(call(out) < 2);
    }
    start.elapsed().as_secs_f64()
}

/// The length of an assignment: six locations, six bytes an array, one a set.
fn length(nodes: &[[u8; 3]]) -> usize {
    let with = |least| nodes.iter().filter(|node| node[0] >= least).count();
    6 + 6 * (1 + with(10)) + 1 + 2 * with(9)
}
