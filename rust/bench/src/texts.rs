//! Bytes of text read a second, by the proved import and by the second one, and how much stack the proved import takes.

use std::hint::black_box;
use std::time::Instant;

use crate::stack;

const MEGABYTE: usize = 1 << 20;

/// Of so many runs the fastest counts.
const RUNS: usize = 9;

/// How often a short text is read in a run.
const OFTEN: usize = 1_000;

/// A text, its number, and how many times it is read in a run.
type Measured = (&'static str, Vec<u8>, u64, usize);

fn texts() -> [Measured; 6] {
    let good = format!("(sep (ls x tail){}(pto tail sep.nil))", blanks(MEGABYTE));
    let inner = format!("{}sep.emp{}", "(and(pto x y)".repeat(15), ")".repeat(15));
    // 65 nodes, the last of them behind the blanks.
    let passes = format!(
        "(and {} (and {} sep.emp{}))",
        full(),
        full(),
        blanks(MEGABYTE)
    );
    [
        ("64 nodes, few blanks", dense().into_bytes(), 0, OFTEN),
        ("fifteen lists deep", inner.into_bytes(), 0, OFTEN),
        (
            "two nodes, no more blanks than needed",
            b"(sep(ls x tail)(pto tail sep.nil))".to_vec(),
            0,
            OFTEN,
        ),
        (
            "a megabyte of blanks, accepted",
            good.clone().into_bytes(),
            0,
            1,
        ),
        (
            "a megabyte of blanks, 26 behind them",
            good.replace("(pto", "(pot").into_bytes(),
            26,
            1,
        ),
        (
            "a megabyte of blanks, 27 behind them",
            passes.into_bytes(),
            27,
            1,
        ),
    ]
}

/// Blanks as a file has them, in lines of 64.
fn blanks(count: usize) -> String {
    (1..=count)
        .map(|at| if at % 64 == 0 { '\n' } else { ' ' })
        .collect()
}

/// 31 nodes, four lists deep.
fn full() -> String {
    let joined = |inner: &str| format!("(and {inner} {inner})");
    let atom = "(ls x tail)";
    joined(&joined(&joined(&joined(atom))))
}

/// 64 nodes and six names.
fn dense() -> String {
    format!(
        "(not (sep {} {}))",
        full(),
        full().replace("(ls x tail)", "(pto head sep.nil)")
    )
}

pub fn read() {
    println!("megabytes of text read a second, and the proved import's milliseconds at 1, 2, 4 and 8 megabytes of blanks");
    println!(
        "{:<40} {:>6} {:>12} {:>12} {:>6}",
        "text", "number", "proved", "second", "ratio"
    );
    for (name, text, number, times) in texts() {
        let mut fastest = [f64::INFINITY; 2];
        for _ in 0..RUNS {
            let proved = time(&text, number, times, |t, o| {
                hollyspool::import(t, 6, 6, o).number
            });
            let second = time(&text, number, times, |t, o| {
                second::import::import(t, 6, 6, o).number
            });
            fastest = [fastest[0].min(proved), fastest[1].min(second)];
        }
        let megabytes = (text.len() * times) as f64 / 1e6;
        let [proved, second] = fastest.map(|taken| megabytes / taken);
        let ratio = proved / second;
        print!("{name:<40} {number:>6} {proved:>12.0} {second:>12.0} {ratio:>6.2}");
        println!(
            "{}",
            if times == 1 {
                growth(&text, number)
            } else {
                String::new()
            }
        );
    }
}

/// The milliseconds that the text takes with 1, 2, 4 and 8 megabytes of blanks before it.
fn growth(text: &[u8], number: u64) -> String {
    let longer = [1, 2, 4, 8].map(|times| {
        let text = [blanks((times - 1) * MEGABYTE).as_bytes(), text].concat();
        let taken = (0..RUNS).map(|_| {
            time(&text, number, 1, |t, o| {
                hollyspool::import(t, 6, 6, o).number
            })
        });
        format!(" {:.2}", 1e3 * taken.fold(f64::INFINITY, f64::min))
    });
    longer.concat()
}

/// The time to read a text so often, with this number each time.
fn time(text: &[u8], number: u64, times: usize, import: impl Fn(&[u8], &mut [u8]) -> u64) -> f64 {
    let mut out = [0; hollyspool::MOST_BOOK];
    let start = Instant::now();
    for _ in 0..times {
        assert_eq!(import(black_box(text), &mut out), number);
    }
    start.elapsed().as_secs_f64()
}

/// Prints how much stack the proved import takes with lists sixteen deep.
pub fn depths() {
    println!("lists sixteen deep, bytes of stack (at most 65536 allowed)");
    let depths = [
        ("not", "(not ", "sep.emp", ")"),
        ("and, on the b side", "(and sep.emp ", "sep.emp", ")"),
        ("and, on the a side", "(and ", "sep.emp", " sep.emp)"),
        (
            "wand, and an equation inside",
            "(wand ",
            "(= x y)",
            " sep.emp)",
        ),
    ]
    .map(|(name, before, inside, after)| {
        let times = 16 - usize::from(inside.starts_with('('));
        let text = format!("{}{inside}{}", before.repeat(times), after.repeat(times));
        let depth = depth(text.as_bytes());
        println!("{name:<40} {depth:>12}");
        depth
    });
    assert!(depths.into_iter().all(|depth| depth <= 65536));
}

/// The stack that the proved import takes for a text that it accepts.
fn depth(text: &[u8]) -> usize {
    let mut number = 2;
    let mut out = [0; hollyspool::MOST_BOOK];
    let depth = stack::depth(&mut || number = hollyspool::import(text, 6, 6, &mut out).number);
    assert_eq!(number, 0);
    depth
}
