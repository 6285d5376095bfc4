//! Models judged a second, and how much stack the proved judge takes.

use std::hint::black_box;
use std::time::Instant;

use cases::made::{book, nested};
use hollyspool::{Bounds, MOST_MODEL};

use crate::formulas::{BOUNDS, FORMULAS, NESTED};
use crate::stack;

/// The sides take turns at so many models, so that a busy machine slows both alike..
pub const TURN: usize = 4_096;

/// .. and judge them so often, of which the fastest time counts.
pub const RUNS: usize = 5;

pub const STACKS: [[u8; 6]; 2] = [[0; 6], [1, 2, 3, 4, 5, 6]];

pub fn judged() {
    println!("bounds 6 6 6, every heap of a stack, models judged a second");
    println!(
        "{:<34} {:<12} {:>12} {:>12} {:>6}",
        "formula", "stack", "proved", "second", "ratio"
    );
    for stack in STACKS {
        let models = models(stack);
        for (name, nodes) in FORMULAS {
            let [proved, second] = rates(&book(BOUNDS, nodes), &models);
            let stack = stack.map(|location| location.to_string()).join(" ");
            let ratio = proved / second;
            println!("{name:<34} {stack:<12} {proved:>12.0} {second:>12.0} {ratio:>6.2}");
        }
    }
}

/// Models judged a second by the proved and by the second judge.
fn rates(book: &[u8], models: &[[u8; 12]]) -> [f64; 2] {
    let mut taken = [0.0; 2];
    for turn in models.chunks(TURN) {
        let mut fastest = [f64::INFINITY; 2];
        for _ in 0..RUNS {
            fastest[0] = seconds(book, turn, |b, m| hollyspool::judge(b, m).number).min(fastest[0]);
            fastest[1] =
                seconds(book, turn, |b, m| second::judge::judge(b, m).number).min(fastest[1]);
        }
        taken = [taken[0] + fastest[0], taken[1] + fastest[1]];
    }
    taken.map(|taken| models.len() as f64 / taken)
}

/// The time to judge the models, none of which may fit.
pub fn seconds(book: &[u8], models: &[[u8; 12]], judge: impl Fn(&[u8], &[u8]) -> u64) -> f64 {
    let start = Instant::now();
    for model in models {
        assert_eq!(judge(black_box(book), black_box(model)), 1, "{model:?}");
    }
    start.elapsed().as_secs_f64()
}

/// The stack with each of its 8^6 heaps, in candidate order.
pub fn models(stack: [u8; 6]) -> Vec<[u8; 12]> {
    (0..1_u32 << 18)
        .map(|number| {
            let mut model = [0; 12];
            model[..6].copy_from_slice(&stack);
            for (location, cell) in model[6..].iter_mut().enumerate() {
                let digit = (number >> (3 * location) & 7) as u8;
                *cell = digit.wrapping_sub(1);
            }
            model
        })
        .collect()
}

/// Prints how much stack the proved judge takes at its deepest.
pub fn depths() {
    println!("deepest nesting of an operator, bytes of stack (at most 65536 allowed)");
    for (name, operator) in NESTED {
        let book = book([Bounds::MOST; 3], &nested(operator));
        let mut model = [0; MOST_MODEL];
        model[MOST_MODEL / 2..].fill(255);
        let mut number = 2;
        let depth = stack::depth(&mut || number = hollyspool::judge(&book, &model).number);
        assert!(number < 2, "{name}: a book that is refused goes nowhere");
        assert!(depth <= 65536, "{name} takes {depth} bytes");
        println!("{name:<34} {depth:>12}");
    }
}
