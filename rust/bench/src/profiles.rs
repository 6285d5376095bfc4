//! Models judged and candidates searched a second in the strong and in the ordinary profile, side by side.

use std::array::from_fn;

use cases::made::book;
use hollyspool::{judge_in, search_in, Profile};
use second::profile::Profile as Second;

use crate::formulas::{BOUNDS, FORMULAS};
use crate::judged::{models, seconds, RUNS, STACKS, TURN};
use crate::searched::{search_book, search_time, SEARCHES};

/// The proved bench in each profile, and the second one in the ordinary.
type Sides = [f64; 3];

pub fn compare() {
    println!("both profiles, models judged and candidates searched a second: ordinary by strong, and by the second bench's ordinary");
    println!(
        "{:<34} {:<12} {:>12} {:>12} {:>6} {:>12} {:>6}",
        "formula", "call", "strong", "ordinary", "ratio", "second", "ratio"
    );
    for stack in STACKS {
        let models = models(stack);
        let stack = stack.map(|location| location.to_string()).join(" ");
        for (name, nodes) in FORMULAS {
            let taken = judging(&book(BOUNDS, nodes), &models);
            print(name, &stack, models.len() as u64, taken);
        }
    }
    for ((name, nodes), (v, budget)) in FORMULAS.into_iter().zip(SEARCHES) {
        let taken = searching(&search_book(v, nodes), budget);
        print(name, "search", budget, taken);
    }
}

/// The time that each side takes for all models.
fn judging(book: &[u8], models: &[[u8; 12]]) -> Sides {
    let turns = models.chunks(TURN).map(|turn| {
        fastest(|| {
            [
                seconds(book, turn, |b, m| judge_in(Profile::Strong, b, m).number),
                seconds(book, turn, |b, m| judge_in(Profile::Ordinary, b, m).number),
                seconds(book, turn, |b, m| {
                    second::judge::judge_in(Second::Ordinary, b, m).number
                }),
            ]
        })
    });
    turns.fold([0.0; 3], |sum, turn| from_fn(|side| sum[side] + turn[side]))
}

/// The time that each side takes to spend the budget.
fn searching(book: &[u8], budget: u64) -> Sides {
    fastest(|| {
        [
            search_time(book, budget, |b, k, o| {
                search_in(Profile::Strong, b, k, o).number
            }),
            search_time(book, budget, |b, k, o| {
                search_in(Profile::Ordinary, b, k, o).number
            }),
            search_time(book, budget, |b, k, o| {
                second::search::search_in(Second::Ordinary, b, k, o).number
            }),
        ]
    })
}

/// The fastest time of each side.
fn fastest(run: impl Fn() -> Sides) -> Sides {
    (0..RUNS)
        .map(|_| run())
        .fold([f64::INFINITY; 3], |best, taken| {
            from_fn(|side| best[side].min(taken[side]))
        })
}

fn print(name: &str, call: &str, count: u64, taken: Sides) {
    let [strong, ordinary, second] = taken.map(|taken| count as f64 / taken);
    let [by_strong, by_second] = [strong, second].map(|other| ordinary / other);
    println!(
        "{name:<34} {call:<12} {strong:>12.0} {ordinary:>12.0} {by_strong:>6.2} {second:>12.0} {by_second:>6.2}"
    );
}
