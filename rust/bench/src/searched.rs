//! Candidates searched a second.

use std::hint::black_box;
use std::time::Instant;

use cases::made::book;
use hollyspool::MOST_MODEL;

use crate::formulas::FORMULAS;
use crate::judged::RUNS;

/// The variables and the budget of each search: eight budgets are below T, and the formula with a septraction is the last.
///
/// The search refuses a book with a variable that no atom names, as no other call does. The first formula is searched with
/// x alone, so that what is measured is still the counter and a single atom; the others with six variables, named as
/// `with_names` says.
pub const SEARCHES: [(u8, u64); 4] = [(1, 200_000), (6, 3_000_000), (6, 3_000_000), (6, 20_000)];

pub fn searched() {
    println!("bounds v 6 6, candidates searched a second, and the proved search's seconds at 1, 2, 4 and 8 budgets; under two negations");
    println!(
        "nothing is known of a heap that fits, so that the proved search passes over the fewest"
    );
    println!(
        "{:<38} {:<12} {:>12} {:>12} {:>6}",
        "formula", "v, budget", "proved", "second", "ratio"
    );
    for ((name, nodes), (v, budget)) in FORMULAS.into_iter().zip(SEARCHES) {
        compare(name, v, budget, &search_book(v, nodes));
        let negated = negated_twice(&named(v, nodes));
        compare(
            &format!("¬¬({name})"),
            v,
            budget,
            &book([v, 6, 6], &negated),
        );
    }
}

fn compare(name: &str, v: u8, budget: u64, book: &[u8]) {
    let proved = |budget| search_time(book, budget, |b, k, o| hollyspool::search(b, k, o).number);
    let second = |b: &[u8], k, o: &mut [u8]| second::search::search(b, k, o).number;
    let mut fastest = [f64::INFINITY; 2];
    for _ in 0..RUNS {
        let taken = [proved(budget), search_time(book, budget, second)];
        fastest = [fastest[0].min(taken[0]), fastest[1].min(taken[1])];
    }
    let [rate, second] = fastest.map(|taken| budget as f64 / taken);
    let ratio = rate / second;
    print!("{name:<38} {v}, {budget:<9} {rate:>12.0} {second:>12.0} {ratio:>6.2} ");
    for times in [1, 2, 4, 8] {
        print!(" {:.3}", proved(times * budget));
    }
    println!();
}

/// The book of a search.
pub fn search_book(v: u8, nodes: &[[u8; 3]]) -> Vec<u8> {
    book([v, 6, 6], &named(v, nodes))
}

fn named(v: u8, nodes: &[[u8; 3]]) -> Vec<[u8; 3]> {
    match v {
        1 => nodes.to_vec(),
        _ => with_names(nodes),
    }
}

fn negated_twice(nodes: &[[u8; 3]]) -> Vec<[u8; 3]> {
    let at = nodes.len() as u8;
    [nodes, &[[8, at - 1, 0], [8, at, 0]]].concat()
}

/// The nodes in a conjunction with equations that name all six variables. A candidate that the nodes alone don't fit is
/// judged no further, and none fits them: so each takes what it took, and one "and". Beside the nodes (`*`) the equations
/// would be judged for every candidate; with fewer variables the eight budgets would pass T.
fn with_names(nodes: &[[u8; 3]]) -> Vec<[u8; 3]> {
    let at = nodes.len() as u8;
    let equations = [[1, 1, 2], [1, 3, 4], [1, 5, 6]];
    let joined = [[5, at, at + 1], [5, at + 3, at + 2], [5, at - 1, at + 4]];
    [nodes, &equations, &joined].concat()
}

/// The time of a search that spends its budget.
pub fn search_time(book: &[u8], budget: u64, search: impl Fn(&[u8], u64, &mut [u8]) -> u64) -> f64 {
    let mut out = [0; MOST_MODEL];
    let start = Instant::now();
    assert_eq!(search(black_box(book), budget, &mut out), 2);
    start.elapsed().as_secs_f64()
}
