//! How long the proved search takes to its final answer at full bounds, beside trying each candidate, as rows of a table; and how
//! many candidates it judges and how many blocks it looks at, as the copy of its loop counts them.

use std::fs;
use std::hint::black_box;
use std::time::{Duration, Instant};

use counted::Counts;
use hollyspool::{Answer, Book, Formula, MOST_MODEL, NIL};
use second::book::Book as Accepted;
use second::profile::Profile;

/// The sample books.
const BOOKS: &str = concat!(env!("CARGO_MANIFEST_DIR"), "/../../books");

/// v, n and p.
const FULL: [u8; 2] = [8, 6];

/// A search that takes longer than this at some budget is not given a larger one.
const PATIENCE: Duration = Duration::from_secs(60);

/// How long the second bench tries candidates to tell its rate ..
const MEASURED: Duration = Duration::from_millis(500);

/// .. and how many in a row.
const STRETCH: u64 = 200;

pub fn settled() {
    for most in FULL {
        println!("| v = n = p = {most} | answer | tried | judged | blocks | time | trying each | ratio |");
        println!("|---|---|---|---|---|---|---|---|");
        for (name, formula) in questions(most).into_iter().chain(samples()) {
            let book =
                Book::new(most, most, most, &named(formula, most)).expect("it can be written");
            row(&name, &book);
        }
    }
}

/// The list questions of document 003, over as many variables.
fn questions(most: u8) -> Vec<(String, Formula)> {
    let successor = |x| if x < most { x + 1 } else { NIL };
    let pairs = || (1..most).step_by(2).map(|x| (x, x + 1));
    let fours = || (1..most - 2).step_by(4).map(|x| [x, x + 1, x + 2, x + 3]);
    let chain = |atom: fn(u8, u8) -> Formula| product((1..=most).map(|x| atom(x, successor(x))));
    let whole = || Formula::List(1, NIL);
    let lists = || product(pairs().map(|(x, y)| Formula::List(x, y)));
    let two_lists =
        product(pairs().flat_map(|(x, y)| [Formula::List(x, y), Formula::List(y, NIL)]));
    let cut_lists = product(fours().flat_map(|[x, y, z, w]| {
        [
            Formula::List(x, y),
            Formula::List(y, z),
            Formula::Points(z, w),
        ]
    }));
    let joined_lists =
        product(fours().flat_map(|[x, _, z, w]| [Formula::List(x, z), Formula::Points(z, w)]));
    let two_ways = [
        Formula::Differ(1, 2),
        Formula::Differ(1, 3),
        Formula::List(1, 2),
        Formula::List(1, 3),
    ];
    let rest = (3..most).map(|x| Formula::List(x, x + 1));
    let questions = [
        (
            "a1 ls(x1,x2) * .. ∖ ls(x1,nil)",
            chain(Formula::List).and_not(whole()),
        ),
        (
            "a2 clones of ls(x,y) * ls(y,nil) ∖ of ls(x,nil)",
            two_lists.and_not(product(pairs().map(|(x, _)| Formula::List(x, NIL)))),
        ),
        (
            "a3 clones of ls(x,y) * ls(y,z) * z ↦ w ∖ of ls(x,z) * z ↦ w",
            cut_lists.and_not(joined_lists),
        ),
        (
            "a4 x1 ↦ x2 * .. ∖ ls(x1,nil)",
            chain(Formula::Points).and_not(whole()),
        ),
        (
            "a5 x1 ≠ x2 * x1 ≠ x3 * ls(x1,x2) * ls(x1,x3) * ls(x3,x4) * ..",
            product(two_ways.into_iter().chain(rest)),
        ),
        ("a6 clones of ls(x,y) ∖ the same", lists().and_not(lists())),
    ];
    questions
        .map(|(name, formula)| (name.to_owned(), formula))
        .into()
}

/// The sample books' formulas.
fn samples() -> Vec<(String, Formula)> {
    let files = fs::read_dir(BOOKS).expect("a folder");
    let mut samples: Vec<(String, Formula)> = files
        .map(|file| {
            let path = file.expect("a file").path();
            let book = Book::accept(&fs::read(&path).expect("a sample")).expect("a book");
            let name = path.file_stem().expect("a name").to_string_lossy();
            (name.into_owned(), book.formula().clone())
        })
        .collect();
    samples.sort_by(|one, other| one.0.cmp(&other.0));
    samples
}

/// All of them, side by side.
fn product(formulas: impl DoubleEndedIterator<Item = Formula>) -> Formula {
    let product = formulas.rev().reduce(|rest, one| one.star(rest));
    product.expect("at least one")
}

/// The formula beside equations that take an empty part each and name the variables that it doesn't.
fn named(formula: Formula, v: u8) -> Formula {
    let stray: Vec<u8> = (1..=v).filter(|&x| !formula.names(x)).collect();
    let equations = stray.into_iter().map(|x| Formula::Equal(x, x));
    product([formula].into_iter().chain(equations))
}

fn row(name: &str, book: &Book) {
    let total = book.bounds().candidates();
    let (answer, taken) = search(book);
    let accepted = Accepted::accept(book.bytes()).expect("it is accepted");
    let Counts { judged, blocks } = counts(&accepted, answer);
    let tried = answer.tried;
    let each = tried as f64 / rate(&accepted, tried);
    let ratio = each / taken;
    let (meaning, share) = match answer.number {
        0 => ("found", String::new()),
        1 => ("none", String::new()),
        _ => (
            "not settled",
            format!(" ({:.1e} of T)", tried as f64 / total as f64),
        ),
    };
    let [taken, each] = [taken, each].map(in_words);
    println!("| {name} | {meaning} | {tried}{share} | {judged} | {blocks} | {taken} | {each} | {ratio:.0e} |");
}

/// The answer of a search with no budget, and the seconds it takes; or, where it takes too long, that of the last budget that
/// was tried. Budgets grow up to T, so that a search that would take years is not begun.
fn search(book: &Book) -> (Answer, f64) {
    let mut budget = 1 << 20;
    loop {
        let start = Instant::now();
        let answer = hollyspool::search(black_box(book.bytes()), budget, &mut [0; MOST_MODEL]);
        let taken = start.elapsed();
        assert!(answer.settled().is_ok(), "{answer:?}");
        if answer.number != 2 || taken > PATIENCE {
            return (answer, taken.as_secs_f64());
        }
        budget = budget.saturating_mul(8);
    }
}

/// What the search takes to this answer, which the copy of its loop must give too.
fn counts(book: &Accepted, answer: Answer) -> Counts {
    let (copy, counts) = counted::search(Profile::Strong, book, answer.tried);
    assert_eq!([copy.number, copy.tried], [answer.number, answer.tried]);
    counts
}

/// How many candidates a second the second bench tries, over stretches all over the first ones, none of which fits.
fn rate(book: &Accepted, count: u64) -> f64 {
    let start = Instant::now();
    let mut tried = 0;
    let mut place: u64 = 0;
    while start.elapsed() < MEASURED {
        let number = ((u128::from(place) * u128::from(count)) >> 64) as u64;
        let candidate = second::model::Model::candidate(book.bounds, number);
        let limit = STRETCH.min(count - number);
        tried += second::search::first_fit(Profile::Strong, book, candidate, limit).1;
        // The golden ratio's digits spread the places evenly.
        place = place.wrapping_add(0x9E37_79B9_7F4A_7C15);
    }
    tried as f64 / start.elapsed().as_secs_f64()
}

/// A time, in the largest unit of which it is at least one.
fn in_words(seconds: f64) -> String {
    let units = [
        ("years", 365.0 * 86_400.0),
        ("d", 86_400.0),
        ("h", 3_600.0),
        ("min", 60.0),
        ("s", 1.0),
        ("ms", 1e-3),
    ];
    let unit = units.into_iter().find(|&(_, size)| seconds >= size);
    let (unit, size) = unit.unwrap_or(("µs", 1e-6));
    let count = seconds / size;
    let digits = usize::from(count < 10.0);
    format!("{count:.digits$} {unit}")
}
