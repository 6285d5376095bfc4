//! A search that reports on standard error once it takes over a second.
//!
//! The search is one call, which says nothing until it ends. So it runs in a thread of its own; and what is
//! settled in the meantime is told by searches beside it, of the first candidates, with growing budgets.

use std::io::{self, Write};
use std::sync::mpsc::{self, Sender};
use std::thread;
use std::time::{Duration, Instant};

use hollyspool::{Answer, Book, Profile, Verdict};

/// How long a search stays silent.
const SILENT: Duration = Duration::from_secs(1);

/// The longest time between two reports.
const LONGEST_WAIT: Duration = Duration::from_secs(60);

/// What the threads tell.
enum News {
    /// None of so many first candidates fits.
    Settled(u64),
    /// The search has ended.
    Done(Answer, Vec<u8>),
}

/// Searches, and gives the answer and the output.
pub fn search(profile: Profile, book: &Book, budget: u64) -> (Answer, Vec<u8>) {
    let total = book.bounds().candidates();
    let started = Instant::now();
    let (tell, news) = mpsc::channel();
    beside(book, &tell, move |book, tell| {
        let (answer, out) = plain(profile, book, budget);
        // Nobody listens only where the whole program is ending.
        let _ = tell.send(News::Done(answer, out));
    });
    let mut settled = 0;
    let mut next = SILENT;
    loop {
        match news.recv_timeout(next.saturating_sub(started.elapsed())) {
            Ok(News::Done(answer, out)) => {
                let elapsed = started.elapsed();
                if elapsed >= SILENT {
                    report(&ended(answer.tried, total, elapsed));
                }
                return (answer, out);
            }
            Ok(News::Settled(first)) => settled = first,
            // Nothing new, and time for a report. `tell` is kept, so nothing else ends the wait.
            Err(_) => {
                if next == SILENT {
                    let limit = total.min(budget);
                    beside(book, &tell, move |book, tell| {
                        settle(profile, book, limit, tell)
                    });
                }
                report(&running(settled, total, started.elapsed()));
                next += next.min(LONGEST_WAIT);
            }
        }
    }
}

/// Works in a thread of its own, which tells what comes of it.
fn beside(
    book: &Book,
    tell: &Sender<News>,
    work: impl FnOnce(&Book, &Sender<News>) + Send + 'static,
) {
    let (book, tell) = (book.clone(), tell.clone());
    thread::spawn(move || work(&book, &tell));
}

/// Tells how many first candidates are settled, until one of them fits or all but the last stretch are.
/// Each search begins with candidate 0 again, so that each takes twice as many.
fn settle(profile: Profile, book: &Book, limit: u64, tell: &Sender<News>) {
    let budgets = (0..u64::BITS).map(|doubled| 1 << doubled);
    for budget in budgets.take_while(|&budget| budget < limit) {
        let (answer, _) = plain(profile, book, budget);
        if answer.settled() != Ok(Verdict::Spent) || tell.send(News::Settled(budget)).is_err() {
            return;
        }
    }
}

/// A search goes on even where nobody takes its reports.
fn report(line: &str) {
    let _ = writeln!(io::stderr(), "{line}");
}

/// The search alone.
fn plain(profile: Profile, book: &Book, budget: u64) -> (Answer, Vec<u8>) {
    let mut out = vec![0; book.bounds().model_length()];
    let answer = hollyspool::search_in(profile, book.bytes(), budget, &mut out);
    (answer, out)
}

/// A report while the search runs.
fn running(settled: u64, total: u64, elapsed: Duration) -> String {
    let seconds = elapsed.as_secs_f64();
    match settled {
        0 => format!("searching for {seconds:.0} s"),
        _ => format!(
            "searching for {seconds:.0} s: none of the first {settled} candidates fits, {}",
            share(settled, total)
        ),
    }
}

/// The report of a search that has ended.
fn ended(tried: u64, total: u64, elapsed: Duration) -> String {
    let seconds = elapsed.as_secs_f64();
    let share = share(tried, total);
    format!("searched for {seconds:.1} s: {tried} candidates settled, {share}")
}

fn share(count: u64, total: u64) -> String {
    format!("{:.1} % of T", 100.0 * count as f64 / total as f64)
}
