//! The lines of the case files.

use cases::line::{about, all, Call, Case, Outcome};
use hollyspool::{assign_in, encode_in, export, import, judge_in, search_in};
use second::answer::Answer;

use crate::compare::{proved, same_reading, PROFILES};

#[test]
fn answers() {
    for call in [
        Call::Judge,
        Call::Search,
        Call::Encode,
        Call::Assign,
        Call::Import,
        Call::Export,
    ] {
        for case in about(call) {
            assert_eq!(outcome(&case), case.outcome, "{}", case.source);
        }
    }
}

fn outcome(case: &Case) -> Outcome {
    let mut out = case.buffer();
    let (book, arg) = (&case.book, &case.arg);
    let (profile, _) = PROFILES[usize::from(case.ordinary)];
    let answer = match case.call {
        Call::Judge => judge_in(profile, book, arg),
        Call::Search => search_in(profile, book, case.number, &mut out),
        Call::Encode => encode_in(profile, book, &mut out),
        Call::Assign => assign_in(profile, book, arg),
        Call::Import => import(book, arg[0].into(), arg[1].into(), &mut out),
        Call::Export => export(book, &mut out),
        other => unreachable!("{other:?} has a test of its own"),
    };
    Outcome::of(answer.number, answer.place, answer.tried, out)
}

#[test]
fn body_lines() {
    for case in about(Call::Body) {
        let body = hollyspool::body(&case.book, case.number);
        assert_eq!(body, case.outcome.out, "{}", case.source);
        // A line gives 0 as the place of every empty stretch, wherever it starts.
        if !body.is_empty() {
            let start = body.as_ptr().addr() - case.book.as_ptr().addr();
            assert_eq!(start as u64, case.outcome.place, "{}", case.source);
        }
    }
}

#[test]
fn books_of_all_lines() {
    for case in all() {
        same_reading(&case.book);
        let (number, place) = match (case.call, case.outcome.number) {
            // These lines' outcomes say nothing of a book's refusal.
            (Call::Body | Call::Next | Call::Shape | Call::Import, _) => continue,
            (_, number @ (10..=16 | 23 | 24)) => (number, case.outcome.place),
            _ => (0, 0),
        };
        let expected = Answer {
            number,
            place,
            tried: 0,
        };
        let read = proved(hollyspool::read(&case.book));
        assert_eq!(read, expected, "{}", case.source);
    }
}
