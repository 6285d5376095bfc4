//! The refusals and their numbers.

use std::collections::BTreeSet;

use hollyspool::{Answer, Refusal, Verdict};

/// Numbers 10 to 28 are the refusals, each with words of its own; their place is kept where the
/// number names one.
#[test]
fn every_number() {
    let mut words = BTreeSet::new();
    for number in 0..100 {
        let answer = Answer {
            number,
            place: 7,
            tried: 0,
        };
        let refusal = Refusal::of(answer);
        assert_eq!(refusal.is_some(), (10..=28).contains(&number), "{number}");
        let Some(refusal) = refusal else { continue };
        assert_eq!(refusal.number(), number);
        assert_eq!(answer.settled(), Err(refusal));
        let names_a_place = matches!(number, 14..=16 | 18 | 22..=28);
        assert_eq!(refusal.to_string().contains('7'), names_a_place, "{number}");
        assert!(words.insert(refusal.to_string()), "{refusal}");
    }
}

#[test]
fn verdicts() {
    for (number, verdict) in [(0, Verdict::Yes), (1, Verdict::No), (2, Verdict::Spent)] {
        let answer = Answer {
            number,
            place: 0,
            tried: 9,
        };
        assert_eq!(answer.settled(), Ok(verdict));
    }
}
