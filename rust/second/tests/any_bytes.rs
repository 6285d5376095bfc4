//! Every call answers whatever bytes it is given, and a refusal changes no output byte.

use cases::random::Random;
use second::assign::assign_in;
use second::book::{body, read};
use second::encode::encode_in;
use second::judge::judge_in;
use second::profile::Profile;
use second::search::search_in;
use second::shape::shape;
use second::write::export;

#[test]
fn bytes_that_are_no_book() {
    let mut random = Random::new(1);
    for length in (0..300).chain([65_535]) {
        let any: Vec<u8> = (0..length).map(|_| random.byte()).collect();
        for book in [any, vec![0; length], vec![2; length], vec![255; length]] {
            refused(&book);
        }
    }
}

fn refused(book: &[u8]) {
    let answer = read(book);
    assert!(matches!(answer.number, 10 | 11 | 23 | 24));
    assert_eq!((answer.place, answer.tried), (0, 0));
    for entry in [0, 1, 2, 255, 256, u64::MAX] {
        assert_eq!(body(book, entry), 0..0);
    }
    let mut out = [0xA5; 300];
    for profile in Profile::ALL {
        assert_eq!(judge_in(profile, book, book), answer);
        assert_eq!(assign_in(profile, book, book), answer);
        assert_eq!(search_in(profile, book, u64::MAX, &mut out), answer);
        assert_eq!(encode_in(profile, book, &mut out), answer);
    }
    assert_eq!(export(book, &mut out), answer);
    assert_eq!(out, [0xA5; 300]);
    let printed = format!("answer {} place 0 tried 0\n", answer.number);
    assert_eq!(shape(book), printed);
}
