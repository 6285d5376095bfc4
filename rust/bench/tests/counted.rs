//! The copy of the search's loop gives the second bench's answers, without trying each candidate.

use cases::cost::{any_size, tame};
use cases::made::{book, exchanged, name_all, tree};
use cases::random::Random;
use counted::{search, Counts};
use second::answer::Answer;
use second::book::Book;
use second::profile::Profile;
use second::search::search_in;

/// The largest bound: 810,000 candidates.
const MOST: u8 = 4;

const OPERATORS: [u8; 16] = [1, 2, 2, 3, 3, 3, 4, 5, 5, 6, 7, 8, 9, 9, 9, 10];

/// The node visits that one random candidate may take.
const VISITS: u64 = 100;

#[test]
fn random_books() {
    let mut random = Random::new(0xC0);
    let mut answers = [0; 3];
    let [mut tried, mut judged, mut blocks] = [0; 3];
    for round in 0..400 {
        let mut bounds = [(); 3].map(|()| random.up_to(MOST));
        let mut nodes = tree(&mut random, bounds[0], 1 + round % 16, &OPERATORS);
        bounds[0] = name_all(&mut random, &mut nodes, bounds[0]);
        tame(&mut nodes, bounds[1], any_size(bounds[1]), VISITS);
        let book = book(bounds, &nodes);
        for profile in Profile::ALL {
            let last = same_answer(profile, &book, u64::MAX).0.tried;
            let budget = random.below(last as usize + 2) as u64;
            let (answer, counts) = same_answer(profile, &book, budget);
            answers[answer.number as usize] += 1;
            tried += answer.tried;
            judged += counts.judged;
            blocks += counts.blocks;
        }
    }
    assert!(answers.iter().all(|&often| often > 0), "{answers:?}");
    assert!(judged + blocks < tried / 10, "{judged} {blocks} {tried}");
}

#[test]
fn exchanges() {
    for n in 2..=MOST {
        for (bounds, nodes) in exchanged(n) {
            let book = book(bounds, &nodes);
            let (answer, _) = same_answer(Profile::Ordinary, &book, u64::MAX);
            assert_eq!(answer.number, 0, "{book:?}");
        }
    }
}

fn same_answer(profile: Profile, book: &[u8], budget: u64) -> (Answer, Counts) {
    let accepted = Book::accept(book).expect("it is accepted");
    let (answer, counts) = search(profile, &accepted, budget);
    let second = search_in(profile, book, budget, &mut [0; 2 * MOST as usize]);
    assert_eq!(answer, second, "{budget} for {book:?} in {profile:?}");
    assert!(counts.judged <= answer.tried);
    (answer, counts)
}
