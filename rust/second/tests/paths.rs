//! Document 02, [4]: the path bound belongs to the model.

use cases::cost::{any_size, tame};
use cases::made::{book, tree};
use cases::random::Random;
use second::answer::{Answer, Number};
use second::assign::assign;
use second::encode::encode;
use second::judge::judge;

/// nil = nil ∨ ¬(nil = nil).
const TRUE: &[[u8; 3]] = &[[1, 0, 0], [1, 0, 0], [8, 1, 0], [6, 0, 2]];

/// ¬ls(x,nil).
const NO_LIST: &[[u8; 3]] = &[[4, 1, 0], [8, 0, 0]];

/// x ↦ nil −⊛ x ↦ nil.
const ADDED: &[[u8; 3]] = &[[3, 1, 0], [3, 1, 0], [10, 0, 1]];

/// x ↦ y −⊛ ls(x,nil).
const ADDED_TO_A_LIST: &[[u8; 3]] = &[[3, 1, 2], [4, 1, 0], [10, 0, 1]];

type Judged = ([u8; 3], &'static [[u8; 3]], &'static [u8], bool);

/// Bounds, formula, model, whether it fits.
const JUDGED: &[Judged] = &[
    // The request's own: a list of two links is a list, and at p = 1 the model doesn't fit.
    ([1, 2, 1], NO_LIST, &[1, 2, 0], false),
    ([1, 2, 2], NO_LIST, &[1, 2, 0], false),
    ([1, 2, 1], &[[4, 1, 0]], &[1, 2, 0], false),
    ([1, 2, 2], &[[4, 1, 0]], &[1, 2, 0], true),
    // A link to nil or to a free location counts.
    ([0, 1, 0], TRUE, &[0], false),
    ([0, 1, 1], TRUE, &[0], true),
    ([0, 2, 0], TRUE, &[2, 255], false),
    ([0, 2, 1], TRUE, &[2, 255], true),
    // A cell that points to itself has no path; a cycle of m cells one of m − 1 links.
    ([0, 2, 0], TRUE, &[1, 2], true),
    ([0, 3, 1], TRUE, &[2, 3, 1], false),
    ([0, 3, 2], TRUE, &[2, 3, 1], true),
    // Into a cycle: 1→2→3→2 has a path of two links.
    ([0, 3, 1], TRUE, &[2, 3, 2], false),
    ([0, 3, 2], TRUE, &[2, 3, 2], true),
    // The empty heap has none at all.
    ([0, 3, 0], TRUE, &[255, 255, 255], true),
    // Added heaps, and what they make of the whole, are limited by n alone.
    ([1, 1, 0], ADDED, &[1, 255], true),
    ([2, 2, 1], ADDED_TO_A_LIST, &[1, 2, 255, 0], true),
];

#[test]
fn models() {
    for &(bounds, nodes, model, fits) in JUDGED {
        let answer = judge(&book(bounds, nodes), model);
        assert_eq!(answer, Answer::yes_or_no(fits), "{nodes:?} on {model:?}");
    }
}

/// Every heap over up to four locations, against paths tried one by one.
#[test]
fn every_heap() {
    for n in 0..=4 {
        let bases = usize::from(n + 2);
        for number in 0..bases.pow(n.into()) {
            let digit = |place| (number / bases.pow(place) % bases) as u8;
            let heap: Vec<u8> = (0..n)
                .map(|place| digit(place.into()).wrapping_sub(1))
                .collect();
            let longest = (1..=n).map(|start| longest(&heap, &mut vec![start])).max();
            for p in 0..=n {
                let answer = judge(&book([0, n, p], TRUE), &heap);
                let fits = longest.unwrap_or(0) <= usize::from(p);
                assert_eq!(answer, Answer::yes_or_no(fits), "{heap:?} at {p}");
            }
        }
    }
}

/// The links of the longest path that goes on from these locations.
fn longest(heap: &[u8], path: &mut Vec<u8>) -> usize {
    let last = path[path.len() - 1];
    let value = match last {
        0 => 255,
        location => heap[usize::from(location) - 1],
    };
    if value == 255 || path.contains(&value) {
        return path.len() - 1;
    }
    path.push(value);
    longest(heap, path)
}

/// Demand 3's new clause: raising p never loses a model.
#[test]
fn a_larger_bound() {
    let mut random = Random::new(0x9A74);
    for round in 0..5_000 {
        let [v, n] = [2, 3].map(|most| random.up_to(most));
        let mut nodes = tree(
            &mut random,
            v,
            1 + round % 8,
            &[1, 2, 3, 4, 5, 6, 7, 8, 9, 10],
        );
        tame(&mut nodes, n, any_size(n), 1_000);
        let mut model: Vec<u8> = (0..v).map(|_| random.up_to(n)).collect();
        model.extend((0..n).map(|_| random.up_to(n + 1).wrapping_sub(1)));
        let fits = (0..=n + 1).map(|p| judge(&book([v, n, p], &nodes), &model).number);
        assert!(fits.is_sorted_by(|less, more| less >= more), "{nodes:?}");
    }
}

/// The last two rows are LONG over array 0 and set 0 with p, and the AND of the formula with it.
#[test]
fn last_rows() {
    for p in 0..=8 {
        let mut out = [0; 100];
        let answer = encode(&book([1, 1, p], &[[4, 1, 0]]), &mut out);
        assert_eq!(answer, Answer::plain(Number::Yes));
        // CHAIN 0, CHAIN 1, OR: n is 1 whatever p is.
        assert_eq!(out[9], 50);
        let [long, and] = [&out[44..54], &out[54..64]];
        assert_eq!(long, [13, p, 0, 0, 0, 0, 0, 0, 0, 0]);
        assert_eq!(and, [7, 0, 2, 0, 3, 0, 0, 0, 0, 0]);
    }
}

/// An assignment satisfies a formula's rows where its model fits: x ↦ nil at p = 0 and 1.
#[test]
fn assignments() {
    for (p, number) in [(0, 1), (1, 0)] {
        let book = book([1, 1, p], &[[3, 1, 0]]);
        assert_eq!(assign(&book, &[1, 0, 1]).number, number, "{p}");
    }
}

/// The most rows: 32 lists over eight locations, one of them under a negation, and 31 septractions.
#[test]
fn most_rows() {
    let mut nodes = vec![[4, 1, 2]; 32];
    nodes.extend([[8, 31, 0], [10, 32, 30]]);
    nodes.extend((0..30).map(|join| [10, 33 + join, 29 - join]));
    let book = book([8, 8, 0], &nodes);
    let mut out = [0; 7_654];
    assert_eq!(encode(&book, &mut out).number, 0);
    let rows = usize::from(u16::from_le_bytes([out[9], out[10]])) / 10;
    assert_eq!(rows, 764);
    assert_eq!(encode(&book, &mut out[..7_653]).number, 20);
}
