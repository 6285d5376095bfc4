//! Document 02, [9]: operators 9 and 10 in the ordinary profile, and where both profiles agree.

use cases::cost::{any_size, tame};
use cases::made::{book, small, tree};
use cases::random::Random;
use second::answer::{Answer, Number};
use second::assign::assign_in;
use second::book::Bounds;
use second::candidate::count;
use second::encode::encode_in;
use second::import::import;
use second::judge::judge_in;
use second::model::Model;
use second::profile::Profile::{self, Ordinary, Strong};
use second::search::search_in;

/// N * N, where N is ¬E and E is nil = nil.
const N_SEP_N: &[[u8; 3]] = &[[1, 0, 0], [8, 0, 0], [1, 0, 0], [8, 2, 0], [9, 1, 3]];

/// N −⊛ N.
const N_ADDED: &[[u8; 3]] = &[[1, 0, 0], [8, 0, 0], [1, 0, 0], [8, 2, 0], [10, 1, 3]];

/// ((ls(x,nil) ∧¬ x ↦ nil) ∧¬ E) ∧¬ (N * N).
const LIST_IN_ONE: &[[u8; 3]] = &[
    [4, 1, 0],
    [3, 1, 0],
    [7, 0, 1],
    [1, 0, 0],
    [7, 2, 3],
    [1, 0, 0],
    [8, 5, 0],
    [1, 0, 0],
    [8, 7, 0],
    [9, 6, 8],
    [7, 4, 9],
];

/// x ↦ nil * y ↦ nil.
const TWO_CELLS: &[[u8; 3]] = &[[3, 1, 0], [3, 2, 0], [9, 0, 1]];

type Judged = (
    &'static str,
    [u8; 3],
    &'static [[u8; 3]],
    &'static [u8],
    [bool; 2],
);

/// Name, bounds, formula, model, whether it fits in the strong and in the ordinary profile.
const JUDGED: &[Judged] = &[
    ("P7", [2, 3, 3], N_SEP_N, &[1, 2, 3, 3, 255], [false, true]),
    (
        "P8",
        [3, 3, 3],
        N_SEP_N,
        &[1, 2, 3, 3, 3, 255],
        [true, true],
    ),
    ("one cell", [0, 1, 1], N_SEP_N, &[0], [false, false]),
    (
        "a cell that is pointed to",
        [0, 2, 2],
        N_SEP_N,
        &[2, 0],
        [false, true],
    ),
    ("P9", [2, 2, 2], TWO_CELLS, &[1, 2, 0, 0], [true, true]),
    (
        "one cell twice",
        [2, 2, 2],
        TWO_CELLS,
        &[1, 1, 0, 255],
        [false, false],
    ),
    // The one cell that may be added is pointed to, and its location is not named.
    (
        "an added cell",
        [1, 2, 2],
        N_ADDED,
        &[1, 2, 255],
        [false, true],
    ),
    ("no cell left", [0, 1, 1], N_ADDED, &[1], [false, false]),
];

#[test]
fn models() {
    for &(name, bounds, nodes, model, fits) in JUDGED {
        for (profile, fits) in Profile::ALL.into_iter().zip(fits) {
            let answer = judge_in(profile, &book(bounds, nodes), model);
            assert_eq!(answer, Answer::yes_or_no(fits), "{name} in {profile:?}");
        }
    }
}

/// In a text without `not` and `wand` the profiles differ all the same: its `=` holds on any heap.
#[test]
fn a_text_without_not_and_wand() {
    let mut out = [0; 206];
    let answer = import(b"(sep (ls x sep.nil) (= x x))", 3, 3, &mut out);
    assert_eq!(answer, Answer::plain(Number::Yes));
    let book = &out[..14 + usize::from(out[9])];
    // x = 1 ; 1→3, 2→3, 3→0.
    let model = [1, 3, 3, 0];
    assert_eq!(judge_in(Strong, book, &model).number, 1);
    assert_eq!(judge_in(Ordinary, book, &model).number, 0);
}

/// A list of over one link in which no two parts have cells, and the search's refusals.
#[test]
fn searches() {
    let whole = book([1, 2, 2], LIST_IN_ONE);
    let mut out = [0xA5; 3];
    let none = search_in(Ordinary, &whole, u64::MAX, &mut out);
    assert_eq!(none, Answer::tried(Number::No, 48));
    assert_eq!(out, [0xA5; 3]);
    let found = search_in(Strong, &whole, u64::MAX, &mut out);
    assert_eq!(found, Answer::tried(Number::Yes, 24));
    assert_eq!(out, [1, 2, 0]);
    let stray = book([2, 2, 2], LIST_IN_ONE);
    for profile in Profile::ALL {
        let short = search_in(profile, &whole, 0, &mut out[..2]);
        assert_eq!(short, Answer::plain(Number::OutputShort));
        let refused = search_in(profile, &stray, 0, &mut out);
        assert_eq!(refused, Answer::at(Number::StrayVariable, 2));
    }
}

/// The rows of a formula by their operators.
fn operators(profile: Profile, bounds: [u8; 3], nodes: &[[u8; 3]]) -> Vec<u8> {
    let mut out = [0; 300];
    let answer = encode_in(profile, &book(bounds, nodes), &mut out);
    assert_eq!(answer, Answer::plain(Number::Yes));
    let rows = &out[14..14 + usize::from(out[9]) + 256 * usize::from(out[10])];
    rows.chunks(10).map(|row| row[0]).collect()
}

/// No APART and no AND after it; LONG and AND at the end in both.
#[test]
fn rows() {
    let own = |profile, nodes| operators(profile, [2, 2, 2], nodes)[6..].to_vec();
    assert_eq!(own(Strong, TWO_CELLS), [7, 10, 7, 11, 7, 13, 7]);
    assert_eq!(own(Ordinary, TWO_CELLS), [7, 10, 7, 13, 7]);
    let added: &[[u8; 3]] = &[[3, 1, 0], [3, 2, 0], [10, 0, 1]];
    assert_eq!(own(Strong, added), [7, 10, 7, 11, 7, 12, 7, 13, 7]);
    assert_eq!(own(Ordinary, added), [7, 10, 7, 12, 7, 13, 7]);
}

/// An assignment is judged by the rows of the profile that is asked. In P7's the two cells meet at 3,
/// which no variable names; each is a part, or both are in one.
#[test]
fn assignments() {
    let book = book([2, 3, 3], N_SEP_N);
    for (sets, numbers) in [([3, 1, 2], [1, 0]), ([3, 3, 0], [1, 1])] {
        let assignment = [&[1, 2, 3, 3, 0][..], &sets].concat();
        for (profile, number) in Profile::ALL.into_iter().zip(numbers) {
            let answer = assign_in(profile, &book, &assignment);
            assert_eq!(answer.number, number, "{sets:?} in {profile:?}");
        }
    }
}

/// Where operator 8 is absent, both profiles give every model the same answer, operator 10 or not.
#[test]
fn without_operator_8() {
    let same = |bounds: [u8; 3], nodes: &[[u8; 3]]| {
        if nodes.iter().any(|node| node[0] == 8) {
            return;
        }
        let book = book(bounds, nodes);
        for model in every_model(bounds) {
            let [strong, ordinary] = Profile::ALL.map(|profile| judge_in(profile, &book, &model));
            assert_eq!(strong, ordinary, "{nodes:?} on {model:?}");
        }
    };
    for nodes in small(2) {
        same([2, 2, 2], &nodes);
    }
    let mut random = Random::new(0x0912);
    for round in 0..3_000 {
        let bounds = [2, 3, 3].map(|most| random.up_to(most));
        let operators = [1, 2, 3, 3, 4, 4, 5, 6, 7, 9, 9, 10];
        // A tree of an odd count needs no negation.
        let operators = [&operators[..], &[8]].concat();
        let mut nodes = tree(&mut random, bounds[0], 3 + 2 * (round % 4), &operators);
        tame(&mut nodes, bounds[1], any_size(bounds[1]), 1_000);
        same(bounds, &nodes);
    }
}

/// The bytes of every model.
fn every_model([v, n, p]: [u8; 3]) -> Vec<Vec<u8>> {
    let [v, n, p] = [v, n, p].map(usize::from);
    let bounds = Bounds { v, n, p };
    let mut model = Model::default();
    let bytes = |_| {
        let mut bytes = vec![0; v + n];
        model.write(bounds, &mut bytes);
        model = model.next(bounds);
        bytes
    };
    (0..count(bounds)).map(bytes).collect()
}
