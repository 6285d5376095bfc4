//! Document 01, "Checked examples": P1 to P14, P1's encoding, and what `shape` prints for P1.

use cases::made::book;
use second::answer::Answer;
use second::assign::assign;
use second::encode::encode;
use second::judge::judge;
use second::search::search;
use second::shape::shape;

const P1: &[u8] = &[2, 1, 11, 0, 3, 0, 2, 14, 0, 3, 0, 1, 1, 1, 3, 1, 1];

/// N * N, where N is ¬E and E is nil = nil.
const N_SEP_N: &[[u8; 3]] = &[[1, 0, 0], [8, 0, 0], [1, 0, 0], [8, 2, 0], [9, 1, 3]];

/// E ∧ ¬(N −⊛ N).
const E_BUT_NO_ADDED: &[[u8; 3]] = &[
    [1, 0, 0],
    [1, 0, 0],
    [8, 1, 0],
    [1, 0, 0],
    [8, 3, 0],
    [10, 2, 4],
    [8, 5, 0],
    [5, 0, 6],
];

/// x ↦ nil * y ↦ nil.
const TWO_CELLS: &[[u8; 3]] = &[[3, 1, 0], [3, 2, 0], [9, 0, 1]];

/// x ↦ x * (x ↦ nil −⊛ x ↦ nil).
const SEP_OF_SEPTRACTION: &[[u8; 3]] = &[[3, 1, 1], [3, 1, 0], [3, 1, 0], [10, 1, 2], [9, 0, 3]];

type Search = (
    &'static str,
    [u8; 3],
    &'static [[u8; 3]],
    u64,
    (u64, u64),
    &'static [u8],
);

/// Name, bounds, formula, budget, number and tried, model.
const SEARCHES: &[Search] = &[
    ("P1", [1, 1, 1], &[[3, 1, 1]], 6, (0, 6), &[1, 1]),
    ("P2", [1, 1, 1], &[[3, 1, 1]], 5, (2, 5), &[]),
    ("P3", [1, 1, 1], &[[3, 1, 0]], 6, (0, 5), &[1, 0]),
    ("P4", [1, 1, 1], &[[4, 1, 0]], 6, (0, 1), &[0, 255]),
    ("P5", [1, 0, 0], &[[2, 1, 0]], 6, (1, 1), &[]),
    ("P6", [1, 1, 1], &[[3, 0, 1]], 6, (1, 6), &[]),
    ("P13, n = 0", [0, 0, 0], E_BUT_NO_ADDED, 6, (0, 1), &[]),
    ("P13, n = 1", [0, 1, 0], E_BUT_NO_ADDED, 6, (1, 3), &[]),
];

type Judged = (
    &'static str,
    [u8; 3],
    &'static [[u8; 3]],
    &'static [u8],
    bool,
);

/// Name, bounds, formula, model, whether it fits.
const JUDGED: &[Judged] = &[
    ("P7", [2, 3, 3], N_SEP_N, &[1, 2, 3, 3, 255], false),
    ("P8", [3, 3, 3], N_SEP_N, &[1, 2, 3, 3, 3, 255], true),
    ("P9", [2, 2, 2], TWO_CELLS, &[1, 2, 0, 0], true),
    ("P10", [1, 1, 1], SEP_OF_SEPTRACTION, &[1, 1], true),
    ("P11, p = 1", [1, 2, 1], &[[4, 1, 0]], &[1, 2, 0], false),
    ("P11, p = 2", [1, 2, 2], &[[4, 1, 0]], &[1, 2, 0], true),
    (
        "¬ls(x,nil), p = 1",
        [1, 2, 1],
        &[[4, 1, 0], [8, 0, 0]],
        &[1, 2, 0],
        false,
    ),
    (
        "an added heap, p = 0",
        [1, 1, 0],
        &[[3, 1, 0], [3, 1, 0], [10, 0, 1]],
        &[1, 255],
        true,
    ),
    ("x ↦ x, p = 0", [1, 1, 0], &[[3, 1, 1]], &[1, 1], true),
    ("P12", [1, 1, 1], &[[4, 1, 1]], &[1, 1], false),
    ("P14, x ↦ y", [2, 2, 2], &[[3, 1, 2]], &[1, 2, 2, 255], true),
    (
        "P14, y ↦ x",
        [2, 2, 2],
        &[[3, 2, 1]],
        &[1, 2, 2, 255],
        false,
    ),
];

#[test]
fn searches() {
    for &(name, bounds, nodes, budget, (number, tried), model) in SEARCHES {
        let room = usize::from(bounds[0] + bounds[1]);
        let mut out = vec![0xA5; room];
        let answer = search(&book(bounds, nodes), budget, &mut out);
        let expected = Answer {
            number,
            place: 0,
            tried,
        };
        assert_eq!(answer, expected, "{name}");
        let untouched = vec![0xA5; room];
        assert_eq!(out, if number == 0 { model } else { &untouched }, "{name}");
    }
}

#[test]
fn models() {
    for &(name, bounds, nodes, model, fits) in JUDGED {
        let answer = judge(&book(bounds, nodes), model);
        assert_eq!(answer, answered(u64::from(!fits)), "{name}");
    }
}

#[test]
fn p1_in_bytes() {
    assert_eq!(book([1, 1, 1], &[[3, 1, 1]]), P1);
    let mut out = [0xA5; 65];
    assert_eq!(encode(P1, &mut out), answered(0));
    let mut expected = vec![2, 1, 11, 0, 3, 0, 3, 14, 0, 50, 0, 1, 1, 1];
    expected.extend([4, 0, 0, 0, 1, 0, 0, 0, 0, 0]);
    expected.extend([5, 0, 0, 0, 1, 0, 1, 0, 0, 0]);
    expected.extend([7, 0, 0, 0, 1, 0, 0, 0, 0, 0]);
    expected.extend([13, 1, 0, 0, 0, 0, 0, 0, 0, 0]);
    expected.extend([7, 0, 2, 0, 3, 0, 0, 0, 0, 0]);
    expected.push(0xA5);
    assert_eq!(out[..], expected);
    assert_eq!(assign(P1, &[1, 1, 1]), answered(0));
    assert_eq!(shape(P1), "answer 0 place 0 tried 6\nstack 1\nheap 1\n");
}

fn answered(number: u64) -> Answer {
    Answer {
        number,
        place: 0,
        tried: 0,
    }
}
