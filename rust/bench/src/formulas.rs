//! The formulas that are judged and searched.

use cases::made::book;

pub const BOUNDS: [u8; 3] = [6, 6, 6];

/// N is ¬(nil = nil).
pub const FORMULAS: [(&str, &[[u8; 3]]); 4] = [
    ("nil ↦ x", &[[3, 0, 1]]),
    (
        "(ls(x,y) * ls(y,nil)) ∧ nil ≠ nil",
        &[[4, 1, 2], [4, 2, 0], [9, 0, 1], [2, 0, 0], [5, 2, 3]],
    ),
    (
        "((N * N) * N) ∧ nil ≠ nil",
        &[
            [1, 0, 0],
            [8, 0, 0],
            [1, 0, 0],
            [8, 2, 0],
            [9, 1, 3],
            [1, 0, 0],
            [8, 5, 0],
            [9, 4, 6],
            [2, 0, 0],
            [5, 7, 8],
        ],
    ),
    (
        "(x ↦ y −⊛ ls(x,nil)) ∧ nil ≠ nil",
        &[[3, 1, 2], [4, 1, 0], [10, 0, 1], [2, 0, 0], [5, 2, 3]],
    ),
];

/// The operators whose deepest nesting is measured.
pub const NESTED: [(&str, u8); 3] = [("¬", 8), ("*", 9), ("−⊛", 10)];

/// A book of 64 nodes: 32 atoms, the conjunction of all of them, and its negation.
pub fn largest() -> Vec<u8> {
    let mut nodes: Vec<[u8; 3]> = (0..32).map(|k| [1, k % 7, 0]).collect();
    nodes.push([5, 0, 1]);
    nodes.extend((33..63).map(|k| [5, k - 1, k - 31]));
    nodes.push([8, 62, 0]);
    book(BOUNDS, &nodes)
}
