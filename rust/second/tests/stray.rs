//! Document 02, [3]: the search refuses a book with a declared variable that no atom names, and no
//! other call does.

use cases::made::book;
use second::answer::Answer;
use second::book::read;
use second::encode::encode;
use second::judge::judge;
use second::search::search;
use second::shape::shape;

/// N * N, where N is ¬E and E is nil = nil.
const N_SEP_N: &[[u8; 3]] = &[[1, 0, 0], [8, 0, 0], [1, 0, 0], [8, 2, 0], [9, 1, 3]];

/// The variables v, the formula, and the lowest stray variable.
const STRAY: &[(u8, &[[u8; 3]], u64)] = &[
    (1, &[[1, 0, 0]], 1),
    (2, &[[3, 1, 1]], 2),
    (2, &[[3, 2, 2]], 1),
    (6, &[[4, 6, 0]], 1),
    (6, &[[3, 1, 2], [4, 4, 5], [9, 0, 1]], 3),
    (2, N_SEP_N, 1),
    (3, N_SEP_N, 1),
    // Nodes 1 and 2 are operands of connectives.
    (
        2,
        &[[3, 1, 0], [1, 0, 0], [1, 0, 0], [9, 1, 2], [9, 0, 3]],
        2,
    ),
    (1, &[[1, 0, 0], [2, 0, 0], [8, 1, 0], [5, 0, 2]], 1),
];

/// The variables v and a formula whose atoms name them all.
const NAMED: &[(u8, &[[u8; 3]])] = &[
    (0, &[[1, 0, 0]]),
    (1, &[[1, 1, 1]]),
    (1, &[[2, 0, 1]]),
    (2, &[[4, 2, 1]]),
    // Under a negation and in a septraction, too.
    (1, &[[1, 1, 0], [8, 0, 0]]),
    (2, &[[3, 0, 1], [3, 2, 0], [10, 0, 1]]),
    (3, &[[1, 3, 0], [2, 2, 1], [7, 0, 1]]),
];

#[test]
fn refused_by_the_search_alone() {
    for &(v, nodes, place) in STRAY {
        let book = book([v, 2, 2], nodes);
        let refused = Answer {
            number: 25,
            place,
            tried: 0,
        };
        for (budget, room) in [(0, 20), (u64::MAX, 20), (6, 0)] {
            let mut out = vec![0xA5; room];
            assert_eq!(search(&book, budget, &mut out), refused, "{nodes:?}");
            assert_eq!(out, vec![0xA5; room]);
        }
        assert_eq!(shape(&book), format!("answer 25 place {place} tried 0\n"));
        let model = vec![0; usize::from(v) + 2];
        assert_eq!(read(&book).number, 0);
        assert!(judge(&book, &model).number < 2);
        assert_ne!(encode(&book, &mut [0; 1000]).number, 25);
    }
}

#[test]
fn not_refused() {
    for &(v, nodes) in NAMED {
        let book = book([v, 2, 2], nodes);
        assert_eq!(search(&book, 0, &mut [0; 8]).number, 2, "{nodes:?}");
        assert_eq!(search(&book, 0, &mut []).number, 20, "{nodes:?}");
    }
}
