//! Document 02, [1]: which field of the contents is wrong, and in which order the fields are looked
//! at. Each book is P1's, with some of its contents bytes changed.

use second::answer::Answer;
use second::book::{body, read};

const P1: [u8; 17] = [2, 1, 11, 0, 3, 0, 2, 14, 0, 3, 0, 1, 1, 1, 3, 1, 1];

/// Bytes with their new values.
type Changes = &'static [(usize, u8)];

/// The changes, and the number and place.
const CHANGED: &[(Changes, u64, u64)] = &[
    // The entry count, before all else.
    (&[(0, 1)], 11, 0),
    (&[(0, 3)], 11, 0),
    (&[(0, 0), (1, 9), (2, 9), (6, 9), (9, 9)], 11, 0),
    // The first entry: its kind, and then its offset and length.
    (&[(1, 0)], 23, 0),
    (&[(1, 2), (2, 12)], 23, 0),
    (&[(1, 2), (6, 1)], 23, 0),
    (&[(2, 12)], 24, 0),
    (&[(3, 1)], 24, 0),
    (&[(4, 7)], 24, 0),
    (&[(5, 1)], 24, 0),
    // A body that ends within the book passes; that the second doesn't start there is its own fault.
    (&[(4, 4)], 24, 1),
    (&[(4, 2)], 24, 1),
    (&[(4, 6)], 24, 1),
    // Both fields of the first entry before the kind of the second.
    (&[(2, 12), (6, 1)], 24, 0),
    (&[(4, 7), (6, 1)], 24, 0),
    (&[(4, 4), (6, 1)], 23, 1),
    // The second entry, likewise.
    (&[(6, 1)], 23, 1),
    (&[(6, 3), (7, 15)], 23, 1),
    (&[(7, 15)], 24, 1),
    (&[(8, 1)], 24, 1),
    (&[(9, 2)], 24, 1),
    (&[(9, 4)], 24, 1),
    (&[(10, 1)], 24, 1),
    // Offsets and lengths never wrap: 11 and 65,535 are not 10.
    (&[(4, 255), (5, 255), (7, 10), (9, 7)], 24, 0),
    // Contents before bounds.
    (&[(9, 2), (11, 9)], 24, 1),
    (&[(11, 9)], 12, 0),
    // All of the book for the bounds: the contents are as stated, the bounds are not.
    (&[(4, 6), (7, 17), (9, 0)], 12, 0),
];

#[test]
fn changed_contents() {
    for &(changes, number, place) in CHANGED {
        let mut book = P1;
        for &(at, byte) in changes {
            book[at] = byte;
        }
        let expected = Answer {
            number,
            place,
            tried: 0,
        };
        assert_eq!(read(&book), expected, "{changes:?}");
        for entry in [0, 1] {
            let empty = body(&book, entry).is_empty();
            let formula_is_empty = changes.contains(&(9, 0)) && entry == 1;
            assert_eq!(empty, number != 12 || formula_is_empty, "{changes:?}");
        }
    }
}
