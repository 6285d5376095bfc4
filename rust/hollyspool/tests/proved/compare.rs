//! A proved call beside the second bench's.

use hollyspool::Profile;
use second::answer::Answer;
use second::profile::Profile as Second;

/// Each profile, as both benches have it.
pub const PROFILES: [(Profile, Second); 2] = [
    (Profile::Strong, Second::Strong),
    (Profile::Ordinary, Second::Ordinary),
];

/// The largest value of each bound.
pub const MOST: u8 = second::book::MOST as u8;

/// Entries that a contents has, and some that it hasn't.
const ENTRIES: [u64; 8] = [0, 1, 2, 3, 255, 256, 257, u64::MAX];

/// Compares `read`, and `body` at every entry of interest, on one book.
pub fn same_reading(book: &[u8]) {
    let proved = proved(hollyspool::read(book));
    assert_eq!(proved, second::book::read(book), "read {book:?}");
    for entry in ENTRIES {
        let stretch = second::book::body(book, entry);
        // The very bytes of the caller: where the part starts counts, even of an empty one.
        assert_eq!(
            hollyspool::body(book, entry).as_ptr_range(),
            book[stretch].as_ptr_range(),
            "body {entry} of {book:?}"
        );
    }
}

/// A proved answer, to be compared with the second bench's.
pub fn proved(answer: hollyspool::Answer) -> Answer {
    let hollyspool::Answer {
        number,
        place,
        tried,
    } = answer;
    Answer {
        number,
        place,
        tried,
    }
}
