//! The eight calls, four of them in either profile. Nothing is checked on this side: the archive takes
//! any bytes.

use crate::answer::Answer;
use crate::bounds::Bounds;
use crate::ffi;
use crate::profile::Profile;

/// The most bytes that a model has; an output of this length is never too short for a search.
pub const MOST_MODEL: usize = 2 * Bounds::MOST as usize;

/// The most bytes that an encoding has; an output of this length is never too short for one.
pub const MOST_ENCODED: usize = 7654;

/// The most bytes that a book has; an output of this length is never too short for an import.
pub const MOST_BOOK: usize = 206;

/// The most bytes that a text of a book has; an output of this length is never too short for an
/// export.
pub const MOST_TEXT: usize = 1906;

/// Accepts a book (number 0) or says why not.
///
/// ```
/// let p1 = [2, 1, 11, 0, 3, 0, 2, 14, 0, 3, 0, 1, 1, 1, 3, 1, 1];
/// assert_eq!(hollyspool::read(&p1).number, 0);
/// let cut = hollyspool::read(&p1[..16]);
/// assert_eq!((cut.number, cut.place), (24, 1));
/// ```
pub fn read(book: &[u8]) -> Answer {
    // SAFETY: the pointer and the length are those of one live slice, which the call only reads.
    unsafe { ffi::hollyspool_read(book.as_ptr(), book.len()) }
}

/// The body of an entry, as that stretch of the caller's bytes. Empty for a book refused for its
/// length or its contents (10, 11, 23, 24), and for an entry other than 0 and 1.
///
/// ```
/// let p1 = [2, 1, 11, 0, 3, 0, 2, 14, 0, 3, 0, 1, 1, 1, 3, 1, 1];
/// assert_eq!(hollyspool::body(&p1, 0), [1, 1, 1]);
/// assert_eq!(hollyspool::body(&p1, 1), [3, 1, 1]);
/// assert!(hollyspool::body(&p1, 2).is_empty());
/// ```
pub fn body(book: &[u8], entry: u64) -> &[u8] {
    // SAFETY: as for `read`.
    let stretch = unsafe { ffi::hollyspool_body(book.as_ptr(), book.len(), entry) };
    &book[stretch.start as usize..][..stretch.length as usize]
}

/// Says whether the model fits the book's formula, separation being strong.
///
/// ```
/// let p1 = [2, 1, 11, 0, 3, 0, 2, 14, 0, 3, 0, 1, 1, 1, 3, 1, 1];
/// assert_eq!(hollyspool::judge(&p1, &[1, 1]).number, 0);
/// assert_eq!(hollyspool::judge(&p1, &[1, 255]).number, 1);
/// ```
pub fn judge(book: &[u8], model: &[u8]) -> Answer {
    judge_in(Profile::Strong, book, model)
}

/// [`judge`] in a profile.
///
/// ```
/// use hollyspool::{judge_in, Book, Profile};
///
/// let (book, _) = Book::parse("(sep (not sep.emp) (not sep.emp))", 2, 2)?;
/// // Cell 1 holds 2, which no variable names, and cell 2 holds nil.
/// assert_eq!(judge_in(Profile::Strong, book.bytes(), &[2, 0]).number, 1);
/// assert_eq!(judge_in(Profile::Ordinary, book.bytes(), &[2, 0]).number, 0);
/// # Ok::<(), hollyspool::Refusal>(())
/// ```
pub fn judge_in(profile: Profile, book: &[u8], model: &[u8]) -> Answer {
    let call = match profile {
        Profile::Strong => ffi::hollyspool_judge,
        Profile::Ordinary => ffi::hollyspool_judge_ordinary,
    };
    // SAFETY: as for `read`, for each of the two slices.
    unsafe { call(book.as_ptr(), book.len(), model.as_ptr(), model.len()) }
}

/// Looks for the lowest candidate that fits, separation being strong, and writes it if its number is
/// below the budget. The output needs v + n bytes; the rest of it stays as it was. Alone of all calls
/// it refuses a book with a declared variable that no atom names
/// ([`Book::stray`](crate::Book::stray)).
///
/// ```
/// let p1 = [2, 1, 11, 0, 3, 0, 2, 14, 0, 3, 0, 1, 1, 1, 3, 1, 1];
/// let mut out = [7; 3];
/// assert_eq!(hollyspool::search(&p1, 5, &mut out).number, 2);
/// assert_eq!(out, [7, 7, 7]);
/// assert_eq!(hollyspool::search(&p1, 6, &mut out).tried, 6);
/// assert_eq!(out, [1, 1, 7]);
/// ```
pub fn search(book: &[u8], budget: u64, out: &mut [u8]) -> Answer {
    search_in(Profile::Strong, book, budget, out)
}

/// [`search`] in a profile.
///
/// ```
/// use hollyspool::{search_in, Book, Profile};
///
/// // A list of over one link, in which no two parts have cells.
/// let whole = "(and (and (ls x sep.nil) (not (pto x sep.nil))) \
///              (and (not sep.emp) (not (sep (not sep.emp) (not sep.emp)))))";
/// let (book, _) = Book::parse(whole, 2, 2)?;
/// let mut out = [7; 3];
/// assert_eq!(search_in(Profile::Ordinary, book.bytes(), u64::MAX, &mut out).number, 1);
/// assert_eq!(search_in(Profile::Strong, book.bytes(), u64::MAX, &mut out).number, 0);
/// assert_eq!(out, [1, 2, 0]);
/// # Ok::<(), hollyspool::Refusal>(())
/// ```
pub fn search_in(profile: Profile, book: &[u8], budget: u64, out: &mut [u8]) -> Answer {
    let call = match profile {
        Profile::Strong => ffi::hollyspool_search,
        Profile::Ordinary => ffi::hollyspool_search_ordinary,
    };
    let (to, room) = (out.as_mut_ptr(), out.len());
    // SAFETY: as for `read`; the output is one live slice that nothing else refers to.
    unsafe { call(book.as_ptr(), book.len(), budget, to, room) }
}

/// Writes the encoding of the book's formula, separation being strong, as a book; the rest of the
/// output stays as it was. The encoding's own contents say how long it is.
///
/// ```
/// let p1 = [2, 1, 11, 0, 3, 0, 2, 14, 0, 3, 0, 1, 1, 1, 3, 1, 1];
/// let mut out = [0; hollyspool::MOST_ENCODED];
/// assert_eq!(hollyspool::encode(&p1, &mut out).number, 0);
/// assert_eq!(out[14..24], [4, 0, 0, 0, 1, 0, 0, 0, 0, 0]);
/// ```
pub fn encode(book: &[u8], out: &mut [u8]) -> Answer {
    encode_in(Profile::Strong, book, out)
}

/// [`encode`] in a profile: the ordinary one has no APART rows, nor the AND after each. The bytes don't
/// say which profile they are of.
///
/// ```
/// use hollyspool::{encode_in, Book, Profile, MOST_ENCODED};
///
/// let (book, _) = Book::parse("(sep (pto x sep.nil) (pto y sep.nil))", 2, 2)?;
/// let rows = Profile::ALL.map(|profile| {
///     let mut out = [0; MOST_ENCODED];
///     assert_eq!(encode_in(profile, book.bytes(), &mut out).number, 0);
///     out[9] / 10
/// });
/// assert_eq!(rows, [13, 11]);
/// # Ok::<(), hollyspool::Refusal>(())
/// ```
pub fn encode_in(profile: Profile, book: &[u8], out: &mut [u8]) -> Answer {
    let call = match profile {
        Profile::Strong => ffi::hollyspool_encode,
        Profile::Ordinary => ffi::hollyspool_encode_ordinary,
    };
    let (to, room) = (out.as_mut_ptr(), out.len());
    // SAFETY: as for `search_in`.
    unsafe { call(book.as_ptr(), book.len(), to, room) }
}

/// Says whether the assignment satisfies the rows that [`encode`] gives for the book.
///
/// ```
/// let p1 = [2, 1, 11, 0, 3, 0, 2, 14, 0, 3, 0, 1, 1, 1, 3, 1, 1];
/// assert_eq!(hollyspool::assign(&p1, &[1, 1, 1]).number, 0);
/// assert_eq!(hollyspool::assign(&p1, &[1, 1, 0]).number, 1);
/// ```
pub fn assign(book: &[u8], assignment: &[u8]) -> Answer {
    assign_in(Profile::Strong, book, assignment)
}

/// Says whether the assignment satisfies the rows that [`encode_in`] gives for the book in the same
/// profile. It is the caller who knows in which profile an encoding was made.
///
/// ```
/// use hollyspool::{assign_in, Book, Profile};
///
/// let (book, _) = Book::parse("(sep (not sep.emp) (not sep.emp))", 2, 2)?;
/// // Array 0 holds 2 and 0; set 0 is both cells, and each of the two parts one.
/// let assignment = [2, 0, 3, 1, 2];
/// assert_eq!(assign_in(Profile::Strong, book.bytes(), &assignment).number, 1);
/// assert_eq!(assign_in(Profile::Ordinary, book.bytes(), &assignment).number, 0);
/// # Ok::<(), hollyspool::Refusal>(())
/// ```
pub fn assign_in(profile: Profile, book: &[u8], assignment: &[u8]) -> Answer {
    let call = match profile {
        Profile::Strong => ffi::hollyspool_assign,
        Profile::Ordinary => ffi::hollyspool_assign_ordinary,
    };
    let (from, length) = (assignment.as_ptr(), assignment.len());
    // SAFETY: as for `judge_in`.
    unsafe { call(book.as_ptr(), book.len(), from, length) }
}

/// Writes the book of the formula that the text means, over n locations and with path bound p; the
/// rest of the output stays as it was. The book's own contents say how long it is.
/// [`Book::parse`](crate::Book::parse) gives the book itself, and the text's names.
///
/// ```
/// let mut out = [7; 18];
/// assert_eq!(hollyspool::import(b"(pto x x)", 1, 1, &mut out).number, 0);
/// assert_eq!(out, [2, 1, 11, 0, 3, 0, 2, 14, 0, 3, 0, 1, 1, 1, 3, 1, 1, 7]);
/// let refused = hollyspool::import(b"(pto x, x)", 1, 1, &mut out);
/// assert_eq!((refused.number, refused.place), (26, 6));
/// ```
pub fn import(text: &[u8], n: u64, p: u64, out: &mut [u8]) -> Answer {
    let (to, room) = (out.as_mut_ptr(), out.len());
    // SAFETY: as for `search_in`.
    unsafe { ffi::hollyspool_import(text.as_ptr(), text.len(), n, p, to, room) }
}

/// Writes the text of the book's formula, with variables as `v1`, `v2`, ..; the rest of the output
/// stays as it was. The answer doesn't say how long the text is, but no byte of it is 0: in an output
/// that was all 0 before, it ends before the first 0, or with the output.
/// [`Book::text`](crate::Book::text) gives the text itself.
///
/// ```
/// let p1 = [2, 1, 11, 0, 3, 0, 2, 14, 0, 3, 0, 1, 1, 1, 3, 1, 1];
/// let mut out = [0; 13];
/// assert_eq!(hollyspool::export(&p1, &mut out).number, 0);
/// assert_eq!(&out, b"(pto v1 v1)\0\0");
/// assert_eq!(hollyspool::export(&p1, &mut out[..10]).number, 20);
/// ```
pub fn export(book: &[u8], out: &mut [u8]) -> Answer {
    let (to, room) = (out.as_mut_ptr(), out.len());
    // SAFETY: as for `search_in`.
    unsafe { ffi::hollyspool_export(book.as_ptr(), book.len(), to, room) }
}
