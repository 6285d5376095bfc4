//! The proved bench, as safe Rust. Documents 01 and 02 say what each call answers; the archive that
//! is linked here is proved to answer so.
//!
//! The eight calls take bytes, any bytes at all, and give an [`Answer`]; the four of them that a
//! [`Profile`] matters to have a form that takes one. Around them stand the
//! reader of texts ([`Book::parse`]), the writer of them ([`Book::text`]), a builder of books
//! ([`Book::new`]), a way back from a book to its formula ([`Book::accept`]), and words for every
//! refusal ([`Refusal`]).
//!
//! ```
//! use hollyspool::{search, Book, Model, Verdict};
//!
//! // Can a queue end at a cell that is not there?
//! let text = "(and (distinct x tail) (and (distinct tail sep.nil) (ls x tail)))";
//! let (book, names) = Book::parse(text, 4, 4)?;
//!
//! let mut model = vec![0; book.bounds().model_length()];
//! let answer = search(book.bytes(), 1_000_000, &mut model);
//! assert_eq!(answer.settled()?, Verdict::Yes);
//! let model = Model::read(book.bounds(), &model)?;
//! assert_eq!(model.with_names(&names).to_string(), "x=2 tail=1 ; 2→1");
//! # Ok::<(), Box<dyn std::error::Error>>(())
//! ```

#![deny(missing_docs)]

mod answer;
mod book;
mod bounds;
mod calls;
mod ffi;
mod formula;
mod model;
mod names;
mod notation;
mod profile;
mod refusal;

pub use answer::{Answer, Verdict};
pub use book::{Book, Unwritable, MOST_NODES};
pub use bounds::Bounds;
pub use calls::{
    assign, assign_in, body, encode, encode_in, export, import, judge, judge_in, read, search,
    search_in, MOST_BOOK, MOST_ENCODED, MOST_MODEL, MOST_TEXT,
};
pub use formula::{Formula, NIL};
pub use model::Model;
pub use profile::Profile;
pub use refusal::Refusal;

/// The page for newcomers, whose examples are compiled and run with those of this crate.
#[cfg(doctest)]
#[doc = include_str!("../../../docs/FIRST_BOOK.md")]
struct FirstBook;
