//! What the wrapper adds to the calls: books from formulas, formulas from books, and words.

mod books;
mod candidates;
mod eight;
mod models;
mod numbers;
mod profiles;
mod samples;
mod written;
