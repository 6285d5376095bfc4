//! Document 01, "Checked examples": what the program `shape` prints for a book on standard input.

use std::fmt::Write;

use crate::answer::{Answer, Number};
use crate::book::{body, MOST};
use crate::model::UNALLOCATED;
use crate::search::search;

/// The budget of the program's search.
pub const BUDGET: u64 = 1_000_000;

/// What the program prints.
pub fn shape(book: &[u8]) -> String {
    let mut model = [0; 2 * MOST];
    let answer = search(book, BUDGET, &mut model);
    text(book, answer, &model)
}

/// The text for a search's answer and, where it found one, the model it wrote.
pub fn text(book: &[u8], answer: Answer, model: &[u8]) -> String {
    let Answer {
        number,
        place,
        tried,
    } = answer;
    let mut text = format!("answer {number} place {place} tried {tried}\n");
    if number == Number::Yes as u64 {
        let [v, n] = [0, 1].map(|bound| usize::from(book[body(book, 0)][bound]));
        line(&mut text, "stack", &model[..v]);
        line(&mut text, "heap", &model[v..v + n]);
    }
    text
}

/// The word, each byte after a space (`-` for an unallocated cell), and a line feed.
fn line(text: &mut String, word: &str, bytes: &[u8]) {
    text.push_str(word);
    for &byte in bytes {
        match byte {
            UNALLOCATED => text.push_str(" -"),
            _ => write!(text, " {byte}").expect("a string takes any text"),
        }
    }
    text.push('\n');
}
