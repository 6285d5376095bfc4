//! Books read and encoded, models and assignments judged, candidates searched, text read and text written a second, by the proved
//! bench and by the second one, in one run; judge and search in both profiles; how a search's time grows with its budget, and an
//! import's with its text; how much stack the proved judge, the proved import and the proved export take; and how long a search
//! takes to its final answer at full bounds, beside trying each candidate, with what it judges and which blocks it looks at.
//!
//! Both are given the same bytes, book and model anew for each call; there are no buffers to clear.
//! No model fits any of the formulas that are judged or searched for their rate, so each is judged to the end. `bench PART` runs
//! one part alone.

mod calls;
mod formulas;
mod judged;
mod profiles;
mod searched;
mod settled;
mod stack;
mod texts;
mod written;

/// The parts, by the word that asks for one alone.
const PARTS: [(&str, fn()); 11] = [
    ("read", calls::read),
    ("judge", judged::judged),
    ("search", searched::searched),
    ("profile", profiles::compare),
    ("encode", calls::encoded),
    ("text", texts::read),
    ("export", written::write),
    ("stack", judged::depths),
    ("text-stack", texts::depths),
    ("export-stack", written::depths),
    ("settle", settled::settled),
];

fn main() {
    let wanted = std::env::args().nth(1);
    for (word, part) in PARTS {
        if wanted.as_ref().is_none_or(|wanted| wanted == word) {
            part();
        }
    }
}
