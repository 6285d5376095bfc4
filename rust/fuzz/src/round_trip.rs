//! A book, written as a text, and that text read back.

use cases::cost::{visits, Sizes};
use hollyspool::{export, import, judge_in, Profile, MOST_BOOK, MOST_TEXT};
use second::book::{Book, BOUNDS, CONTENTS, MOST_NODES};

/// The deepest list of a text that is read.
const DEEPEST: usize = 16;

/// The visits of nodes that judging one model may cost a plain judge: an equation that is read back is
/// an operator 9 more.
const VISITS: u64 = 20_000;

/// A book that was written and read again.
pub struct Back {
    book: Vec<u8>,
    /// The variables of the book that was written, in the order of the text's names.
    order: Vec<usize>,
}

/// What became of a text.
pub enum Reading {
    /// Every variable is named, so that models can be matched.
    Whole(Back),
    /// A declared variable does not stand in the text, or models would take too long to judge.
    NotCompared,
    /// More than 16 deep, or of more than 64 nodes; whichever is met first.
    Refused,
}

/// Writes an accepted book and reads the text back, to be judged on heaps of these sizes, or says what is
/// wrong.
pub fn round_trip(book: &Book, bytes: &[u8], sizes: Sizes) -> Result<Reading, String> {
    let mut out = [0; MOST_TEXT];
    let answer = export(bytes, &mut out);
    if answer.number != 0 {
        return Err(format!("a text of {MOST_TEXT} bytes gives {answer:?}"));
    }
    let text = out.split(|&byte| byte == 0).next().unwrap_or_default();
    let mut read = [0; MOST_BOOK];
    let [n, p] = [book.bounds.n, book.bounds.p].map(|bound| bound as u64);
    let answer = import(text, n, p, &mut read);
    let mut other = [0; MOST_BOOK];
    let second = second::import::import(text, n, p, &mut other);
    if (answer.number, answer.place, read) != (second.number, second.place, other) {
        let text = text.escape_ascii();
        return Err(format!("the second bench reads \"{text}\" otherwise"));
    }
    let (deep, many) = (depth(text) > DEEPEST, nodes(text) > MOST_NODES);
    match (answer.number, deep, many) {
        (0, false, false) => {}
        (26, true, _) | (27, _, true) => return Ok(Reading::Refused),
        _ => {
            let text = text.escape_ascii();
            return Err(format!("\"{text}\", read back, gives {answer:?}"));
        }
    }
    let length = CONTENTS + BOUNDS + usize::from(read[9]);
    let order = order(text);
    let back = read[..length].to_vec();
    if usize::from(back[CONTENTS]) != order.len() {
        return Err(format!("read back, it has {} variables", back[CONTENTS]));
    }
    let table = back[CONTENTS + BOUNDS..].as_chunks().0;
    let compared = order.len() == book.bounds.v && visits(table, n as u8, sizes) <= VISITS;
    Ok(match compared {
        true => Reading::Whole(Back { book: back, order }),
        false => Reading::NotCompared,
    })
}

impl Back {
    /// Judges a model that is in range, each name having its variable's location: whether it fits,
    /// or what differs.
    pub fn fits(&self, profile: Profile, bytes: &[u8], model: &[u8]) -> Result<bool, String> {
        let mut matched = model.to_vec();
        for (name, variable) in self.order.iter().enumerate() {
            matched[name] = model[variable - 1];
        }
        let one = judge_in(profile, bytes, model);
        let other = judge_in(profile, &self.book, &matched);
        match one == other {
            true => Ok(one.number == 0),
            false => Err(format!(
                "on {model:?} it gives {one:?}, and read back, on {matched:?}, {other:?}, in {profile:?}"
            )),
        }
    }
}

/// How deep the lists stand.
fn depth(text: &[u8]) -> usize {
    let mut open = 0;
    let mut deepest = 0;
    for byte in text {
        match byte {
            b'(' => open += 1,
            b')' => open -= 1,
            _ => {}
        }
        deepest = deepest.max(open);
    }
    deepest
}

/// The words, names and `sep.nil` of a text.
fn words(text: &[u8]) -> impl Iterator<Item = &[u8]> {
    let words = text.split(|byte| b" ()".contains(byte));
    words.filter(|word| !word.is_empty())
}

/// How many nodes the text's book needs.
fn nodes(text: &[u8]) -> usize {
    let nodes = |word: &[u8]| match word {
        b"=" | b"distinct" => 4,
        b"wand" => 3,
        b"sep.nil" => 0,
        _ => usize::from(word[0] != b'v'),
    };
    words(text).map(nodes).sum()
}

/// The variables behind the names, as they first appear.
fn order(text: &[u8]) -> Vec<usize> {
    let mut order = Vec::new();
    for word in words(text) {
        if let &[b'v', digit] = word {
            let variable = usize::from(digit - b'0');
            if !order.contains(&variable) {
                order.push(variable);
            }
        }
    }
    order
}
