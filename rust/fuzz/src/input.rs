//! What the calls are given in one round.

use std::fmt;

use cases::cost::{any_size, sizes};
use cases::random::Random;
use cases::renumber::renumbering;
use hollyspool::MOST_TEXT;
use second::book::{Book, Bounds, BOUNDS, CONTENTS, LONGEST, MOST};
use second::candidate::count;
use second::model::Model;
use second::profile::Profile;
use second::rows::Table;
use second::write;

use crate::books::{tame, Books};
use crate::damage::damage;
use crate::texts::Texts;

/// The visits of nodes that one search may cost.
const VISITS: u64 = 60_000;

/// A book, and all else that a call may take.
#[derive(Debug)]
pub struct Input {
    pub book: Vec<u8>,
    pub model: Vec<u8>,
    /// The new number of each location from 0 to n.
    pub renumbering: Vec<u8>,
    pub assignment: Vec<u8>,
    pub entry: u64,
    pub budget: u64,
    /// The length of a search's output.
    pub model_room: usize,
    /// The length of an encoding's output.
    pub encoding_room: usize,
    /// The length of the output of the book's text.
    pub text_room: usize,
    pub text: Text,
}

/// What an import may take.
pub struct Text {
    pub bytes: Vec<u8>,
    pub n: u64,
    pub p: u64,
    /// The length of the output.
    pub room: usize,
    /// Whether it is also read cut at every length.
    pub cut: bool,
}

/// A text shows as one.
impl fmt::Debug for Text {
    fn fmt(&self, f: &mut fmt::Formatter<'_>) -> fmt::Result {
        let Text { n, p, room, .. } = self;
        let text = self.bytes.escape_ascii();
        write!(f, "\"{text}\" with n = {n}, p = {p}, room for {room}")
    }
}

impl Text {
    fn random(random: &mut Random, texts: &Texts) -> Text {
        let most = MOST as u64;
        let bounds = [
            0,
            1,
            2,
            most,
            most,
            most,
            most + 1,
            255,
            256,
            1 << 32,
            u64::MAX,
        ];
        let bytes = texts.any(random);
        let mut out = [0; LONGEST];
        let needed = match second::import::import(&bytes, 0, 0, &mut out).number {
            0 => CONTENTS + BOUNDS + usize::from(out[9]),
            _ => LONGEST,
        };
        let bound = |random: &mut Random| match random.below(16) {
            0 => random.one_of(&bounds),
            _ => random.below(MOST + 1) as u64,
        };
        Text {
            n: bound(random),
            p: bound(random),
            room: room(random, needed),
            cut: random.below(200) == 0,
            bytes,
        }
    }
}

impl Input {
    pub fn random(random: &mut Random, books: &Books, texts: &Texts) -> Input {
        let mut book = books.any(random);
        let bounds = Book::accept(&book).map(|book| book.bounds);
        let bounds = bounds.unwrap_or_else(|_| any_bounds(random));
        let model = model(random, bounds);
        // A search begins with the empty heap. Where there is none, what is costly on other heaps than
        // the model's stays in the book.
        let searched = random.below(6) > 0 || Model::accept(bounds, &model).is_err();
        let sizes = match searched {
            true => any_size(bounds.n as u8),
            false => sizes(bounds.v, [&model]),
        };
        let visits = tame(&mut book, sizes);
        let accepted = Book::accept(&book).ok();
        let length = accepted.map_or(MOST_TEXT, |book| write::text(&book).len());
        // The arrays and sets are the same in both profiles, the rows are not.
        let profile = random.one_of(&Profile::ALL);
        let table = accepted.and_then(|book| Table::of(profile, &book).ok());
        let (arrays, sets, rows) = table.map_or((1, 1, 1), |table| {
            (table.arrays.into(), table.sets.into(), table.rows.len())
        });
        Input {
            renumbering: renumbering(random, bounds.n as u8),
            assignment: assignment(random, bounds, arrays, sets),
            entry: random.one_of(&[0, 1, 2, 255, 256, u64::MAX]),
            budget: match searched {
                true => budget(random, count(bounds), visits),
                false => 0,
            },
            model_room: room(random, bounds.v + bounds.n),
            encoding_room: room(random, 14 + 10 * rows),
            text_room: room(random, length),
            text: Text::random(random, texts),
            model,
            book,
        }
    }
}

fn any_bounds(random: &mut Random) -> Bounds {
    let [v, n, p] = [(); 3].map(|()| random.below(MOST + 1));
    Bounds { v, n, p }
}

/// A model, in range more often than not; in a third of them most cells share a value, so that parts
/// meet.
fn model(random: &mut Random, bounds: Bounds) -> Vec<u8> {
    let n = bounds.n as u8;
    let mut model: Vec<u8> = (0..bounds.v).map(|_| random.up_to(n)).collect();
    let shared = (random.below(3) == 0).then(|| random.up_to(n));
    model.extend((0..n).map(|_| match (shared, random.up_to(n + 1)) {
        (Some(value), _) if random.below(3) > 0 => value,
        (_, 0) => 255,
        (_, digit) => digit - 1,
    }));
    damaged_at_times(random, model)
}

/// An assignment, in range more often than not.
fn assignment(random: &mut Random, bounds: Bounds, arrays: usize, sets: usize) -> Vec<u8> {
    let n = bounds.n as u8;
    let values = bounds.v + bounds.n * arrays;
    let mut assignment: Vec<u8> = (0..values).map(|_| random.up_to(n)).collect();
    assignment.extend((0..sets).map(|_| random.below(1 << n) as u8));
    damaged_at_times(random, assignment)
}

fn damaged_at_times(random: &mut Random, mut bytes: Vec<u8>) -> Vec<u8> {
    if random.below(6) == 0 {
        damage(random, &mut bytes);
    }
    bytes
}

/// A budget that a search can be given: any where all candidates are soon tried.
fn budget(random: &mut Random, total: u64, visits: u64) -> u64 {
    let most = VISITS / visits.max(1);
    if total <= most || visits == 0 {
        let any = random.below(total as usize + 1) as u64;
        random.one_of(&[any, any, total - 1, total, total + 1, u64::MAX, u64::MAX])
    } else {
        random.below(most as usize + 1) as u64
    }
}

/// A length that is enough, just enough, or too short.
fn room(random: &mut Random, needed: usize) -> usize {
    match random.below(8) {
        0 => needed.saturating_sub(1),
        1 => random.below(needed + 1),
        2..=4 => needed,
        _ => needed + random.below(40),
    }
}
