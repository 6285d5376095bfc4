//! Texts: made ones with blanks at random, those of the case files, damaged ones of both, any bytes.

use cases::line::{about, Call};
use cases::random::Random;
use cases::texts::{text, tokens, Shape};
use second::book::MOST;

use crate::damage::damage;

/// The bytes that a text may have, and some that it may not.
const BYTES: &[u8] = b"(() )) \n\n=.adeilmnopqrstw0123456789xyz\t\r;X_|\0\xff";

/// Pieces that a well-formed text has somewhere.
const PIECES: [&[u8]; 14] = [
    b"(",
    b")",
    b" ",
    b"\n",
    b"sep.emp",
    b"sep.nil",
    b"and ",
    b"sep ",
    b"wand(",
    b"not",
    b"distinct ",
    b"(= x x)",
    b"pto x y",
    b"q7",
];

/// Where texts come from.
pub struct Texts {
    /// The texts of the case files.
    known: Vec<Vec<u8>>,
}

impl Texts {
    pub fn new() -> Texts {
        let mut known: Vec<Vec<u8>> = about(Call::Import).into_iter().map(|c| c.book).collect();
        known.sort();
        known.dedup();
        Texts { known }
    }

    /// A text, or bytes that are nearly one, or nothing like one.
    pub fn any(&self, random: &mut Random) -> Vec<u8> {
        let mut text = match random.below(16) {
            0 => (0..random.below(40)).map(|_| random.byte()).collect(),
            1 => (0..random.below(40))
                .map(|_| random.one_of(BYTES))
                .collect(),
            2 => (0..random.below(30))
                .flat_map(|_| random.one_of(&PIECES))
                .copied()
                .collect(),
            3 | 4 => self.known[random.below(self.known.len())].clone(),
            _ => made(random),
        };
        if random.below(3) == 0 {
            for _ in 0..=random.below(3) {
                damage_text(random, &mut text);
            }
        }
        if random.below(8) == 0 {
            text.truncate(random.below(text.len() + 1));
        }
        text
    }
}

/// A text that is well-formed, unless it is too deep; at times with too many nodes or names.
fn made(random: &mut Random) -> Vec<u8> {
    let most_names = random.one_of(&[3, MOST, MOST + 2]);
    let shape = Shape {
        items: 1 + random.one_of(&[3, 8, 16, 24, 40]).min(random.below(41)),
        depth: random.one_of(&[4, 16, 16, 16, 17, 20]),
        names: 1 + random.below(most_names),
    };
    let more = random.one_of(&[0, 0, 1, 3]);
    let tokens = tokens(random, shape);
    text(random, &tokens, more)
}

/// Damage of a byte as for a book, or one that puts other bytes of a text there.
fn damage_text(random: &mut Random, text: &mut Vec<u8>) {
    let at = random.below(text.len() + 1);
    match random.below(4) {
        0 => damage(random, text),
        1 => text.insert(at, random.one_of(BYTES)),
        2 if at < text.len() => text[at] = random.one_of(BYTES),
        _ => drop(text.splice(at..at, random.one_of(&PIECES).iter().copied())),
    }
}
