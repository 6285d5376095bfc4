//! Books: any bytes, made ones, those of the case files, and damaged ones of both.

use cases::cost::{self, Sizes};
use cases::line::{self, Call};
use cases::made::{self, name_all, tree};
use cases::random::Random;
use second::book::{Book, BOUNDS, CONTENTS, MOST, MOST_NODES};

use crate::damage::{damage, damage_contents};

/// The visits of nodes that the operators 9 and 10 of a book may cost a plain judge: with more,
/// one nested septraction would take the time of all other inputs.
const VISITS: u64 = 3_000;

/// All operators, those that make strong disjointness matter more often.
const OPERATORS: [u8; 14] = [1, 2, 3, 3, 4, 4, 5, 6, 7, 8, 9, 9, 10, 10];

/// The operators of the parts of a book that tells the profiles apart.
const SEPARATING: [u8; 8] = [1, 1, 3, 4, 5, 8, 9, 10];

/// Where books come from.
pub struct Books {
    /// The books of the case files, accepted or not.
    known: Vec<Vec<u8>>,
}

impl Books {
    pub fn new() -> Books {
        let lines = line::all().into_iter();
        let books = lines.filter(|case| case.call != Call::Import);
        let mut known: Vec<Vec<u8>> = books.map(|case| case.book).collect();
        known.sort();
        known.dedup();
        Books { known }
    }

    /// A book, or bytes that are nearly one, or nothing like one.
    pub fn any(&self, random: &mut Random) -> Vec<u8> {
        let mut book = match random.below(16) {
            0 => (0..random.below(230)).map(|_| random.byte()).collect(),
            1 => loose_nodes(random),
            2..=4 => self.known[random.below(self.known.len())].clone(),
            5 => return wrong_contents(random),
            6..=8 => separated(random),
            _ => made(random),
        };
        if random.below(3) == 0 {
            for _ in 0..=random.below(3) {
                damage(random, &mut book);
            }
            if random.below(2) == 0 {
                restate(&mut book);
            }
        }
        book
    }
}

/// A book that is accepted, at bounds that are small more often than not, p below n in half of them.
/// Most name every variable: the search refuses the others.
fn made(random: &mut Random) -> Vec<u8> {
    let most = random.one_of(&[1, 2, 2, 3, 3, MOST as u8]);
    let mut bounds = [(); 3].map(|()| random.up_to(most));
    if bounds[1] > 0 && random.below(2) == 0 {
        bounds[2] = random.up_to(bounds[1] - 1);
    }
    let most_nodes = random.one_of(&[3, 8, 8, 16, MOST_NODES]);
    let count = 1 + random.below(most_nodes);
    let mut nodes = tree(random, bounds[0], count, &OPERATORS);
    if random.below(8) > 0 {
        bounds[0] = name_all(random, &mut nodes, bounds[0]);
    }
    made::book(bounds, &nodes)
}

/// A book that is accepted, with few names and an operator 9 or 10 over two negations, at times under a
/// third.
fn separated(random: &mut Random) -> Vec<u8> {
    let most = random.one_of(&[0, 0, 1, 2]);
    let n = random.one_of(&[2, 3, 3, MOST as u8]);
    let mut nodes: Vec<[u8; 3]> = Vec::new();
    let sides = [(); 2].map(|()| {
        let (from, count) = (nodes.len() as u8, 1 + random.below(4));
        let side = tree(random, most, count, &SEPARATING);
        nodes.extend(side.iter().map(|&[operator, a, b]| match operator {
            1..=4 => [operator, a, b],
            8 => [operator, a + from, 0],
            _ => [operator, a + from, b + from],
        }));
        nodes.push([8, nodes.len() as u8 - 1, 0]);
        nodes.len() as u8 - 1
    });
    nodes.push([random.one_of(&[9, 9, 10]), sides[0], sides[1]]);
    if random.below(4) == 0 {
        nodes.push([8, nodes.len() as u8 - 1, 0]);
    }
    let v = name_all(random, &mut nodes, most);
    made::book([v, n, n], &nodes)
}

/// A book that is accepted but for one byte of its contents.
fn wrong_contents(random: &mut Random) -> Vec<u8> {
    let mut book = made(random);
    damage_contents(random, &mut book);
    book
}

/// Nodes that are seldom a tree.
fn loose_nodes(random: &mut Random) -> Vec<u8> {
    let bounds = [(); 3].map(|()| random.up_to(MOST as u8 + 1));
    let count = random.below(6);
    let node = |_| [random.up_to(11), random.up_to(4), random.up_to(4)];
    made::book(bounds, &(0..count).map(node).collect::<Vec<_>>())
}

/// Makes the contents as stated again, so that damage further on is met.
fn restate(book: &mut [u8]) {
    if let Some(formula) = book.len().checked_sub(CONTENTS + BOUNDS) {
        let [low, high] = (formula as u16).to_le_bytes();
        book[..CONTENTS].copy_from_slice(&[2, 1, 11, 0, 3, 0, 2, 14, 0, low, high]);
    }
}

/// Takes the operators that are most costly on heaps of these sizes out of an accepted book, and gives
/// the visits that its root may then cost; 0 for a book that is refused.
pub fn tame(book: &mut [u8], sizes: Sizes) -> u64 {
    let Ok(accepted) = Book::accept(book) else {
        return 0;
    };
    let mut nodes = accepted.nodes.to_vec();
    let visits = cost::tame(&mut nodes, accepted.bounds.n as u8, sizes, VISITS);
    book[CONTENTS + BOUNDS..].copy_from_slice(nodes.as_flattened());
    visits
}
