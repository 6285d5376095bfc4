//! Document 01, "The encoding": the rows of a formula and the symbols they speak of; and document 02,
//! [4]: the row on the model's paths, and [9]: the rows of the ordinary profile.

use crate::answer::{Answer, Number};
use crate::book::{Book, MOST_NODES};
use crate::profile::Profile;

/// The number of a variable, an array, a set or a row.
pub type Operand = u16;

/// A row, its operands in document 01's order.
#[derive(Clone, Copy, Debug, PartialEq, Eq)]
pub enum Row {
    /// x, y
    Eq(Operand, Operand),
    /// x, y
    Ne(Operand, Operand),
    /// S
    Empty(Operand),
    /// S, x
    One(Operand, Operand),
    /// A, x, y
    At(Operand, Operand, Operand),
    /// k; A, S, x, y
    Chain(u8, Operand, Operand, Operand, Operand),
    /// two rows
    And(Operand, Operand),
    /// two rows
    Or(Operand, Operand),
    /// a row
    Not(Operand),
    /// S, S1, S2
    Split(Operand, Operand, Operand),
    /// A, S1, S2
    Apart(Operand, Operand, Operand),
    /// A, B, S
    Same(Operand, Operand, Operand),
    /// k; A, S
    Long(u8, Operand, Operand),
}

/// The rows of a formula, and how many arrays and sets they speak of.
pub struct Table {
    profile: Profile,
    pub rows: Vec<Row>,
    pub arrays: u16,
    pub sets: u16,
}

impl Table {
    /// The book's table in a profile, or number 19.
    pub fn of(profile: Profile, book: &Book) -> Result<Table, Answer> {
        if !encodable(book) {
            return Err(Answer::plain(Number::NotEncodable));
        }
        let mut table = Table {
            profile,
            rows: Vec::new(),
            arrays: 1,
            sets: 1,
        };
        let formula = table.node(book, book.root() as u8, 0, 0);
        table.also(formula, Row::Long(book.bounds.p as u8, 0, 0));
        Ok(table)
    }

    /// Adds the rows of a node over an array and a set: a's tree, b's tree, own rows. Gives the
    /// number of the last.
    fn node(&mut self, book: &Book, node: u8, array: Operand, set: Operand) -> Operand {
        let [operator, a, b] = book.nodes[usize::from(node)];
        let (x, y) = (a.into(), b.into());
        match operator {
            1 => self.both(Row::Eq(x, y), Row::Empty(set)),
            2 => self.both(Row::Ne(x, y), Row::Empty(set)),
            3 => self.both(Row::One(set, x), Row::At(array, x, y)),
            4 => self.list(book.bounds.n as u8, |k| Row::Chain(k, array, set, x, y)),
            8 => {
                let row = self.node(book, a, array, set);
                self.add(Row::Not(row))
            }
            9 => self.separation(book, [a, b], array, set),
            10 => self.septraction(book, [a, b], array, set),
            _ => {
                let first = self.node(book, a, array, set);
                let second = self.node(book, b, array, set);
                match operator {
                    5 => self.add(Row::And(first, second)),
                    6 => self.add(Row::Or(first, second)),
                    _ => self.also(first, Row::Not(second)),
                }
            }
        }
    }

    /// Chains of 0 to n links, and then ORs from left to right.
    fn list(&mut self, n: u8, chain: impl Fn(u8) -> Row) -> Operand {
        let none = self.add(chain(0));
        for k in 1..=n {
            self.add(chain(k));
        }
        (1..=Operand::from(n)).fold(none, |so_far, k| self.add(Row::Or(so_far, none + k)))
    }

    fn separation(&mut self, book: &Book, ab: [u8; 2], array: Operand, set: Operand) -> Operand {
        let (first, second) = self.two_sets();
        let children = self.children(book, ab, array, [first, second]);
        let split = self.also(children, Row::Split(set, first, second));
        self.apart(split, Row::Apart(array, first, second))
    }

    /// The second new set is the whole, over a new array; the node's own set is a part of it.
    fn septraction(&mut self, book: &Book, ab: [u8; 2], array: Operand, set: Operand) -> Operand {
        let new_array = self.arrays;
        self.arrays += 1;
        let (added, whole) = self.two_sets();
        let children = self.children(book, ab, new_array, [added, whole]);
        let split = self.also(children, Row::Split(whole, added, set));
        let apart = self.apart(split, Row::Apart(new_array, added, set));
        self.also(apart, Row::Same(array, new_array, set))
    }

    /// An APART row and its AND; the ordinary profile has neither.
    fn apart(&mut self, so_far: Operand, row: Row) -> Operand {
        match self.profile {
            Profile::Strong => self.also(so_far, row),
            Profile::Ordinary => so_far,
        }
    }

    /// Both children, each over its own set, and their AND.
    fn children(
        &mut self,
        book: &Book,
        [a, b]: [u8; 2],
        array: Operand,
        sets: [Operand; 2],
    ) -> Operand {
        let first = self.node(book, a, array, sets[0]);
        let second = self.node(book, b, array, sets[1]);
        self.add(Row::And(first, second))
    }

    fn two_sets(&mut self) -> (Operand, Operand) {
        self.sets += 2;
        (self.sets - 2, self.sets - 1)
    }

    /// Two rows and their AND.
    fn both(&mut self, first: Row, second: Row) -> Operand {
        let first = self.add(first);
        self.also(first, second)
    }

    /// A row, and the AND of the result so far with it.
    fn also(&mut self, so_far: Operand, row: Row) -> Operand {
        let row = self.add(row);
        self.add(Row::And(so_far, row))
    }

    fn add(&mut self, row: Row) -> Operand {
        self.rows.push(row);
        self.rows.len() as Operand - 1
    }
}

/// Whether no operator 9 or 10 stands below operator 8 or in the b side of operator 7.
fn encodable(book: &Book) -> bool {
    // Whether a 9 or 10 stands at the node or below it; children come before their parents.
    let mut splits = [false; MOST_NODES];
    for (node, &[operator, a, b]) in book.nodes.iter().enumerate() {
        let (a, b) = (usize::from(a), usize::from(b));
        splits[node] = match operator {
            1..=4 => false,
            5 | 6 => splits[a] || splits[b],
            7 if splits[b] => return false,
            7 => splits[a],
            8 if splits[a] => return false,
            8 => false,
            _ => true,
        };
    }
    true
}
