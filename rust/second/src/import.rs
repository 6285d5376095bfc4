//! Document 02, [2]: the book of the formula that a text means.

use crate::answer::{settled, Answer, Number};
use crate::book::{BOUNDS, CONTENTS, MOST, MOST_NODES};
use crate::text::{Item, Term, Text};

/// Writes the text's book, over n locations and with path bound p.
pub fn import(text: &[u8], n: u64, p: u64, out: &mut [u8]) -> Answer {
    settled(imported(text, n, p, out))
}

fn imported(text: &[u8], n: u64, p: u64, out: &mut [u8]) -> Result<Answer, Answer> {
    if n.max(p) > MOST as u64 {
        return Err(Answer::plain(Number::Bounds));
    }
    let text = Text::read(text);
    let names = Names::of(&text);
    check(&text, &names)?;
    let formula: usize = text.items.iter().map(|(item, _)| 3 * item.nodes()).sum();
    let book = out
        .get_mut(..CONTENTS + BOUNDS + formula)
        .ok_or(Answer::plain(Number::OutputShort))?;
    let [low, high] = (formula as u16).to_le_bytes();
    let (head, nodes) = book.split_at_mut(CONTENTS + BOUNDS);
    let v = names.count as u8;
    head.copy_from_slice(&[2, 1, 11, 0, 3, 0, 2, 14, 0, low, high, v, n as u8, p as u8]);
    write(&text, &names, nodes.as_chunks_mut().0);
    Ok(Answer::plain(Number::Yes))
}

/// The first names, in the order in which they stand.
struct Names {
    letters: [Term; MOST],
    count: usize,
    /// The first byte of one more.
    one_more: Option<usize>,
}

impl Names {
    /// The names finished before number 26's place.
    fn of(text: &Text) -> Names {
        let mut names = Names {
            letters: [0; MOST],
            count: 0,
            one_more: None,
        };
        let finished = |after| text.bad.is_none_or(|bad| after < bad);
        for name in text.names.iter().filter(|name| finished(name.after)) {
            if names.letters[..names.count].contains(&name.letters) {
                continue;
            }
            if names.count == MOST {
                names.one_more = Some(name.first);
                break;
            }
            names.letters[names.count] = name.letters;
            names.count += 1;
        }
        names
    }

    /// The variable of a name that has one; `sep.nil` is variable 0.
    fn variable(&self, term: Term) -> u8 {
        let number = self.letters.iter().position(|&letters| letters == term);
        match term {
            0 => 0,
            _ => 1 + number.expect("a name of the text") as u8,
        }
    }
}

/// Numbers 26, 27 and 28, of which the lowest place decides.
fn check(text: &Text, names: &Names) -> Result<(), Answer> {
    let complaints = [
        (text.bad, Number::BadText),
        (too_many_nodes(text), Number::ManyNodes),
        (names.one_more, Number::ManyNames),
    ];
    let complaints = complaints.map(|(place, number)| Some(Answer::at(number, place?)));
    let lowest = complaints
        .into_iter()
        .flatten()
        .min_by_key(|answer| answer.place);
    lowest.map_or(Ok(()), Err)
}

/// The last byte of the item that passes the most nodes, of those finished before number 26's place.
fn too_many_nodes(text: &Text) -> Option<usize> {
    let mut nodes = 0;
    let passes = |&&(item, last): &&(Item, usize)| {
        nodes += item.nodes();
        text.bad.is_none_or(|bad| last < bad) && nodes > MOST_NODES
    };
    let (_, last) = text.items.iter().find(passes)?;
    Some(*last)
}

impl Item {
    /// How many nodes it adds to those of its inner items.
    fn nodes(self) -> usize {
        match self {
            Item::Equal(..) | Item::Distinct(..) => 4,
            Item::Wand => 3,
            _ => 1,
        }
    }
}

/// Writes the nodes of a text that is accepted.
fn write(text: &Text, names: &Names, nodes: &mut [[u8; 3]]) {
    let mut writer = Writer {
        nodes,
        next: 0,
        open: [0; MOST_NODES],
        roots: 0,
    };
    let terms = |a, b| [names.variable(a), names.variable(b)];
    for &(item, _) in &text.items {
        match item {
            Item::Empty => writer.atom(1, [0, 0]),
            Item::Not => writer.not(),
            Item::And => writer.join(5),
            Item::Or => writer.join(6),
            Item::Sep => writer.join(9),
            Item::Wand => {
                writer.not();
                writer.join(10);
                writer.not();
            }
            Item::Equal(a, b) => writer.on_any_heap(1, terms(a, b)),
            Item::Distinct(a, b) => writer.on_any_heap(2, terms(a, b)),
            Item::Points(a, b) => writer.atom(3, terms(a, b)),
            Item::List(a, b) => writer.atom(4, terms(a, b)),
        }
    }
}

/// Nodes as they are finished, and those of them that have no parent yet.
struct Writer<'b> {
    nodes: &'b mut [[u8; 3]],
    next: u8,
    open: [u8; MOST_NODES],
    roots: usize,
}

impl Writer<'_> {
    fn node(&mut self, operator: u8, a: u8, b: u8) {
        self.nodes[usize::from(self.next)] = [operator, a, b];
        self.open[self.roots] = self.next;
        self.roots += 1;
        self.next += 1;
    }

    fn child(&mut self) -> u8 {
        self.roots -= 1;
        self.open[self.roots]
    }

    fn atom(&mut self, operator: u8, [a, b]: [u8; 2]) {
        self.node(operator, a, b);
    }

    fn not(&mut self) {
        let a = self.child();
        self.node(8, a, 0);
    }

    fn join(&mut self, operator: u8) {
        let b = self.child();
        let a = self.child();
        self.node(operator, a, b);
    }

    /// The atom beside the negation of nil ≠ nil.
    fn on_any_heap(&mut self, operator: u8, terms: [u8; 2]) {
        self.atom(operator, terms);
        self.atom(2, [0, 0]);
        self.not();
        self.join(9);
    }
}
