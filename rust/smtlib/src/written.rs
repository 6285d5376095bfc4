//! A body, written.

use crate::names;
use crate::phrase::{Atom, Join, Kind, Phrase, Term};
use crate::script::Script;
use crate::Body;

/// The deepest list of a body.
const DEEPEST: usize = 16;

/// The width of a line, where a list can be broken.
const WIDTH: usize = 80;

/// A list of a body: its word, and one or two items.
enum Item {
    Word(String),
    List(&'static str, Vec<Item>),
}

/// How several formulas under one word become pairs. All of these words are associative.
#[derive(Clone, Copy)]
enum Nesting {
    ToTheRight,
    /// As flat as may be, where the other would be too deep.
    Balanced,
}

/// The script's assertions together, with an equation for each constant that none of them has.
pub fn body(script: &Script) -> Body {
    let asserted = Phrase::join(Join::And, script.asserts.clone());
    let mut used = vec![false; script.constants.len()];
    asserted.terms(&mut |term| {
        if let Term::Constant(number) = term {
            used[number] = true;
        }
    });
    let unused = (0..used.len()).filter(|&number| !used[number]);
    let equation = |number| {
        let term = Term::Constant(number);
        Phrase::atom(Atom::Equal, term, term)
    };
    let mut all = vec![asserted];
    all.extend(unused.map(equation));
    let phrase = Phrase::join(Join::And, all);
    let names = names::chosen(&script.constants);
    let mut item = Writer(Nesting::ToTheRight, &names).item(&phrase);
    if item.depth() > DEEPEST {
        item = Writer(Nesting::Balanced, &names).item(&phrase);
    }
    let mut text = String::new();
    item.write(0, &mut text);
    text.push('\n');
    Body {
        text,
        renamed: names::renamed(&script.constants, &names),
    }
}

struct Writer<'a>(Nesting, &'a [String]);

impl Writer<'_> {
    fn item(&self, phrase: &Phrase) -> Item {
        match phrase.kind() {
            Kind::Empty => Item::Word("sep.emp".to_owned()),
            Kind::Atom(atom, a, b) => Item::List(atom.word(), vec![self.term(*a), self.term(*b)]),
            Kind::Not(a) => Item::List("not", vec![self.item(a)]),
            Kind::Wand(a, b) => Item::List("wand", vec![self.item(a), self.item(b)]),
            Kind::Join(join, all) => self.pairs(join.word(), all),
        }
    }

    fn term(&self, term: Term) -> Item {
        Item::Word(match term {
            Term::Nil => "sep.nil".to_owned(),
            Term::Constant(number) => self.1[number].clone(),
            Term::Parameter(_) => unreachable!("parameters are left to definitions"),
        })
    }

    fn pairs(&self, word: &'static str, all: &[Phrase]) -> Item {
        if let [one] = all {
            return self.item(one);
        }
        let first = match self.0 {
            Nesting::ToTheRight => 1,
            Nesting::Balanced => all.len() / 2,
        };
        let (a, b) = all.split_at(first);
        Item::List(word, vec![self.pairs(word, a), self.pairs(word, b)])
    }
}

impl Item {
    fn depth(&self) -> usize {
        match self {
            Item::Word(_) => 0,
            Item::List(_, items) => 1 + items.iter().map(Item::depth).max().unwrap_or(0),
        }
    }

    fn width(&self) -> usize {
        match self {
            Item::Word(word) => word.len(),
            Item::List(word, items) => {
                let items = items.iter().map(|item| 1 + item.width());
                2 + word.len() + items.sum::<usize>()
            }
        }
    }

    /// Writes the item behind `margin` bytes of its line: on this line if it fits, else each of its
    /// items on a line of its own.
    fn write(&self, margin: usize, text: &mut String) {
        let (word, items) = match self {
            Item::Word(word) => return text.push_str(word),
            Item::List(word, items) => (word, items),
        };
        let broken = margin + self.width() > WIDTH;
        text.push('(');
        text.push_str(word);
        for item in items {
            if broken {
                text.push('\n');
                text.push_str(&" ".repeat(margin + 2));
            } else {
                text.push(' ');
            }
            item.write(margin + 2, text);
        }
        text.push(')');
    }
}
