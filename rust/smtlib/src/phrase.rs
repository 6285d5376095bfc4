//! Formulas of a file, with the words that a body has.

use std::rc::Rc;

/// The most items that a formula may have when it is written out. A body has at most 64 nodes, and
/// each item is one or more of them; what is a little larger is left to the proved import to refuse.
pub const MOST_ITEMS: usize = 1_000;

/// What stands for a location.
#[derive(Clone, Copy, Debug, PartialEq, Eq)]
pub enum Term {
    Nil,
    /// By its number in the order of declaration.
    Constant(usize),
    /// Of a definition, by its number in it.
    Parameter(usize),
}

/// The words over several formulas, in any nesting.
#[derive(Clone, Copy, Debug, PartialEq, Eq)]
pub enum Join {
    And,
    Or,
    Sep,
}

impl Join {
    pub fn word(self) -> &'static str {
        match self {
            Join::And => "and",
            Join::Or => "or",
            Join::Sep => "sep",
        }
    }
}

/// The words over two terms.
#[derive(Clone, Copy, Debug, PartialEq, Eq)]
pub enum Atom {
    Equal,
    Distinct,
    Points,
    List,
}

impl Atom {
    pub fn word(self) -> &'static str {
        match self {
            Atom::Equal => "=",
            Atom::Distinct => "distinct",
            Atom::Points => "pto",
            Atom::List => "ls",
        }
    }
}

#[derive(Debug)]
pub enum Kind {
    Empty,
    Atom(Atom, Term, Term),
    Not(Phrase),
    Wand(Phrase, Phrase),
    /// Two or more.
    Join(Join, Vec<Phrase>),
}

/// A formula. What stands in several places is kept once, with the size it has in each.
#[derive(Clone, Debug)]
pub struct Phrase {
    kind: Rc<Kind>,
    items: usize,
}

impl Phrase {
    pub fn kind(&self) -> &Kind {
        &self.kind
    }

    /// How many lists and `sep.emp` it has when it is written out; a large number, or more.
    pub fn items(&self) -> usize {
        self.items
    }

    fn of(kind: Kind) -> Phrase {
        let inner = match &kind {
            Kind::Empty | Kind::Atom(..) => 0,
            Kind::Not(a) => a.items,
            Kind::Wand(a, b) => a.items.saturating_add(b.items),
            Kind::Join(_, all) => all
                .iter()
                .fold(all.len() - 2, |sum, one| sum.saturating_add(one.items)),
        };
        Phrase {
            kind: Rc::new(kind),
            items: inner.saturating_add(1),
        }
    }

    pub fn empty() -> Phrase {
        Phrase::of(Kind::Empty)
    }

    pub fn atom(atom: Atom, a: Term, b: Term) -> Phrase {
        Phrase::of(Kind::Atom(atom, a, b))
    }

    /// Holds on every heap.
    pub fn always() -> Phrase {
        Phrase::atom(Atom::Equal, Term::Nil, Term::Nil)
    }

    /// Holds on no heap.
    pub fn never() -> Phrase {
        Phrase::atom(Atom::Distinct, Term::Nil, Term::Nil)
    }

    pub fn negated(self) -> Phrase {
        Phrase::of(Kind::Not(self))
    }

    pub fn wand(self, b: Phrase) -> Phrase {
        Phrase::of(Kind::Wand(self, b))
    }

    /// All of them; one alone stands for itself. There is at least one.
    pub fn join(join: Join, mut all: Vec<Phrase>) -> Phrase {
        match all.len() {
            1 => all.remove(0),
            _ => Phrase::of(Kind::Join(join, all)),
        }
    }

    pub fn and(self, b: Phrase) -> Phrase {
        Phrase::join(Join::And, vec![self, b])
    }

    pub fn or(self, b: Phrase) -> Phrase {
        Phrase::join(Join::Or, vec![self, b])
    }

    /// The same truth as `if`, `then`, `otherwise`.
    pub fn choice(condition: Phrase, then: Phrase, otherwise: Phrase) -> Phrase {
        let if_not = condition.clone().negated().and(otherwise);
        condition.and(then).or(if_not)
    }

    /// The formula with these terms for its parameters.
    pub fn with(&self, terms: &[Term]) -> Phrase {
        let put = |term: &Term| match *term {
            Term::Parameter(number) => terms[number],
            other => other,
        };
        Phrase::of(match &*self.kind {
            Kind::Empty => Kind::Empty,
            Kind::Atom(atom, a, b) => Kind::Atom(*atom, put(a), put(b)),
            Kind::Not(a) => Kind::Not(a.with(terms)),
            Kind::Wand(a, b) => Kind::Wand(a.with(terms), b.with(terms)),
            Kind::Join(join, all) => {
                Kind::Join(*join, all.iter().map(|one| one.with(terms)).collect())
            }
        })
    }

    /// Calls `seen` with every term as it stands.
    pub fn terms(&self, seen: &mut impl FnMut(Term)) {
        match &*self.kind {
            Kind::Empty => {}
            Kind::Atom(_, a, b) => {
                seen(*a);
                seen(*b);
            }
            Kind::Not(a) => a.terms(seen),
            Kind::Wand(a, b) => {
                a.terms(seen);
                b.terms(seen);
            }
            Kind::Join(_, all) => all.iter().for_each(|one| one.terms(seen)),
        }
    }
}
