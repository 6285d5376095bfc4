//! The facts of a formula at each location, for one stack (crates `atomfacts`, `facts` and `rootfacts`).

use second::book::{Book, MOST};

use crate::candidates::cell;

/// What is known of the heaps on which a node holds, at one location.
#[derive(Clone, Copy)]
pub struct Fact {
    /// Bit d is set if digit d may stand.
    pub digits: u64,
    /// How many cells may point there, and how many must, as crate `skips` bounds them.
    pub cap: usize,
    pub need: usize,
}

/// The facts at nil and at each location.
pub type Entries = [Fact; MOST + 1];

/// The facts of a node that holds on the empty heap only, and of one that holds on none.
const EMPTY: Fact = Fact {
    digits: 1,
    cap: 1,
    need: 1,
};
const NOTHING: Fact = Fact {
    digits: 0,
    cap: 0,
    need: 0,
};

/// The bound from which on nothing is known.
const NO_BOUND: usize = 255;

/// Every digit of a heap over n locations.
pub fn all_digits(n: usize) -> u64 {
    (4 << n) - 1
}

/// The facts of the root for the packed stack s, or none where no heap fits: at some location no digit may stand.
pub fn root_facts(book: &Book, s: u64) -> Option<Entries> {
    let mut entries = [NOTHING; MOST + 1];
    for (l, entry) in entries.iter_mut().enumerate().take(book.bounds.n + 1) {
        *entry = node_fact(book, book.root(), s, l);
        if entry.digits == 0 {
            return None;
        }
    }
    Some(entries)
}

/// The facts of a node at l. Those of "a and not b" are a's, and a negation has none.
fn node_fact(book: &Book, node: usize, s: u64, l: usize) -> Fact {
    let n = book.bounds.n;
    let [operator, a, b] = book.nodes[node].map(usize::from);
    let child = |node| node_fact(book, node, s, l);
    match operator {
        1..=4 => atom_fact(operator, cell(s, a), cell(s, b), n, l),
        5 => both(child(a), child(b)),
        6 => either(child(a), child(b)),
        7 => child(a),
        8 => Fact {
            digits: all_digits(n),
            cap: n + 1,
            need: 2,
        },
        9 => parted(child(a), child(b)),
        _ => left_of(child(a), child(b)),
    }
}

/// The facts of operators 1 to 4, over variables whose locations are a and b.
fn atom_fact(operator: usize, a: usize, b: usize, n: usize, l: usize) -> Fact {
    match operator {
        1 if a == b => EMPTY,
        2 if a != b => EMPTY,
        3 if a != 0 => path_fact(points_digits(a, b, l), a, b, l),
        4 if a == b => EMPTY,
        4 if a != 0 => path_fact(list_digits(a, b, n, l), a, b, l),
        _ => NOTHING,
    }
}

/// These digits, and the bounds at l of a path from a to b.
fn path_fact(digits: u64, a: usize, b: usize, l: usize) -> Fact {
    let [starts, ends] = [a, b].map(|end| usize::from(end == l));
    Fact {
        digits,
        cap: 1 + ends - starts,
        need: 1 + starts - ends,
    }
}

fn points_digits(a: usize, b: usize, l: usize) -> u64 {
    if l == a {
        2 << b
    } else {
        1
    }
}

/// The digits at l of a list from a to another location b: no cell points to a or to itself, none to nil but to end there, and
/// there is one at a.
fn list_digits(a: usize, b: usize, n: usize, l: usize) -> u64 {
    if l == 0 || l == b {
        return 1;
    }
    let mut digits = all_digits(n) & !(2 << a) & !(2 << l);
    if b != 0 {
        digits &= !2;
    }
    if l == a {
        digits &= !1;
    }
    digits
}

fn both(a: Fact, b: Fact) -> Fact {
    Fact {
        digits: a.digits & b.digits,
        cap: a.cap.min(b.cap),
        need: a.need.min(b.need),
    }
}

fn either(a: Fact, b: Fact) -> Fact {
    match (a.digits, b.digits) {
        (0, _) => b,
        (_, 0) => a,
        _ => Fact {
            digits: a.digits | b.digits,
            cap: a.cap.max(b.cap),
            need: a.need.max(b.need),
        },
    }
}

fn parted(a: Fact, b: Fact) -> Fact {
    Fact {
        digits: kept(a.digits, b.digits) | kept(b.digits, a.digits),
        cap: together(a.cap, b.cap),
        need: together(a.need, b.need),
    }
}

fn left_of(a: Fact, b: Fact) -> Fact {
    Fact {
        digits: kept(b.digits, a.digits) | u64::from(a.digits & b.digits != 0),
        cap: together(b.cap, a.need),
        need: together(b.need, a.cap),
    }
}

/// The set, if the other has digit 0.
fn kept(set: u64, other: u64) -> u64 {
    set * (other & 1)
}

/// The bound of two together.
fn together(a: usize, b: usize) -> usize {
    match a + b {
        0 => 0,
        sum if sum > NO_BOUND => NO_BOUND,
        sum => sum - 1,
    }
}
