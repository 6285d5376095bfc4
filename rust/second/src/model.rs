//! Document 01, "The problem book": a model is v bytes (each variable's location) and then n bytes
//! (each location's value, or 255 for unallocated).

use crate::answer::{Answer, Number};
use crate::book::{Bounds, MOST};

/// A set of locations: bit ℓ for location ℓ, nil's being bit 0.
pub type Set = u16;

/// A byte for nil and one for each variable or location.
pub type Bytes = [u8; MOST + 1];

/// The byte of an unallocated location.
pub const UNALLOCATED: u8 = 255;

impl Bounds {
    /// Locations 0 to n.
    pub fn locations(self) -> Set {
        (2 << self.n) - 1
    }

    /// Locations 1 to n, which may be allocated.
    pub fn cells(self) -> Set {
        self.locations() & !1
    }
}

/// The named locations: nil's and those of the declared variables, used or not.
pub fn named(stack: &Bytes, v: usize) -> Set {
    stack[..=v].iter().fold(0, |named, at| named | 1 << at)
}

/// The locations of a set with all values there, and no others.
pub fn locs(value: &Bytes, set: Set) -> Set {
    let mut locs = set;
    let mut left = set;
    while left != 0 {
        locs |= 1 << value[left.trailing_zeros() as usize];
        left &= left - 1;
    }
    locs
}

/// Document 02, [4]: whether no simple path along the cells of a set, all its locations different, has
/// more than `most` links. Each link leaves another cell, so where there are few no path is looked at.
pub fn is_short(value: &Bytes, set: Set, most: usize) -> bool {
    if set.count_ones() as usize <= most {
        return true;
    }
    let mut starts = set;
    while starts != 0 {
        if links(value, set, starts.trailing_zeros() as usize) > most {
            return false;
        }
        starts &= starts - 1;
    }
    true
}

/// The links of the longest simple path from a location: to where there is no cell, or to before the
/// first location that comes again.
fn links(value: &Bytes, set: Set, from: usize) -> usize {
    let (mut at, mut passed) = (from, 1 << from);
    while set >> at & 1 == 1 {
        at = value[at].into();
        if passed >> at & 1 == 1 {
            break;
        }
        passed |= 1 << at;
    }
    Set::count_ones(passed) as usize - 1
}

/// Values count only at allocated locations. Nil is never allocated.
#[derive(Clone, Copy, Debug, Default)]
pub struct Heap {
    pub value: Bytes,
    pub allocated: Set,
}

/// A stack and a heap.
#[derive(Clone, Copy, Debug, Default)]
pub struct Model {
    /// The location of each variable; variable 0 is nil.
    pub stack: Bytes,
    pub heap: Heap,
}

impl Model {
    /// The model behind the bytes, or number 17 or 18.
    pub fn accept(bounds: Bounds, bytes: &[u8]) -> Result<Model, Answer> {
        let Bounds { v, n, .. } = bounds;
        if bytes.len() != v + n {
            return Err(Answer::plain(Number::ModelLength));
        }
        let mut model = Model::default();
        for (place, &byte) in bytes.iter().enumerate() {
            if usize::from(byte) > n && (place < v || byte != UNALLOCATED) {
                return Err(Answer::at(Number::ModelValue, place));
            }
            if place < v {
                model.stack[place + 1] = byte;
            } else if byte != UNALLOCATED {
                let location = place - v + 1;
                model.heap.value[location] = byte;
                model.heap.allocated |= 1 << location;
            }
        }
        Ok(model)
    }

    /// Writes the model's v + n bytes.
    pub fn write(&self, bounds: Bounds, out: &mut [u8]) {
        let (stack, cells) = out.split_at_mut(bounds.v);
        stack.copy_from_slice(&self.stack[1..=bounds.v]);
        for (location, cell) in (1..=bounds.n).zip(cells) {
            *cell = if self.heap.allocated >> location & 1 == 1 {
                self.heap.value[location]
            } else {
                UNALLOCATED
            };
        }
    }
}
