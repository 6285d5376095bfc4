//! Document 01, "Candidates and budget": the order of the candidates. A candidate is a model; its
//! number has digits for locations 1 to n and, above them, for variables 1 to v.

use crate::book::Bounds;
use crate::model::{Heap, Model, Set};

/// T, the number of candidates.
pub fn count(bounds: Bounds) -> u64 {
    let Bounds { v, n, .. } = bounds;
    (n as u64 + 1).pow(v as u32) * (n as u64 + 2).pow(n as u32)
}

impl Heap {
    /// Goes to the next heap with cells from `sources` to `targets`, location 1 being the lowest
    /// digit; the last goes to the empty one and says that it carries.
    pub fn step(&mut self, sources: Set, targets: Set) -> bool {
        let mut left = sources;
        while left != 0 {
            let source = left.trailing_zeros() as usize;
            let higher = if self.allocated >> source & 1 == 0 {
                targets
            } else {
                targets & (!1 << self.value[source])
            };
            if higher != 0 {
                self.allocated |= 1 << source;
                self.value[source] = higher.trailing_zeros() as u8;
                return false;
            }
            self.allocated ^= 1 << source;
            left &= left - 1;
        }
        true
    }
}

impl Model {
    /// Goes to the next stack; the last goes to the first.
    pub fn step_stack(&mut self, bounds: Bounds) {
        for location in &mut self.stack[1..=bounds.v] {
            if usize::from(*location) < bounds.n {
                *location += 1;
                return;
            }
            *location = 0;
        }
    }

    /// The next candidate, the last going to the first.
    pub fn next(mut self, bounds: Bounds) -> Model {
        if self.heap.step(bounds.cells(), bounds.locations()) {
            self.step_stack(bounds);
        }
        self
    }

    /// The candidate of a number below T.
    pub fn candidate(bounds: Bounds, number: u64) -> Model {
        let Bounds { v, n, .. } = bounds;
        let mut model = Model::default();
        let mut left = number;
        let mut digit = |base: usize| {
            let digit = left % base as u64;
            left /= base as u64;
            digit as u8
        };
        for location in 1..=n {
            if let Some(value) = digit(n + 2).checked_sub(1) {
                model.heap.value[location] = value;
                model.heap.allocated |= 1 << location;
            }
        }
        for variable in 1..=v {
            model.stack[variable] = digit(n + 1);
        }
        model
    }

    /// The candidate's number.
    pub fn number(&self, bounds: Bounds) -> u64 {
        let Bounds { v, n, .. } = bounds;
        let mut number = 0;
        for variable in (1..=v).rev() {
            number = number * (n as u64 + 1) + u64::from(self.stack[variable]);
        }
        for location in (1..=n).rev() {
            let allocated = self.heap.allocated >> location & 1 == 1;
            let digit = if allocated {
                u64::from(self.heap.value[location]) + 1
            } else {
                0
            };
            number = number * (n as u64 + 2) + digit;
        }
        number
    }
}
