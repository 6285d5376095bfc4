//! Assignments made from models: where a model fits, the parts and added heaps that show it are an assignment that satisfies.

use cases::made::{book, tree};
use cases::random::Random;
use hollyspool::{Profile, MOST_ENCODED};
use second::assign::assign_in;

use crate::compare::{proved, MOST, PROFILES};

/// Few negations, so that most books have an encoding.
const OPERATORS: [u8; 14] = [1, 2, 3, 3, 4, 4, 5, 6, 7, 8, 9, 9, 10, 10];

#[test]
fn models_give_assignments() {
    let mut random = Random::new(0x817);
    let [mut satisfied, mut differ] = [0; 2];
    for round in 0..4_000 {
        let [v, n, p] = [random.up_to(MOST), random.up_to(2), random.up_to(2)];
        let nodes = tree(&mut random, v, 1 + round % 9, &OPERATORS);
        let book = book([v, n, p], &nodes);
        if hollyspool::encode(&book, &mut [0; MOST_ENCODED]).number == 0 {
            for _ in 0..20 {
                let [strong, ordinary] = one_model(&mut random, [v, n, p], &nodes, &book);
                satisfied += usize::from(strong);
                differ += usize::from(strong != ordinary);
            }
        }
    }
    assert!(satisfied > 1_000, "only {satisfied} models fitted");
    assert!(differ > 0, "the profiles are never told apart");
}

/// Makes the assignments of a random model, one in each profile, and compares; then the same with one byte changed. Says
/// whether the model fits.
fn one_model(random: &mut Random, [v, n, p]: [u8; 3], nodes: &[[u8; 3]], book: &[u8]) -> [bool; 2] {
    let stack: Vec<u8> = (0..v).map(|_| random.up_to(n)).collect();
    let value: Vec<u8> = (0..n).map(|_| random.up_to(n)).collect();
    let set = random.up_to(((1_u16 << n) - 1) as u8);
    let cell = |at: usize| if set >> at & 1 == 0 { 255 } else { value[at] };
    let model: Vec<u8> = stack
        .iter()
        .copied()
        .chain((0..value.len()).map(cell))
        .collect();
    PROFILES.map(|(profile, second)| {
        let mut witness = Witness {
            profile,
            nodes,
            stack: &stack,
            arrays: vec![value.clone()],
            sets: vec![set],
        };
        let fits = witness.holds(nodes.len() - 1, &value, set) && !goes_on(&value, set, p);
        assert_eq!(
            hollyspool::judge_in(profile, book, &model).number,
            u64::from(!fits),
            "{model:?} {book:?} in {profile:?}"
        );
        let mut assignment = stack.clone();
        assignment.extend(witness.arrays.concat());
        assignment.extend(&witness.sets);
        if fits {
            assert_eq!(
                hollyspool::assign_in(profile, book, &assignment).number,
                0,
                "{assignment:?} {book:?} in {profile:?}"
            );
        }
        let at = random.below(assignment.len());
        assignment[at] = random.up_to(n);
        assert_eq!(
            proved(hollyspool::assign_in(profile, book, &assignment)),
            assign_in(second, book, &assignment)
        );
        fits
    })
}

/// The arrays and sets so far, in the order of the walk from the root.
struct Witness<'a> {
    profile: Profile,
    nodes: &'a [[u8; 3]],
    stack: &'a [u8],
    arrays: Vec<Vec<u8>>,
    sets: Vec<u8>,
}

impl Witness<'_> {
    /// Whether a node holds on the heap that has these values at the locations of `set`, trying every part and every added
    /// heap. Both children are always visited, so that each has its symbols.
    fn holds(&mut self, node: usize, value: &[u8], set: u8) -> bool {
        let [operator, a, b] = self.nodes[node];
        let [x, y] = [a, b].map(|variable| match variable {
            0 => 0,
            _ => self
                .stack
                .get(usize::from(variable) - 1)
                .copied()
                .unwrap_or(0),
        });
        let [a, b] = [a, b].map(usize::from);
        match operator {
            1 => set == 0 && x == y,
            2 => set == 0 && x != y,
            3 => x != 0 && set == 1 << (x - 1) && value[usize::from(x) - 1] == y,
            4 => list(x, y, value, set),
            5 => self.holds(a, value, set) & self.holds(b, value, set),
            6 => self.holds(a, value, set) | self.holds(b, value, set),
            7 => self.holds(a, value, set) & !self.holds(b, value, set),
            8 => !self.holds(a, value, set),
            9 => (0..=set).rev().any(|part| {
                part & !set == 0
                    && self.tried(part == 0, |this| this.split(a, b, value, part, set ^ part))
            }),
            _ => self.added(a, b, value, set),
        }
    }

    /// What a try adds stays if it holds, or if it is the last one.
    fn tried(&mut self, last: bool, mut attempt: impl FnMut(&mut Self) -> bool) -> bool {
        let [arrays, sets] = [self.arrays.len(), self.sets.len()];
        let holds = attempt(self);
        if !holds && !last {
            self.arrays.truncate(arrays);
            self.sets.truncate(sets);
        }
        holds
    }

    fn split(&mut self, a: usize, b: usize, value: &[u8], part: u8, rest: u8) -> bool {
        self.sets.extend([part, rest]);
        self.holds(a, value, part) & self.holds(b, value, rest) & self.apart(value, part, rest)
    }

    fn added(&mut self, a: usize, b: usize, value: &[u8], set: u8) -> bool {
        let n = value.len() as u32;
        let heaps = (n + 2).pow(n);
        (0..heaps).any(|number| {
            let digit = |at: u32| (number / (n + 2).pow(at) % (n + 2)) as u8;
            let new = (0..n)
                .filter(|&at| digit(at) > 0)
                .fold(0, |new, at| new | 1 << at);
            let together: Vec<u8> = (0..n)
                .map(|at| {
                    if new >> at & 1 == 0 {
                        value[at as usize]
                    } else {
                        digit(at) - 1
                    }
                })
                .collect();
            self.tried(number + 1 == heaps, |this| {
                this.arrays.push(together.clone());
                this.sets.extend([new, new | set]);
                let whole = this.holds(a, &together, new) & this.holds(b, &together, new | set);
                whole && new & set == 0 && this.apart(&together, new, set)
            })
        })
    }

    /// Whether two sets of cells meet at named locations only; in the ordinary profile they meet anywhere.
    fn apart(&self, value: &[u8], one: u8, other: u8) -> bool {
        let locs = |set: u8| {
            (0..value.len())
                .filter(|at| set >> at & 1 == 1)
                .fold(0_u32, |locs, at| locs | 2 << at | 1 << value[at])
        };
        let named = self
            .stack
            .iter()
            .fold(1, |named, location| named | 1 << location);
        self.profile == Profile::Ordinary || locs(one) & locs(other) & !named == 0
    }
}

fn list(mut at: u8, last: u8, value: &[u8], set: u8) -> bool {
    let mut left = set;
    while at != last {
        if at == 0 || left >> (at - 1) & 1 == 0 {
            return false;
        }
        left ^= 1 << (at - 1);
        at = value[usize::from(at) - 1];
    }
    left == 0
}

/// Whether a path along the cells of `set` has p + 1 links, all its locations different.
fn goes_on(value: &[u8], set: u8, p: u8) -> bool {
    (1..=value.len()).any(|start| {
        let mut path = vec![start];
        while path.len() <= usize::from(p) + 1 {
            let last = path[path.len() - 1];
            if last == 0 || set >> (last - 1) & 1 == 0 {
                return false;
            }
            let next = usize::from(value[last - 1]);
            if path.contains(&next) {
                return false;
            }
            path.push(next);
        }
        true
    })
}
