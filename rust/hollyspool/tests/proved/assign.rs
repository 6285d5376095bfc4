//! The judge of assignments: all assignments of small books, random ones.

use cases::made::{book, small, tree};
use cases::random::Random;
use second::assign::assign_in;

use crate::compare::{proved, MOST, PROFILES};

/// Few negations, so that most books have an encoding.
const OPERATORS: [u8; 16] = [1, 2, 3, 3, 4, 4, 5, 5, 6, 6, 7, 8, 9, 9, 10, 10];

/// Over one location every byte is 0 or 1, and so an assignment is a number in binary.
#[test]
fn every_assignment_of_every_small_book() {
    for nodes in small(1) {
        let book = book([1, 1, 1], &nodes);
        let length = length([1, 1, 1], &nodes);
        for number in 0..1_u32 << length {
            let assignment: Vec<u8> = (0..length).map(|bit| (number >> bit & 1) as u8).collect();
            same_assignment(&book, &assignment);
        }
    }
}

#[test]
fn random_assignments() {
    let mut random = Random::new(0xA55);
    for round in 0..60_000 {
        let bounds = [(); 3].map(|()| random.up_to(MOST));
        let count = 1 + round % if round % 4 == 0 { 64 } else { 12 };
        let nodes = tree(&mut random, bounds[0], count, &OPERATORS);
        let book = book(bounds, &nodes);
        for _ in 0..4 {
            let mut assignment = Likely::assignment(&mut random, bounds, &nodes);
            same_assignment(&book, &assignment);
            let at = random.below(assignment.len());
            assignment[at] = match random.below(2) {
                0 => random.up_to(bounds[1]),
                _ => random.byte(),
            };
            same_assignment(&book, &assignment);
            assignment.resize(random.below(assignment.len() + 2), 0);
            same_assignment(&book, &assignment);
        }
    }
}

fn same_assignment(book: &[u8], assignment: &[u8]) {
    for (profile, second) in PROFILES {
        let answer = proved(hollyspool::assign_in(profile, book, assignment));
        assert_eq!(
            answer,
            assign_in(second, book, assignment),
            "{assignment:?} for {book:?} in {profile:?}"
        );
    }
}

/// The length of the book's assignments.
fn length([v, n, _]: [u8; 3], nodes: &[[u8; 3]]) -> usize {
    let with = |least| nodes.iter().filter(|node| node[0] >= least).count();
    usize::from(v) + usize::from(n) * (1 + with(10)) + 1 + 2 * with(9)
}

/// An assignment in the making whose sets split as the rows ask and whose arrays agree where they
/// must, so that atoms and strong disjointness decide it.
struct Likely<'a> {
    random: &'a mut Random,
    n: u8,
    nodes: &'a [[u8; 3]],
    arrays: Vec<Vec<u8>>,
    sets: Vec<u8>,
}

impl Likely<'_> {
    fn assignment(random: &mut Random, [v, n, _]: [u8; 3], nodes: &[[u8; 3]]) -> Vec<u8> {
        let mut bytes: Vec<u8> = (0..v).map(|_| random.up_to(n)).collect();
        let array = (0..n).map(|_| random.up_to(n)).collect();
        let set = random.below(1 << n) as u8;
        let mut likely = Likely {
            random,
            n,
            nodes,
            arrays: vec![array],
            sets: vec![set],
        };
        likely.walk(nodes.len() - 1, 0, 0);
        bytes.extend(likely.arrays.concat());
        bytes.extend(likely.sets);
        bytes
    }

    /// Chooses the symbols that the node and the nodes below it make.
    fn walk(&mut self, node: usize, array: usize, set: usize) {
        let [operator, a, b] = self.nodes[node].map(usize::from);
        let new = self.sets.len();
        match operator {
            1..=4 => {}
            8 => self.walk(a, array, set),
            9 => {
                let part = self.sets[set] & self.random.byte();
                self.sets.extend([part, self.sets[set] ^ part]);
                self.walk(a, array, new);
                self.walk(b, array, new + 1);
            }
            10 => {
                let added = self.random.below(1 << self.n) as u8 & !self.sets[set];
                self.sets.extend([added, self.sets[set] | added]);
                let other = self.agreeing(array, set);
                self.walk(a, other, new);
                self.walk(b, other, new + 1);
            }
            _ => {
                self.walk(a, array, set);
                self.walk(b, array, set);
            }
        }
    }

    /// Makes an array that is like the given one on the set.
    fn agreeing(&mut self, array: usize, set: usize) -> usize {
        let mut other = self.arrays[array].clone();
        for (bit, value) in other.iter_mut().enumerate() {
            if self.sets[set] >> bit & 1 == 0 {
                *value = self.random.up_to(self.n);
            }
        }
        self.arrays.push(other);
        self.arrays.len() - 1
    }
}
