//! Demand 2's second half by brute force: the satisfying assignments of a small book have exactly the models that fit it.

use std::collections::BTreeSet;

use cases::made::{book, small};
use hollyspool::Profile;

use crate::judge::models;

#[test]
fn satisfying_assignments_have_the_models_that_fit() {
    for [v, n] in [[0, 0], [0, 1], [0, 2], [1, 0], [1, 1], [1, 2]] {
        for nodes in small(v) {
            let bounds = [v, n, n];
            let book = book(bounds, &nodes);
            for profile in Profile::ALL {
                if hollyspool::encode_in(profile, &book, &mut [0; 1024]).number == 0 {
                    assert_eq!(
                        satisfied(profile, bounds, &nodes, &book),
                        fitting(profile, bounds, &book),
                        "{book:?} in {profile:?}"
                    );
                }
            }
        }
    }
}

/// The models of the satisfying assignments: the stack, and array 0 on set 0.
fn satisfied(
    profile: Profile,
    [v, n, _]: [u8; 3],
    nodes: &[[u8; 3]],
    book: &[u8],
) -> BTreeSet<Vec<u8>> {
    let with = |least| nodes.iter().filter(|node| node[0] >= least).count();
    let [v, n] = [v, n].map(usize::from);
    let [arrays, sets] = [1 + with(10), 1 + 2 * with(9)];
    let mut most = vec![n as u8; v + n * arrays];
    most.resize(most.len() + sets, (1 << n) - 1);
    let mut models = BTreeSet::new();
    for_each(&most, |assignment| {
        if hollyspool::assign_in(profile, book, assignment).number == 0 {
            let set = assignment[v + n * arrays];
            let cell = |location: usize| match set >> location & 1 {
                0 => 255,
                _ => assignment[v + location],
            };
            models.insert(
                assignment[..v]
                    .iter()
                    .copied()
                    .chain((0..n).map(cell))
                    .collect(),
            );
        }
    });
    models
}

fn fitting(profile: Profile, bounds: [u8; 3], book: &[u8]) -> BTreeSet<Vec<u8>> {
    let fits = |model: &Vec<u8>| hollyspool::judge_in(profile, book, model).number == 0;
    models(bounds).into_iter().filter(fits).collect()
}

/// Each byte string that is as long as `most` and nowhere above it.
fn for_each(most: &[u8], mut call: impl FnMut(&[u8])) {
    let mut bytes = vec![0; most.len()];
    loop {
        call(&bytes);
        match (0..most.len()).find(|&at| bytes[at] < most[at]) {
            Some(at) => {
                bytes[at] += 1;
                bytes[..at].fill(0);
            }
            None => return,
        }
    }
}
