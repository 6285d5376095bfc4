//! Document 02, [14]: locations renumbered, nil staying put, in stack and heap together.

use crate::random::Random;

/// A random renumbering of locations 0 to n: the new number of each.
pub fn renumbering(random: &mut Random, n: u8) -> Vec<u8> {
    (1..=n).fold(vec![0], |to, location| {
        let at = 1 + random.below(to.len());
        inserted(to, at, location)
    })
}

/// Every renumbering of locations 0 to n.
pub fn renumberings(n: u8) -> Vec<Vec<u8>> {
    (1..=n).fold(vec![vec![0]], |shorter, location| {
        let longer = shorter.into_iter().flat_map(|to| {
            let places = 1..=to.len();
            places.map(move |at| inserted(to.clone(), at, location))
        });
        longer.collect()
    })
}

fn inserted(mut to: Vec<u8>, at: usize, location: u8) -> Vec<u8> {
    to.insert(at, location);
    to
}

/// The bytes of a model that is in range, renumbered.
pub fn renumbered(v: usize, model: &[u8], to: &[u8]) -> Vec<u8> {
    // What is no location, the byte of an unallocated one, stays.
    let new = |byte: u8| to.get(usize::from(byte)).copied().unwrap_or(byte);
    let mut renumbered: Vec<u8> = model.iter().copied().map(new).collect();
    for (location, &cell) in model[v..].iter().enumerate() {
        renumbered[v + usize::from(to[location + 1]) - 1] = new(cell);
    }
    renumbered
}
