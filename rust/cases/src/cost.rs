//! What a formula may cost a plain judge, which tries every part and every added heap: the nodes that it
//! visits on a heap of so many cells, whatever they hold. At eight locations a septraction on the empty
//! heap has 10^8 added heaps and one on seven cells has ten, so that inputs are bounded by their cost
//! and not by their bounds.

use crate::made::children;

/// The most locations.
const MOST: usize = 8;

/// How many cells heaps may have: bit k for k of them.
pub type Sizes = u16;

/// The visits on a heap of 0, 1, .. cells.
type Visits = [u64; MOST + 1];

/// Heaps of any size over n locations.
pub fn any_size(n: u8) -> Sizes {
    (2 << n) - 1
}

/// The sizes of the heaps of models that are in range.
pub fn sizes<'a>(v: usize, models: impl IntoIterator<Item = &'a Vec<u8>>) -> Sizes {
    let cells = |model: &Vec<u8>| model[v..].iter().filter(|&&cell| cell != 255).count();
    models
        .into_iter()
        .fold(0, |sizes, model| sizes | 1 << cells(model))
}

/// The visits that a tree's root may take on heaps of these sizes over n locations.
pub fn visits(nodes: &[[u8; 3]], n: u8, sizes: Sizes) -> u64 {
    tame(&mut nodes.to_vec(), n, sizes, u64::MAX)
}

/// Turns operators 9 and 10 into 5 and 6 where one might take more than `most` visits. Gives the visits
/// that the root may then take.
pub fn tame(nodes: &mut [[u8; 3]], n: u8, sizes: Sizes, most: u64) -> u64 {
    let reached = reached(nodes, n, sizes);
    let mut visits: Vec<Visits> = Vec::new();
    let mut largest = 0;
    for (node, reached) in nodes.iter_mut().zip(reached) {
        let within = |visits: &Visits| {
            let reached = (0..=MOST).filter(|&size| reached >> size & 1 == 1);
            reached.map(|size| visits[size]).max().unwrap_or(0)
        };
        let mut own = of_node(*node, n, &visits);
        if node[0] >= 9 && within(&own) > most {
            node[0] -= 4;
            own = of_node(*node, n, &visits);
        }
        largest = within(&own);
        visits.push(own);
    }
    largest
}

/// The sizes of the heaps on which each node may be judged, also where 9 and 10 become 5 and 6.
fn reached(nodes: &[[u8; 3]], n: u8, sizes: Sizes) -> Vec<Sizes> {
    let all = any_size(n);
    let mut reached = vec![0; nodes.len()];
    reached[nodes.len() - 1] = sizes;
    for (node, &[operator, a, b]) in nodes.iter().enumerate().rev() {
        let here: Sizes = reached[node];
        let smaller = (0..=n).fold(0, |smaller, less| smaller | here >> less);
        let larger = (0..=n).fold(0, |larger, more| larger | here << more) & all;
        let [of_a, of_b] = match operator {
            9 => [smaller, smaller],
            // An added heap has at most as many cells as are free.
            10 => [here | all >> here.trailing_zeros().min(15), larger],
            _ => [here, here],
        };
        if children(operator) > 0 {
            reached[usize::from(a)] |= of_a;
        }
        if children(operator) > 1 {
            reached[usize::from(b)] |= of_b;
        }
    }
    reached
}

/// A node's visits, given those of the nodes below it.
fn of_node([operator, a, b]: [u8; 3], n: u8, below: &[Visits]) -> Visits {
    let n = usize::from(n);
    let child = |number: u8, size: usize| below[usize::from(number)][size];
    let mut visits = [0; MOST + 1];
    for (size, visits) in visits.iter_mut().enumerate().take(n + 1) {
        let children = match (children(operator), operator) {
            (0, _) => 0,
            (1, _) => child(a, size),
            (_, 9) => sum((0..=size).map(|part| {
                let both = child(a, part).saturating_add(child(b, size - part));
                both.saturating_mul(CHOICES[size][part])
            })),
            (_, 10) => sum((0..=n - size).map(|added| {
                let both = child(a, added).saturating_add(child(b, size + added));
                let heaps = CHOICES[n - size][added] * (n as u64 + 1).pow(added as u32);
                both.saturating_mul(heaps)
            })),
            _ => child(a, size).saturating_add(child(b, size)),
        };
        *visits = children.saturating_add(1);
    }
    visits
}

fn sum(numbers: impl Iterator<Item = u64>) -> u64 {
    numbers.fold(0, u64::saturating_add)
}

/// In how many ways so many are chosen: row of how many, column how many.
const CHOICES: [Visits; MOST + 1] = {
    let mut choices = [[0; MOST + 1]; MOST + 1];
    let mut of = 0;
    while of <= MOST {
        choices[of][0] = 1;
        let mut chosen = 1;
        while chosen <= of {
            choices[of][chosen] = choices[of - 1][chosen - 1] + choices[of - 1][chosen];
            chosen += 1;
        }
        of += 1;
    }
    choices
};
