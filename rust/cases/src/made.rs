//! Books made from bounds and nodes; all small trees of nodes, and random ones.

use crate::random::Random;

/// A book with these bounds (v, n, p) and nodes (operator, a, b), laid out as document 01 says.
pub fn book(bounds: [u8; 3], nodes: &[[u8; 3]]) -> Vec<u8> {
    let [low, high] = (3 * nodes.len() as u16).to_le_bytes();
    let mut book = vec![2, 1, 11, 0, 3, 0, 2, 14, 0, low, high];
    book.extend(bounds);
    book.extend_from_slice(nodes.as_flattened());
    book
}

/// A random tree of `count` nodes over v variables. An operator that stands twice in `operators`
/// comes twice as often. An atom, operator 8 and a join must be among them.
pub fn tree(random: &mut Random, v: u8, count: usize, operators: &[u8]) -> Vec<[u8; 3]> {
    let mut nodes = Vec::with_capacity(count);
    // The nodes that have no parent yet.
    let mut open: Vec<u8> = Vec::new();
    for node in 0..count {
        let left = count - node - 1;
        let fitting: Vec<u8> = operators
            .iter()
            .copied()
            .filter(|&operator| closes(operator, open.len(), left))
            .collect();
        let operator = random.one_of(&fitting);
        let mut child = || open.swap_remove(random.below(open.len()));
        let [a, b] = match children(operator) {
            0 => [random.up_to(v), random.up_to(v)],
            1 => [child(), 0],
            _ => [child(), child()],
        };
        nodes.push([operator, a, b]);
        open.push(node as u8);
    }
    nodes
}

/// Puts variables 1 to v into operands of the atoms, chosen at random, so that each is named. Gives
/// v, or as many variables as there are such operands.
pub fn name_all(random: &mut Random, nodes: &mut [[u8; 3]], v: u8) -> u8 {
    let atoms = nodes.iter_mut().filter(|node| children(node[0]) == 0);
    let mut operands: Vec<&mut u8> = atoms.flat_map(|[_, a, b]| [a, b]).collect();
    let v = v.min(operands.len() as u8);
    for variable in 1..=v {
        *operands.swap_remove(random.below(operands.len())) = variable;
    }
    v
}

/// How many of an operator's operands are nodes.
pub fn children(operator: u8) -> usize {
    match operator {
        1..=4 => 0,
        8 => 1,
        _ => 2,
    }
}

/// Whether, after this operator, the nodes left are enough to make one tree of all.
fn closes(operator: u8, open: usize, left: usize) -> bool {
    let children = children(operator);
    children <= open && open - children <= left
}

/// Every tree of up to three nodes over v variables.
pub fn small(v: u8) -> Vec<Vec<[u8; 3]>> {
    let atoms = |operator| (0..=v).flat_map(move |a| (0..=v).map(move |b| [operator, a, b]));
    let atoms: Vec<[u8; 3]> = (1..=4).flat_map(atoms).collect();
    let mut trees = Vec::new();
    for &first in &atoms {
        let negations = [first, [8, 0, 0], [8, 1, 0]];
        trees.extend((1..=3).map(|count| negations[..count].to_vec()));
        for &second in &atoms {
            for operator in [5, 6, 7, 9, 10] {
                trees.push(vec![first, second, [operator, 0, 1]]);
                trees.push(vec![first, second, [operator, 1, 0]]);
            }
        }
    }
    trees
}

/// The deepest tree of 64 nodes: one operator nested in itself over nil = nil, on the a side, which no call
/// can end with. Every judgement on the empty heap holds at the first part or the first added heap, so that
/// each level is entered once.
pub fn nested(operator: u8) -> Vec<[u8; 3]> {
    let mut nodes = vec![[1, 0, 0]];
    while nodes.len() + children(operator) <= 64 {
        let below = nodes.len() as u8 - 1;
        match children(operator) {
            1 => nodes.push([operator, below, 0]),
            _ => nodes.extend([[1, 0, 0], [operator, below, below + 1]]),
        }
    }
    nodes
}

/// Bounds and nodes of two books with n locations, 2 at least, whose lowest fits a search must not pass over for an exchange of
/// two locations: both are named; or the digit of one is still free where the other points to itself, as each
/// cell does under path bound 0. In the ordinary profile something fits each.
pub fn exchanged(n: u8) -> [([u8; 3], [[u8; 3]; 5]); 2] {
    let named = [[3, 1, 1], [2, 1, 2], [9, 0, 1], [2, 2, 0], [9, 2, 3]];
    let free = [[1, 0, 0], [8, 0, 0], [1, 0, 0], [8, 2, 0], [9, 1, 3]];
    [([2, n, n], named), ([0, n, 0], free)]
}
