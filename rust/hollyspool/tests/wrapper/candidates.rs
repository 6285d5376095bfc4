//! Candidates by their numbers.

use hollyspool::Bounds;

/// The model of a candidate's number: digits for locations, and above them for variables.
pub fn candidate(bounds: Bounds, mut number: u64) -> Vec<u8> {
    let Bounds { v, n, .. } = bounds;
    let mut digit = |base: u8| {
        let digit = number % u64::from(base);
        number /= u64::from(base);
        digit as u8
    };
    let heap: Vec<u8> = (0..n).map(|_| digit(n + 2).wrapping_sub(1)).collect();
    let stack: Vec<u8> = (0..v).map(|_| digit(n + 1)).collect();
    [stack, heap].concat()
}
