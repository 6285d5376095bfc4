//! Packed stacks and heaps, and the counter (crates `cells` and `candidates`).

use second::model::{Bytes, Heap};

/// The digit of location or variable l; nil has none.
pub fn cell(w: u64, l: usize) -> usize {
    match l {
        0 => 0,
        _ => (w >> (8 * (l - 1))) as usize % 256,
    }
}

/// A word with digit d at l and nothing elsewhere.
pub fn placed(d: usize, l: usize) -> u64 {
    (d as u64) << (8 * (l - 1))
}

/// The first word after the block of w that has the j lowest of k digits in base b free; after the last comes 0.
pub fn bump(w: u64, j: usize, k: usize, b: usize) -> u64 {
    let mut next = (w >> (8 * j)) << (8 * j);
    for l in j + 1..=k {
        let d = cell(next, l);
        next ^= placed(d, l);
        if d + 1 < b {
            return next | placed(d + 1, l);
        }
    }
    next
}

/// The number of the first candidate after the block of candidate i that has the j lowest digits free.
pub fn number_after(n: usize, i: u64, j: usize) -> u64 {
    let weight = power(n + 2, j.min(n)) * power(n + 1, j.saturating_sub(n));
    (i / weight + 1) * weight
}

fn power(b: usize, k: usize) -> u64 {
    (b as u64).pow(k as u32)
}

/// The stack, as the second bench has it.
pub fn stack_of(w: u64, v: usize) -> Bytes {
    let mut stack = Bytes::default();
    for (x, location) in stack.iter_mut().enumerate().take(v + 1) {
        *location = cell(w, x) as u8;
    }
    stack
}

/// The heap, as the second bench has it.
pub fn heap_of(w: u64, n: usize) -> Heap {
    let mut heap = Heap::default();
    for l in 1..=n {
        if let Some(value) = cell(w, l).checked_sub(1) {
            heap.value[l] = value as u8;
            heap.allocated |= 1 << l;
        }
    }
    heap
}
