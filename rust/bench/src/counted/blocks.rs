//! Which blocks of a heap's digits hold no lowest fit (crate `blocks`). The block of a heap at level j has the digits up to j free.

use second::book::MOST;

use crate::candidates::cell;
use crate::facts::{all_digits, Entries};
use crate::levels::{crowded, worse};

/// Whether there is anything to look for: an entry that bars something, or two neighbours that are not named.
pub fn is_looking(entries: &Entries, unnamed: u64, n: usize) -> bool {
    let is_barring = |l: usize| entries[l].cap <= n || entries[l].digits != all_digits(n);
    (1..=n).any(is_barring) || unnamed & (unnamed >> 1) != 0
}

/// The highest level, from where a carry stopped, at which the block of the heap w is passed over; and how many were looked at.
pub fn level(
    looking: bool,
    entries: &Entries,
    unnamed: u64,
    n: usize,
    w: u64,
) -> (Option<usize>, u64) {
    let first = if looking { carried_to(w, n) } else { 0 };
    let over = (0..first)
        .rev()
        .find(|&j| is_over(entries, unnamed, n, w, j));
    let looked = first - over.unwrap_or(0);
    (over, looked as u64)
}

/// The lowest location that has a cell, or the last: where a carry stopped, if no digit above has changed.
fn carried_to(w: u64, n: usize) -> usize {
    (1..=n).find(|&l| cell(w, l) != 0).unwrap_or(n)
}

/// Whether the block at level j is passed over, by its lowest digit that is not free: it may not stand; or by what points to its
/// location, by that and the location above, and, if it has a value, by what points there and by the value and the location below.
fn is_over(entries: &Entries, unnamed: u64, n: usize, w: u64, j: usize) -> bool {
    let d = cell(w, j + 1);
    let may_stand = entries[j + 1].digits >> d & 1 == 1;
    let is_full = |l: usize| entries[l].cap <= n && crowded(w, j, n, l, entries[l].cap);
    let is_worse = |a: usize| a < MOST && both_in(unnamed, a) && worse(w, j, a);
    !may_stand
        || is_full(j + 1)
        || is_worse(j + 1)
        || d > 0 && is_full(d - 1)
        || d > 2 && is_worse(d - 2)
}

/// Whether a and a + 1 are both in the set.
fn both_in(set: u64, a: usize) -> bool {
    (set >> (a - 1)) % 4 == 3
}
