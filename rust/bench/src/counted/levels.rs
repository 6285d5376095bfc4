//! What a packed stack and a packed heap show of their blocks (crate `levels`).

use second::book::MOST;

use crate::candidates::{cell, placed};

/// The locations up to n that are not named, location l in bit l - 1.
pub fn unnamed(s: u64, v: usize, n: usize) -> u64 {
    let named = (1..=v).fold(1, |named, x| named | 1 << cell(s, x));
    (((2 << n) - 1) ^ named) >> 1
}

/// The highest variable whose location is over 1 + the greatest of the variables above, less 1.
pub fn out_of_order_from(s: u64, v: usize) -> Option<usize> {
    let mut top = 0;
    for x in (0..v).rev() {
        let location = cell(s, x + 1);
        if location > top + 1 {
            return Some(x);
        }
        top = top.max(location);
    }
    None
}

/// Whether more cells above j point to l than may.
pub fn crowded(w: u64, j: usize, n: usize, l: usize, cap: usize) -> bool {
    let pointing = (j + 1..=n).filter(|&i| cell(w, i) == l + 1).count();
    out_most(w, j, l) + cap < pointing + 1
}

/// The most that can stand at l where the cells above j are known.
fn out_most(w: u64, j: usize, l: usize) -> usize {
    let may_stand = if j < l { cell(w, l) != 0 } else { l != 0 };
    usize::from(may_stand)
}

/// Whether a and a + 1 exchanged give a lower heap, whatever stands up to j.
pub fn worse(w: u64, j: usize, a: usize) -> bool {
    let known_from = if j == a { a + 1 } else { j };
    let known = |w: u64| w >> (8 * known_from);
    known_from < MOST && known(swapped(w, a)) < known(w)
}

/// The heap with a and a + 1 exchanged.
fn swapped(w: u64, a: usize) -> u64 {
    (1..=MOST).fold(0, |swapped, l| {
        let d = match cell(w, exchanged(a, l)) {
            0 => 0,
            d => exchanged(a, d - 1) + 1,
        };
        swapped | placed(d, l)
    })
}

/// Location l, where a and a + 1 are exchanged.
fn exchanged(a: usize, l: usize) -> usize {
    if l == a {
        a + 1
    } else if l == a + 1 {
        a
    } else {
        l
    }
}
