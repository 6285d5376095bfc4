//! Bytes with something wrong in one place.

use cases::random::Random;
use second::book::CONTENTS;

/// Changes, adds or takes away bytes.
pub fn damage(random: &mut Random, bytes: &mut Vec<u8>) {
    if bytes.is_empty() {
        bytes.push(random.byte());
        return;
    }
    let at = random.below(bytes.len());
    match random.below(9) {
        0 => bytes.truncate(at),
        1 => bytes.push(random.byte()),
        2 => bytes.insert(at, random.up_to(12)),
        3 => drop(bytes.remove(at)),
        4 => bytes[at] = random.byte(),
        5 => bytes[at] ^= 1 << random.below(8),
        6 => bytes[at] = bytes[at].wrapping_add(1),
        7 => bytes[at] = bytes[at].wrapping_sub(1),
        _ => {
            let other = random.below(bytes.len());
            bytes.swap(at, other);
        }
    }
}

/// Changes one byte of a book's contents, and nothing else.
pub fn damage_contents(random: &mut Random, book: &mut [u8]) {
    let byte = &mut book[random.below(CONTENTS)];
    *byte = match random.below(4) {
        0 => byte.wrapping_add(1),
        1 => byte.wrapping_sub(1),
        2 => *byte ^ 1 << random.below(8),
        _ => byte.wrapping_add(1 + random.up_to(254)),
    };
}
