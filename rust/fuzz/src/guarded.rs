//! An output with bytes before and behind it that no call may touch.

/// How many bytes stand on either side.
const GUARD: usize = 32;

/// The output's bytes between two guards.
pub struct Guarded {
    bytes: Vec<u8>,
}

impl Guarded {
    pub fn new(room: usize) -> Guarded {
        Guarded {
            bytes: (0..GUARD + room + GUARD).map(paint).collect(),
        }
    }

    /// The output.
    pub fn out(&mut self) -> &mut [u8] {
        let end = self.bytes.len() - GUARD;
        &mut self.bytes[GUARD..end]
    }

    /// Whether every byte is as it was, but for the first `written` of the output.
    pub fn unchanged_beyond(&self, written: usize) -> bool {
        let mut bytes = self.bytes.iter().enumerate();
        bytes.all(|(at, &byte)| (GUARD..GUARD + written).contains(&at) || byte == paint(at))
    }
}

/// A byte that its neighbours don't have, so that bytes moved by one are seen.
fn paint(at: usize) -> u8 {
    (at * 37 + 11) as u8
}
