//! Numbers that look random and are the same in every run.

/// A 64-bit xorshift generator.
pub struct Random(u64);

impl Random {
    /// Numbers that depend on the seed alone. The seed is not 0.
    pub fn new(seed: u64) -> Random {
        Random(seed)
    }

    /// A number below `end`.
    pub fn below(&mut self, end: usize) -> usize {
        self.0 ^= self.0 << 13;
        self.0 ^= self.0 >> 7;
        self.0 ^= self.0 << 17;
        (self.0 >> 16) as usize % end
    }

    /// Any byte.
    pub fn byte(&mut self) -> u8 {
        self.below(256) as u8
    }

    /// A byte from 0 to `most`.
    pub fn up_to(&mut self, most: u8) -> u8 {
        self.below(usize::from(most) + 1) as u8
    }

    /// One of the items.
    pub fn one_of<T: Copy>(&mut self, items: &[T]) -> T {
        items[self.below(items.len())]
    }
}
