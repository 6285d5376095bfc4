//! The bounds of a book.

/// How many variables and locations there are, and the path bound; each 0 to 8.
#[derive(Clone, Copy, Debug, PartialEq, Eq)]
pub struct Bounds {
    /// Variables are 1 to v; variable 0 is nil.
    pub v: u8,
    /// Locations are 0 to n; location 0 is nil's.
    pub n: u8,
    /// The most links that a simple path along a model's cells has, all its locations different.
    pub p: u8,
}

impl Bounds {
    /// The largest value of each bound.
    pub const MOST: u8 = 8;

    /// T, the number of candidates: (n+1)^v × (n+2)^n.
    ///
    /// ```
    /// let bounds = hollyspool::Bounds { v: 8, n: 8, p: 8 };
    /// assert_eq!(bounds.candidates(), 4_304_672_100_000_000);
    /// ```
    pub fn candidates(self) -> u64 {
        let n = u64::from(self.n);
        (n + 1).pow(self.v.into()) * (n + 2).pow(self.n.into())
    }

    /// The bytes of a model: one for each variable, one for each location but nil's.
    pub fn model_length(self) -> usize {
        usize::from(self.v) + usize::from(self.n)
    }
}
