//! Document 02, [9]: the profile that the caller picks.

/// When operators 9 and 10 take two heaps as separate.
#[derive(Clone, Copy, Debug, PartialEq, Eq)]
pub enum Profile {
    /// Document 01's strong disjointness: no cell is allocated twice, and the locations of both are
    /// named.
    Strong,
    /// No cell is allocated twice.
    Ordinary,
}

impl Profile {
    /// Both.
    pub const ALL: [Profile; 2] = [Profile::Strong, Profile::Ordinary];
}
