//! What every call gives back, raw and in words.

use crate::refusal::Refusal;

/// A number, a place and a tried count, as the archive gives them.
///
/// ```
/// let answer = hollyspool::read(&[]);
/// assert_eq!((answer.number, answer.place, answer.tried), (10, 0, 0));
/// ```
#[derive(Clone, Copy, Debug, PartialEq, Eq)]
#[repr(C)]
pub struct Answer {
    /// 0 to 2, or the number of a refusal, 10 to 28.
    pub number: u64,
    /// The entry, the node or the byte that a refusal names, from 0, or the variable, from 1;
    /// otherwise 0.
    pub place: u64,
    /// How many candidates a search has settled, in their order: the lowest that fits is the last of
    /// them, or none of them fits. 0 outside search.
    pub tried: u64,
}

/// The numbers that are no refusal.
#[derive(Clone, Copy, Debug, PartialEq, Eq)]
pub enum Verdict {
    /// Number 0: fits, found, written, satisfied.
    Yes,
    /// Number 1: doesn't fit; none within the bounds; not satisfied.
    No,
    /// Number 2: the budget is spent, and no candidate below it fits.
    Spent,
}

impl Answer {
    /// The answer as a verdict, or as the refusal that its number stands for.
    ///
    /// # Panics
    ///
    /// For a number that no call gives.
    ///
    /// ```
    /// use hollyspool::{Refusal, Verdict};
    ///
    /// let book = [2, 1, 11, 0, 3, 0, 2, 14, 0, 3, 0, 1, 1, 1, 3, 1, 1];
    /// assert_eq!(hollyspool::judge(&book, &[1, 1]).settled(), Ok(Verdict::Yes));
    /// assert_eq!(hollyspool::judge(&book, &[1, 0]).settled(), Ok(Verdict::No));
    /// assert_eq!(
    ///     hollyspool::judge(&book, &[1, 2]).settled(),
    ///     Err(Refusal::ModelValue { byte: 1 })
    /// );
    /// ```
    pub fn settled(self) -> Result<Verdict, Refusal> {
        match self.number {
            0 => Ok(Verdict::Yes),
            1 => Ok(Verdict::No),
            2 => Ok(Verdict::Spent),
            _ => {
                Err(Refusal::of(self)
                    .unwrap_or_else(|| panic!("no call gives number {}", self.number)))
            }
        }
    }
}
