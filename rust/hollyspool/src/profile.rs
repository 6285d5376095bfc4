//! What separates two heaps, which the caller picks.

/// When `*` and `−⊛` (operators 9 and 10; `sep` and `wand` in a text) take two heaps as separate. All
/// else is the same in both.
///
/// Document 003 and its solver Astral mean the strong one, and so do the plain calls here. cvc5 and the
/// tools of the SL-COMP competition mean the ordinary one. Where a formula has no negation (operator 8),
/// both give every model the same answer. In a text `=` and `distinct` have one in their books, so even
/// a text without `not` and `wand` can tell them apart.
///
/// ```
/// use hollyspool::{judge_in, Book, Profile};
///
/// let (book, _) = Book::parse("(sep (ls x sep.nil) (= x x))", 3, 3)?;
/// // x = 1 ; 1→3, 2→3, 3→0: the list 1, 3 beside cell 2. They meet at 3, which no variable names.
/// let model = [1, 3, 3, 0];
/// assert_eq!(judge_in(Profile::Strong, book.bytes(), &model).number, 1);
/// assert_eq!(judge_in(Profile::Ordinary, book.bytes(), &model).number, 0);
/// # Ok::<(), hollyspool::Refusal>(())
/// ```
#[derive(Clone, Copy, Debug, Default, PartialEq, Eq)]
pub enum Profile {
    /// No cell is allocated twice, and every location that stands in both heaps, as a cell or as a
    /// value, is nil's or a declared variable's.
    #[default]
    Strong,
    /// No cell is allocated twice.
    Ordinary,
}

impl Profile {
    /// Both.
    pub const ALL: [Profile; 2] = [Profile::Strong, Profile::Ordinary];
}
