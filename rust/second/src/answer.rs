//! Document 01, "Numbers given back": each answer is a number, a place and a tried count. Document
//! 02 adds to the numbers.

/// What each number means.
#[derive(Clone, Copy, Debug, PartialEq, Eq)]
#[repr(u64)]
pub enum Number {
    /// Fits, found, written.
    Yes = 0,
    /// Doesn't fit; none.
    No = 1,
    /// The budget is spent.
    Spent = 2,
    /// A book under 11 or over 206 bytes.
    BookLength = 10,
    /// Contents of other than two entries.
    Contents = 11,
    /// A bounds body of other than three bytes, or a bound too large.
    Bounds = 12,
    /// A formula that is empty or no multiple of three bytes.
    Formula = 13,
    /// An operator other than 1 to 10.
    Operator = 14,
    /// A variable over v, a child that is not lower, a b that must be 0.
    Operand = 15,
    /// Nodes that make no tree.
    Tree = 16,
    /// A model of the wrong length.
    ModelLength = 17,
    /// A model's value out of range.
    ModelValue = 18,
    /// A formula that has no encoding.
    NotEncodable = 19,
    /// An output that is too short.
    OutputShort = 20,
    /// An assignment of the wrong length.
    AssignmentLength = 21,
    /// An assignment's value out of range.
    AssignmentValue = 22,
    /// An entry of the wrong kind.
    EntryKind = 23,
    /// An entry with a wrong offset or length.
    EntryStretch = 24,
    /// A declared variable that no atom names.
    StrayVariable = 25,
    /// A byte with which no well-formed text can go on.
    BadText = 26,
    /// More nodes in a text than a book has.
    ManyNodes = 27,
    /// More names in a text than a book has variables.
    ManyNames = 28,
}

/// The answer of every call.
#[derive(Clone, Copy, Debug, PartialEq, Eq)]
pub struct Answer {
    pub number: u64,
    pub place: u64,
    pub tried: u64,
}

impl Answer {
    /// An answer that names no place and tried nothing.
    pub fn plain(number: Number) -> Answer {
        Answer::at(number, 0)
    }

    /// An answer that names a place.
    pub fn at(number: Number, place: usize) -> Answer {
        Answer {
            number: number as u64,
            place: place as u64,
            tried: 0,
        }
    }

    /// A search's answer.
    pub fn tried(number: Number, tried: u64) -> Answer {
        Answer {
            number: number as u64,
            place: 0,
            tried,
        }
    }

    /// Whether a test was passed, as a judge says it.
    pub fn yes_or_no(passed: bool) -> Answer {
        Answer::plain(if passed { Number::Yes } else { Number::No })
    }
}

/// The answer of a call whose checks may have refused it.
pub fn settled(result: Result<Answer, Answer>) -> Answer {
    match result {
        Ok(answer) | Err(answer) => answer,
    }
}
