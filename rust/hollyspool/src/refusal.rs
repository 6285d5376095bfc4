//! The refusals: what each number from 10 to 28 means.

use std::error::Error;
use std::fmt;

use crate::answer::Answer;
use crate::bounds::Bounds;

/// Why a call refused its input, with the entry, node, byte or variable that the answer's place
/// names.
///
/// ```
/// let answer = hollyspool::read(&[2, 1, 11]);
/// let refusal = answer.settled().unwrap_err();
/// assert_eq!(refusal, hollyspool::Refusal::BookLength);
/// assert_eq!(refusal.number(), 10);
/// assert_eq!(refusal.to_string(), "the book is under 11 or over 206 bytes");
/// ```
#[derive(Clone, Copy, Debug, PartialEq, Eq)]
pub enum Refusal {
    /// 10: a book under 11 or over 206 bytes.
    BookLength,
    /// 11: contents of other than two entries.
    Contents,
    /// 12: a bounds body of other than 3 bytes, or a bound over 8.
    Bounds,
    /// 13: a formula that is empty or no multiple of 3 bytes.
    Formula,
    /// 14: an operator other than 1 to 10.
    Operator {
        /// The lowest such node.
        node: u64,
    },
    /// 15: a variable over v, a child that is not lower, or a b of operator 8 that is not 0.
    Operand {
        /// The lowest such node.
        node: u64,
    },
    /// 16: nodes that make no tree.
    Tree {
        /// The lowest node but the root that is not used exactly once.
        node: u64,
    },
    /// 17: a model of the wrong length.
    ModelLength,
    /// 18: a model's value out of range.
    ModelValue {
        /// The first such byte.
        byte: u64,
    },
    /// 19: a formula with operator 9 or 10 under a negation, which has no encoding.
    NotEncodable,
    /// 20: an output too short for what would be written.
    OutputShort,
    /// 21: an assignment of the wrong length.
    AssignmentLength,
    /// 22: an assignment's value out of range.
    AssignmentValue {
        /// The first such byte.
        byte: u64,
    },
    /// 23: an entry of the contents whose kind is wrong.
    EntryKind {
        /// The entry, 0 or 1.
        entry: u64,
    },
    /// 24: an entry of the contents whose offset or length is wrong.
    EntryStretch {
        /// The entry, 0 or 1.
        entry: u64,
    },
    /// 25: a declared variable that no atom names; only the search refuses it.
    StrayVariable {
        /// The lowest such variable.
        variable: u64,
    },
    /// 26: a text that is not well-formed.
    BadText {
        /// The first byte with which no well-formed text can go on; the length, where the text
        /// stops early.
        byte: u64,
    },
    /// 27: a text whose formula has more than 64 nodes.
    ManyNodes {
        /// The last byte of the item that passes 64.
        byte: u64,
    },
    /// 28: a text with a ninth name.
    ManyNames {
        /// Its first byte.
        byte: u64,
    },
}

impl Refusal {
    /// The refusal behind an answer; none if its number is not 10 to 28.
    pub fn of(answer: Answer) -> Option<Refusal> {
        let place = answer.place;
        Some(match answer.number {
            10 => Refusal::BookLength,
            11 => Refusal::Contents,
            12 => Refusal::Bounds,
            13 => Refusal::Formula,
            14 => Refusal::Operator { node: place },
            15 => Refusal::Operand { node: place },
            16 => Refusal::Tree { node: place },
            17 => Refusal::ModelLength,
            18 => Refusal::ModelValue { byte: place },
            19 => Refusal::NotEncodable,
            20 => Refusal::OutputShort,
            21 => Refusal::AssignmentLength,
            22 => Refusal::AssignmentValue { byte: place },
            23 => Refusal::EntryKind { entry: place },
            24 => Refusal::EntryStretch { entry: place },
            25 => Refusal::StrayVariable { variable: place },
            26 => Refusal::BadText { byte: place },
            27 => Refusal::ManyNodes { byte: place },
            28 => Refusal::ManyNames { byte: place },
            _ => return None,
        })
    }

    /// The number that stands for it.
    pub fn number(self) -> u64 {
        match self {
            Refusal::BookLength => 10,
            Refusal::Contents => 11,
            Refusal::Bounds => 12,
            Refusal::Formula => 13,
            Refusal::Operator { .. } => 14,
            Refusal::Operand { .. } => 15,
            Refusal::Tree { .. } => 16,
            Refusal::ModelLength => 17,
            Refusal::ModelValue { .. } => 18,
            Refusal::NotEncodable => 19,
            Refusal::OutputShort => 20,
            Refusal::AssignmentLength => 21,
            Refusal::AssignmentValue { .. } => 22,
            Refusal::EntryKind { .. } => 23,
            Refusal::EntryStretch { .. } => 24,
            Refusal::StrayVariable { .. } => 25,
            Refusal::BadText { .. } => 26,
            Refusal::ManyNodes { .. } => 27,
            Refusal::ManyNames { .. } => 28,
        }
    }
}

impl fmt::Display for Refusal {
    fn fmt(&self, f: &mut fmt::Formatter<'_>) -> fmt::Result {
        match self {
            Refusal::BookLength => write!(f, "the book is under 11 or over 206 bytes"),
            Refusal::Contents => write!(f, "the number of entries is not 2"),
            Refusal::Bounds => write!(
                f,
                "a bound is over {}, or the bounds are not three bytes",
                Bounds::MOST
            ),
            Refusal::Formula => write!(f, "the formula is empty or no multiple of 3 bytes"),
            Refusal::Operator { node } => {
                write!(f, "the operator of node {node} is not 1 to 10")
            }
            Refusal::Operand { node } => write!(
                f,
                "an operand of node {node} is a variable over v, a child that is not lower, \
                 or a b of operator 8 that is not 0"
            ),
            Refusal::Tree { node } => write!(
                f,
                "the nodes make no tree: node {node} is not the child of exactly one node, once"
            ),
            Refusal::ModelLength => write!(f, "the model is not v + n bytes long"),
            Refusal::ModelValue { byte } => {
                write!(f, "byte {byte} of the model is out of range")
            }
            Refusal::NotEncodable => write!(
                f,
                "the formula has operator 9 or 10 under a negation, so it can't be encoded"
            ),
            Refusal::OutputShort => write!(f, "the output is too short"),
            Refusal::AssignmentLength => write!(
                f,
                "the assignment does not have a byte for each variable, array value and set"
            ),
            Refusal::AssignmentValue { byte } => {
                write!(f, "byte {byte} of the assignment is out of range")
            }
            Refusal::EntryKind { entry } => write!(f, "entry {entry} has a wrong kind"),
            Refusal::EntryStretch { entry } => {
                write!(f, "entry {entry} has a wrong offset or length")
            }
            Refusal::StrayVariable { variable } => {
                write!(f, "x{variable} is declared, but no atom names it")
            }
            Refusal::BadText { byte } => {
                write!(
                    f,
                    "no well-formed text can go on as this one does at byte {byte}"
                )
            }
            Refusal::ManyNodes { byte } => write!(
                f,
                "with the item that ends at byte {byte} the formula has more than 64 nodes"
            ),
            Refusal::ManyNames { byte } => {
                write!(
                    f,
                    "a ninth name begins at byte {byte}; a text has at most eight"
                )
            }
        }
    }
}

impl Error for Refusal {}
