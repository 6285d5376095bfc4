//! What a command prints, and its exit status.

use hollyspool::{Answer, Refusal, Verdict};

use crate::json::Object;

pub const REFUSED: u8 = 3;
pub const BAD_ARGUMENTS: u8 = 64;
pub const NO_OUTPUT: u8 = 74;

/// A command's output and status.
pub struct Report {
    pub status: u8,
    /// For standard output.
    pub output: Vec<u8>,
    /// Whole lines, for standard error.
    pub notes: String,
}

impl Report {
    /// Words on standard output.
    pub fn text(status: u8, text: String) -> Report {
        Report {
            status,
            output: text.into_bytes(),
            notes: String::new(),
        }
    }

    /// Words on standard error, where standard output is for something else.
    pub fn note(status: u8, note: &str) -> Report {
        Report::text(status, String::new()).also(note)
    }

    /// A refusal.
    pub fn refused(refusal: Refusal, answer: Answer, json: bool) -> Report {
        if json {
            let object = object(answer, &refusal.to_string());
            Report::text(REFUSED, object.line())
        } else {
            let number = refusal.number();
            Report::note(REFUSED, &format!("refused with {number}: {refusal}"))
        }
    }

    /// The report with a line more on standard error.
    pub fn also(mut self, note: &str) -> Report {
        self.notes += &format!("hollyspool: {note}\n");
        self
    }
}

/// The status of an answer that is no refusal.
pub fn status(verdict: Verdict) -> u8 {
    match verdict {
        Verdict::Yes => 0,
        Verdict::No => 1,
        Verdict::Spent => 2,
    }
}

/// The fields that every answer has.
pub fn object(answer: Answer, meaning: &str) -> Object {
    Object::new()
        .number("number", answer.number)
        .text("meaning", meaning)
        .number("place", answer.place)
        .number("tried", answer.tried)
}
