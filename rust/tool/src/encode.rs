//! `encode`: the rows of a formula.

use hollyspool::{Profile, Refusal, MOST_ENCODED};

use crate::args::Request;
use crate::hex;
use crate::problem::Problem;
use crate::report::Report;
use crate::rows::{in_words, ROW};

/// The bytes before the rows: contents and bounds.
const HEAD: usize = 14;

/// For a text, where an equation is an operator 9 that the text doesn't show.
const HINT: &str = "in a text = and distinct hold on any heap, which takes an operator 9: for \
                    (not (= x y)) write (distinct x y)";

pub fn run(problem: &Problem, request: &Request) -> Report {
    let mut out = vec![0; MOST_ENCODED];
    let answer = hollyspool::encode_in(request.profile, &problem.book, &mut out);
    if let Err(refusal) = answer.settled() {
        let report = Report::refused(refusal, answer, request.json);
        return match refusal {
            Refusal::NotEncodable if request.text.is_some() && !request.json => report.also(HINT),
            _ => report,
        };
    }
    out.truncate(written(&out));
    let rows = out[HEAD..].as_chunks::<ROW>().0;
    if request.json {
        let object = problem
            .object(answer, "written")
            .number("rows", rows.len() as u64)
            .text("encoding", &hex::written(&out, ""));
        return Report::text(0, object.line());
    }
    if request.raw {
        return Report {
            status: 0,
            output: out,
            notes: String::new(),
        };
    }
    let line = |(number, row)| format!("r{number} {}\n", in_words(row, &problem.names));
    Report::text(0, rows.iter().enumerate().map(line).collect())
}

/// How many rows the book's formula has in a profile; none if it can't be encoded.
pub fn count(profile: Profile, book: &[u8]) -> Option<usize> {
    let mut out = vec![0; MOST_ENCODED];
    let answer = hollyspool::encode_in(profile, book, &mut out);
    (answer.number == 0).then(|| (written(&out) - HEAD) / ROW)
}

/// The length of an encoding, as its own contents say.
fn written(encoding: &[u8]) -> usize {
    HEAD + usize::from(u16::from_le_bytes([encoding[9], encoding[10]]))
}
