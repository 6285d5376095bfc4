//! `judge` and `assign`: a yes or a no.

use hollyspool::{Answer, Verdict};

use crate::args::Request;
use crate::problem::Problem;
use crate::report::{status, Report};

/// Whether a model fits.
pub fn model(problem: &Problem, model: &[u8], request: &Request) -> Report {
    let answer = hollyspool::judge_in(request.profile, &problem.book, model);
    report(problem, answer, ["fits", "does not fit"], request.json)
}

/// Whether an assignment satisfies the rows.
pub fn assignment(problem: &Problem, assignment: &[u8], request: &Request) -> Report {
    let answer = hollyspool::assign_in(request.profile, &problem.book, assignment);
    report(
        problem,
        answer,
        ["satisfied", "not satisfied"],
        request.json,
    )
}

fn report(problem: &Problem, answer: Answer, [yes, no]: [&str; 2], json: bool) -> Report {
    let verdict = match answer.settled() {
        Ok(verdict) => verdict,
        Err(refusal) => return Report::refused(refusal, answer, json),
    };
    let meaning = if verdict == Verdict::Yes { yes } else { no };
    let text = if json {
        problem.object(answer, meaning).line()
    } else {
        format!("{meaning}\n")
    };
    Report::text(status(verdict), text)
}
