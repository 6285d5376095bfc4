//! `search`: the lowest candidate that fits.

use hollyspool::{Answer, Book, Bounds, Model, Profile, Verdict};

use crate::args::Request;
use crate::hex;
use crate::problem::Problem;
use crate::progress;
use crate::report::{status, Report};

/// What a search of an accepted book has come to.
pub struct Outcome {
    pub answer: Answer,
    pub verdict: Verdict,
    pub bounds: Bounds,
    profile: Profile,
    /// With verdict yes.
    pub model: Option<Model>,
}

/// The outcome, or the report of the book's refusal.
pub fn outcome(problem: &Problem, request: &Request) -> Result<Outcome, Report> {
    let book = &problem.book;
    let accepted = Book::accept(book)
        .map_err(|refusal| Report::refused(refusal, hollyspool::read(book), request.json))?;
    let bounds = accepted.bounds();
    let (answer, out) = progress::search(request.profile, &accepted, request.budget);
    let verdict = answer
        .settled()
        .map_err(|refusal| Report::refused(refusal, answer, request.json))?;
    let model = (verdict == Verdict::Yes)
        .then(|| Model::read(bounds, &out).expect("a found model is in range"));
    Ok(Outcome {
        answer,
        verdict,
        bounds,
        profile: request.profile,
        model,
    })
}

impl Outcome {
    /// The verdict in a word.
    pub fn meaning(&self) -> &'static str {
        match self.verdict {
            Verdict::Yes => "found",
            Verdict::No => "none",
            Verdict::Spent => "spent",
        }
    }

    /// The verdict in a line, where there is no model to be shown. "None" speaks of the bounds, so
    /// for a file that asks check-sat it is not unsat.
    pub fn without_a_model(&self, problem: &Problem) -> String {
        let Bounds { v, n, p } = self.bounds;
        let tried = self.answer.tried;
        match self.verdict {
            Verdict::Spent => format!("spent: none of the first {tried} candidates fits"),
            _ => {
                let not_unsat = match problem.translated {
                    Some(_) => "; that is not unsat",
                    None => "",
                };
                let profile = match self.profile {
                    Profile::Strong => "",
                    Profile::Ordinary => ", separation being ordinary",
                };
                format!("none: nothing fits within the bounds v = {v}, n = {n}, p = {p}{profile}{not_unsat}")
            }
        }
    }
}

pub fn run(problem: &Problem, request: &Request) -> Report {
    let outcome = match outcome(problem, request) {
        Ok(outcome) => outcome,
        Err(refused) => return refused,
    };
    let text = if request.json {
        in_json(problem, &outcome)
    } else {
        in_words(problem, &outcome)
    };
    Report::text(status(outcome.verdict), text)
}

fn in_words(problem: &Problem, outcome: &Outcome) -> String {
    let first = match &outcome.model {
        Some(model) => format!(
            "found: {}\nmodel {}",
            model.with_names(&problem.names),
            hex::written(&model.bytes(), " ")
        ),
        None => outcome.without_a_model(problem),
    };
    let (tried, total) = (outcome.answer.tried, outcome.bounds.candidates());
    format!("{first}\ntried {tried} of T = {total}\n")
}

fn in_json(problem: &Problem, outcome: &Outcome) -> String {
    let object = problem
        .object(outcome.answer, outcome.meaning())
        .number("total", outcome.bounds.candidates());
    match &outcome.model {
        Some(model) => object
            .text("model", &hex::written(&model.bytes(), ""))
            .numbers("stack", model.stack.iter().copied().map(Some))
            .numbers("heap", model.heap.iter().copied())
            .line(),
        None => object.line(),
    }
}
