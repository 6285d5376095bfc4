//! Every line of the case files, against the second bench.

use cases::line::{about, Call, Case, Outcome};
use second::answer::Answer;
use second::assign::assign_in;
use second::book::{body, read, Bounds};
use second::encode::encode_in;
use second::import::import;
use second::judge::judge_in;
use second::model::Model;
use second::profile::Profile;
use second::search::search_in;
use second::shape::shape;
use second::write::export;

#[test]
fn read_lines() {
    run(Call::Read);
}

#[test]
fn body_lines() {
    run(Call::Body);
}

#[test]
fn judge_lines() {
    run(Call::Judge);
}

#[test]
fn search_lines() {
    run(Call::Search);
}

#[test]
fn next_lines() {
    run(Call::Next);
}

#[test]
fn encode_lines() {
    run(Call::Encode);
}

#[test]
fn assign_lines() {
    run(Call::Assign);
}

#[test]
fn shape_lines() {
    run(Call::Shape);
}

#[test]
fn import_lines() {
    run(Call::Import);
}

#[test]
fn export_lines() {
    run(Call::Export);
}

fn run(call: Call) {
    for case in about(call) {
        assert_eq!(outcome(&case), case.outcome, "{}", case.source);
    }
}

fn outcome(case: &Case) -> Outcome {
    let mut out = case.buffer();
    let profile = Profile::ALL[usize::from(case.ordinary)];
    match case.call {
        Call::Read => answered(read(&case.book), out),
        Call::Body => handed_back(case),
        Call::Judge => answered(judge_in(profile, &case.book, &case.arg), out),
        Call::Search => answered(search_in(profile, &case.book, case.number, &mut out), out),
        Call::Next => stepped(case),
        Call::Encode => answered(encode_in(profile, &case.book, &mut out), out),
        Call::Assign => answered(assign_in(profile, &case.book, &case.arg), out),
        Call::Shape => Outcome::of(0, 0, 0, shape(&case.book).into_bytes()),
        Call::Import => {
            let [n, p] = [0, 1].map(|bound| case.arg[bound].into());
            answered(import(&case.book, n, p, &mut out), out)
        }
        Call::Export => answered(export(&case.book, &mut out), out),
    }
}

fn answered(answer: Answer, out: Vec<u8>) -> Outcome {
    Outcome::of(answer.number, answer.place, answer.tried, out)
}

/// A body line gives 0 as the start of every empty stretch.
fn handed_back(case: &Case) -> Outcome {
    let stretch = body(&case.book, case.number);
    let place = if stretch.is_empty() { 0 } else { stretch.start };
    Outcome::of(0, place as u64, 0, case.book[stretch].to_vec())
}

/// A next line has the bounds in the book's place and the candidate's number as its tried count.
fn stepped(case: &Case) -> Outcome {
    let [v, n, p] = [0, 1, 2].map(|bound| usize::from(case.book[bound]));
    let bounds = Bounds { v, n, p };
    let model = Model::accept(bounds, &case.arg).expect("a candidate");
    let mut out = vec![0; v + n];
    let number = model.number(bounds);
    Model::candidate(bounds, number).write(bounds, &mut out);
    assert_eq!(out, case.arg, "{}", case.source);
    model.next(bounds).write(bounds, &mut out);
    Outcome::of(0, 0, number, out)
}
