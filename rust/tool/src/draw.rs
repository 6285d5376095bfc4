//! `draw`: the model that a search finds, as Graphviz DOT.

use std::fmt::Write;

use hollyspool::Model;

use crate::args::Request;
use crate::names;
use crate::problem::Problem;
use crate::report::{status, Report};
use crate::search::outcome;

pub fn run(problem: &Problem, request: &Request) -> Report {
    let outcome = match outcome(problem, request) {
        Ok(outcome) => outcome,
        Err(refused) => return refused,
    };
    let status = status(outcome.verdict);
    let object = problem.object(outcome.answer, outcome.meaning());
    let drawn = outcome
        .model
        .as_ref()
        .map(|model| digraph(model, &problem.names));
    match (drawn, request.json) {
        (Some(dot), true) => Report::text(status, object.text("dot", &dot).line()),
        (Some(dot), false) => Report::text(status, dot),
        (None, true) => Report::text(status, object.line()),
        (None, false) => Report::note(status, &outcome.without_a_model(problem)),
    }
}

/// What stands under a picture.
const ONLY_NAMES: &str =
    "numbers are only names: with others, nil staying put, the model fits as well";

/// A node for each location, nil's a box, those not allocated dashed; an edge for each cell.
fn digraph(model: &Model, names: &[String]) -> String {
    let mut dot = "digraph model {\n  rankdir=LR;\n".to_owned();
    let mut line = |text: String| writeln!(dot, "  {text}").expect("a text takes all");
    line(format!("label=\"{ONLY_NAMES}\";"));
    let here = |location| variables(model, names, location);
    line(format!("0 [shape=box, label=\"nil{}\"];", here(0)));
    for (location, cell) in (1..).zip(&model.heap) {
        let style = if cell.is_some() { "solid" } else { "dashed" };
        let here = here(location);
        line(format!(
            "{location} [shape=ellipse, style={style}, label=\"{location}{here}\"];"
        ));
    }
    for (location, value) in model.cells() {
        line(format!("{location} -> {value};"));
    }
    dot + "}\n"
}

/// The variables at a location, for a second line of its label.
fn variables(model: &Model, names: &[String], location: u8) -> String {
    let here: Vec<String> = (1..)
        .zip(&model.stack)
        .filter(|&(_, &at)| at == location)
        .map(|(variable, _)| in_label(&names::variable(variable, names)))
        .collect();
    if here.is_empty() {
        String::new()
    } else {
        format!("\\n{}", here.join(" "))
    }
}

/// A name as a label in quotation marks has it.
fn in_label(name: &str) -> String {
    name.replace('\\', "\\\\").replace('"', "\\\"")
}
