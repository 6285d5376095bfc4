//! `explain`: what stands in a book, or why it is refused.

use hollyspool::{Book, Bounds, Profile, Refusal};

use crate::args::Request;
use crate::encode;
use crate::fault::Fault;
use crate::problem::Problem;
use crate::report::{object, Report, REFUSED};
use crate::text;

pub fn run(problem: &Problem, request: &Request) -> Report {
    let (book, profile) = (&problem.book, request.profile);
    match (Book::accept(book), request.json) {
        (Ok(book), false) => Report::text(0, accepted(problem, &book, profile)),
        (Ok(book), true) => Report::text(0, accepted_in_json(problem, &book, profile)),
        (Err(refusal), false) => Report::text(REFUSED, refused(book, refusal)),
        (Err(refusal), true) => Report::text(REFUSED, refused_in_json(book, refusal)),
    }
}

fn accepted(problem: &Problem, book: &Book, profile: Profile) -> String {
    let Bounds { v, n, p } = book.bounds();
    let rows = match encode::count(profile, book.bytes()) {
        Some(count) => count.to_string(),
        None => format!("none: {}", Refusal::NotEncodable),
    };
    format!(
        "formula  {}\nnodes    {}\nbounds   v = {v}, n = {n}, p = {p}\n\
         T        {} candidates\nrows     {rows}\ntext     {}\n{}{}",
        book.formula().with_names(&problem.names),
        book.formula().nodes(),
        book.bounds().candidates(),
        text::of(book),
        stray(book),
        names(problem),
    )
}

/// A line on which variable each name of a text is, if there are any.
fn names(problem: &Problem) -> String {
    let number = |(variable, name): (usize, &String)| format!("{name} is {variable}");
    let names: Vec<String> = (1..).zip(&problem.names).map(number).collect();
    match &names[..] {
        [] => String::new(),
        _ => format!("names    {}\n", names.join(", ")),
    }
}

/// A line on the declared variables that no atom names, if there are any.
fn stray(book: &Book) -> String {
    let names: Vec<String> = book.stray().iter().map(|x| format!("x{x}")).collect();
    if names.is_empty() {
        return String::new();
    }
    let names = names.join(", ");
    format!("stray    {names}: declared, but named by no atom; search refuses the book\n")
}

fn accepted_in_json(problem: &Problem, book: &Book, profile: Profile) -> String {
    let Bounds { v, n, p } = book.bounds();
    let formula = book.formula().with_names(&problem.names).to_string();
    let object = problem
        .object(hollyspool::read(book.bytes()), "accepted")
        .text("formula", &formula)
        .text("text", &text::of(book))
        .number("nodes", book.formula().nodes() as u64)
        .number("v", v.into())
        .number("n", n.into())
        .number("p", p.into())
        .number("total", book.bounds().candidates())
        .numbers("stray", book.stray().into_iter().map(Some));
    match encode::count(profile, book.bytes()) {
        Some(rows) => object.number("rows", rows as u64).line(),
        None => object.line(),
    }
}

fn refused(book: &[u8], refusal: Refusal) -> String {
    let mut text = format!("refused  number {}\nmeaning  {refusal}\n", refusal.number());
    if let Some(fault) = Fault::of(book, refusal) {
        let is = match (fault.value(book), fault.bytes.len()) {
            (None, _) => "not there".to_owned(),
            (Some(value), 1) => format!("{value:02x}"),
            (Some(value), _) => {
                let [low, high] = value.to_le_bytes();
                format!("{low:02x} {high:02x} ({value})")
            }
        };
        let Fault { bytes, should } = fault;
        text += &format!("byte     {} is {is}; expected {should}\n", bytes.start);
    }
    text
}

fn refused_in_json(book: &[u8], refusal: Refusal) -> String {
    let object = object(hollyspool::read(book), &refusal.to_string());
    let Some(fault) = Fault::of(book, refusal) else {
        return object.line();
    };
    let object = object.number("byte", fault.bytes.start as u64);
    let object = match fault.value(book) {
        Some(value) => object.number("is", value.into()),
        None => object,
    };
    object.text("expected", &fault.should).line()
}
