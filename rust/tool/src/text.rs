//! `text`: a book's formula as a text.

use hollyspool::{Book, Bounds, Refusal, MOST_TEXT};

use crate::args::Request;
use crate::problem::Problem;
use crate::report::Report;

/// The text of an accepted book.
pub fn of(book: &Book) -> String {
    book.text().expect("an accepted book has a text")
}

pub fn run(problem: &Problem, request: &Request) -> Report {
    let answer = hollyspool::export(&problem.book, &mut [0; MOST_TEXT]);
    let book = match Book::accept(&problem.book) {
        Ok(book) => book,
        Err(refusal) => return Report::refused(refusal, answer, request.json),
    };
    let text = of(&book);
    let unread = unread(&book, &text);
    let file = request.whole.then(|| whole_file(&book, &text));
    if request.json {
        let object = problem
            .object(answer, "written")
            .text("text", &text)
            .numbers("stray", book.stray().into_iter().map(Some))
            .number("read_back", unread.map_or(0, Refusal::number));
        let object = match file {
            Some(file) => object.text("file", &file),
            None => object,
        };
        return Report::text(0, object.line());
    }
    let notes = notes(problem, &book, unread, request);
    let report = Report::text(0, file.unwrap_or(text + "\n"));
    notes.iter().fold(report, |report, note| report.also(note))
}

/// The text in a file of its own, with a line on what it leaves out.
fn whole_file(book: &Book, text: &str) -> String {
    let Bounds { v, n, p } = book.bounds();
    let names: Vec<String> = (1..=v).map(|variable| format!("v{variable}")).collect();
    let file = smtlib::whole_file(text, &names);
    format!("; from a book with n = {n}, p = {p}; its sep and wand are strong, unless asked otherwise\n{file}")
}

/// Why the text can't be read back, as the proved import says.
fn unread(book: &Book, text: &str) -> Option<Refusal> {
    let Bounds { n, p, .. } = book.bounds();
    Book::parse(text, n.into(), p.into()).err()
}

/// What a reader of the text has to know besides.
fn notes(
    problem: &Problem,
    book: &Book,
    unread: Option<Refusal>,
    request: &Request,
) -> Vec<String> {
    let mut notes = Vec::new();
    let number = |(variable, name): (usize, &String)| format!("v{variable} is {name}");
    let names: Vec<String> = (1..).zip(&problem.names).map(number).collect();
    if !names.is_empty() {
        notes.push(names.join(", "));
    }
    let stray: Vec<String> = book.stray().iter().map(|x| format!("v{x}")).collect();
    if !stray.is_empty() && !request.whole {
        let stray = stray.join(", ");
        notes.push(format!(
            "no atom names {stray}: the text is without, and need not hold on the same models"
        ));
    }
    match unread {
        Some(Refusal::ManyNodes { .. }) => {
            notes.push("the text can't be read back: it has more than 64 nodes".to_owned());
        }
        Some(_) => notes.push("the text can't be read back: it is more than 16 deep".to_owned()),
        None => {}
    }
    if request.whole && has_list(book) {
        notes.push("the file has ls, which Astral knows and cvc5 does not".to_owned());
    }
    notes
}

/// Whether operator 4 stands in a book.
fn has_list(book: &Book) -> bool {
    let nodes = hollyspool::body(book.bytes(), 1).as_chunks::<3>().0;
    nodes.iter().any(|node| node[0] == 4)
}
