//! What a command is about: a book, from its bytes or from a text.

use hollyspool::{Answer, Book, Refusal};

use crate::args::{Command, Reach, Request};
use crate::complaint::{self, Complaint};
use crate::input;
use crate::json::Object;
use crate::report::{object, Report, REFUSED};
use crate::source::Source;

/// A book, with what its text gave besides.
pub struct Problem {
    pub book: Vec<u8>,
    /// The names of variables 1, 2, ..; none, where the book's bytes were given.
    pub names: Vec<String>,
    /// The body, where a whole file had to be translated.
    pub translated: Option<String>,
}

impl Problem {
    /// The problem in the request's file, or the report of a text that is refused; or a line that
    /// says why the file can't be read.
    pub fn read(request: &Request) -> Result<Result<Problem, Report>, String> {
        match request.text {
            None => Ok(Ok(Problem {
                book: input::book(&request.file)?,
                names: Vec::new(),
                translated: None,
            })),
            Some(reach) => {
                let text = input::text(&request.file)?;
                Ok(from_text(&text, reach, request))
            }
        }
    }

    /// The fields that every answer has.
    pub fn object(&self, answer: Answer, meaning: &str) -> Object {
        let mut object = object(answer, meaning);
        if !self.names.is_empty() {
            object = object.texts("names", &self.names);
        }
        match &self.translated {
            Some(body) => object.text("translated", body),
            None => object,
        }
    }

    /// A report on it, with a line more where a translation stands before what is proved.
    pub fn noted(&self, report: Report, request: &Request) -> Report {
        if self.translated.is_none() || request.json {
            return report;
        }
        let name = input::name(&request.file);
        report.also(&format!(
            "{name} is a whole file: what was checked is a body translated from it, and the \
             translation is not proved; `hollyspool translate` prints the body"
        ))
    }
}

fn from_text(text: &[u8], reach: Reach, request: &Request) -> Result<Problem, Report> {
    let name = input::name(&request.file);
    if !smtlib::is_whole_file(text) {
        let (book, names) = imported(&Source { name: &name, text }, reach, request, None)?;
        return Ok(Problem {
            book,
            names,
            translated: None,
        });
    }
    let body = smtlib::translate(text).map_err(|unknown| {
        let source = Source { name: &name, text };
        refused(Complaint::unknown(&source, unknown), request, None)
    })?;
    let source = Source {
        name: &format!("{name} (translated)"),
        text: body.text.as_bytes(),
    };
    let (book, names) = imported(&source, reach, request, Some(&body.text))?;
    let names = names.iter().map(|name| body.file_name(name).to_owned());
    Ok(Problem {
        book,
        names: names.collect(),
        translated: Some(body.text.clone()),
    })
}

/// The book and the names of a text, as the proved import has them.
fn imported(
    source: &Source,
    reach: Reach,
    request: &Request,
    translated: Option<&str>,
) -> Result<(Vec<u8>, Vec<String>), Report> {
    let refusal = match Book::parse(source.text, reach.n, reach.p) {
        Ok((book, names)) => return Ok((book.bytes().to_vec(), names)),
        Err(refusal) => refusal,
    };
    let mut out = [0; hollyspool::MOST_BOOK];
    let answer = hollyspool::import(source.text, reach.n, reach.p, &mut out);
    Err(match refusal {
        Refusal::Bounds => complaint::bounds(answer, reach, request.json),
        _ => refused(Complaint::of(source, answer, refusal), request, translated),
    })
}

/// The report of a complaint: on standard output where that is what was asked for.
pub fn refused(complaint: Complaint, request: &Request, translated: Option<&str>) -> Report {
    if request.json {
        let object = complaint.object();
        let object = match translated {
            Some(body) => object.text("translated", body),
            None => object,
        };
        return Report::text(REFUSED, object.line());
    }
    let words = complaint.words();
    if request.command == Command::Explain {
        return Report::text(REFUSED, words);
    }
    Report {
        status: REFUSED,
        output: Vec::new(),
        notes: words,
    }
}
