//! The bench at a terminal. Each command asks the proved calls and puts their answer into words.

mod args;
mod complaint;
mod draw;
mod encode;
mod expected;
mod explain;
mod fault;
mod help;
mod hex;
mod input;
mod json;
mod judge;
mod names;
mod problem;
mod progress;
mod report;
mod rows;
mod search;
mod source;
mod text;
mod translate;

use std::io::{self, Write};
use std::process::ExitCode;

use args::{Command, Parsed, Request};
use problem::Problem;
use report::{Report, BAD_ARGUMENTS, NO_OUTPUT};

fn main() -> ExitCode {
    let result = match args::parse(std::env::args_os().skip(1)) {
        Ok(Parsed::Help(command)) => Ok(Report::text(0, help::about(command))),
        Ok(Parsed::Run(request)) => run(&request),
        Err(line) => Err(line),
    };
    match result {
        Ok(report) => print(&report),
        Err(line) => {
            eprintln!("hollyspool: {line}; see hollyspool --help");
            ExitCode::from(BAD_ARGUMENTS)
        }
    }
}

/// The command's report, or a line that says what is wrong with its arguments.
fn run(request: &Request) -> Result<Report, String> {
    if request.command == Command::Translate {
        return translate::run(request);
    }
    let problem = match Problem::read(request)? {
        Ok(problem) => problem,
        Err(refused) => return Ok(refused),
    };
    let report = match request.command {
        Command::Search => search::run(&problem, request),
        Command::Judge => judge::model(&problem, &input::bytes(&request.bytes)?, request),
        Command::Encode => encode::run(&problem, request),
        Command::Assign => judge::assignment(&problem, &input::bytes(&request.bytes)?, request),
        Command::Explain => explain::run(&problem, request),
        Command::Draw => draw::run(&problem, request),
        Command::Text => text::run(&problem, request),
        Command::Translate => unreachable!("it needs no book"),
    };
    Ok(problem.noted(report, request))
}

/// Prints a report, and gives its status unless nobody takes the output.
fn print(report: &Report) -> ExitCode {
    eprint!("{}", report.notes);
    let mut out = io::stdout().lock();
    match out.write_all(&report.output).and_then(|()| out.flush()) {
        Ok(()) => ExitCode::from(report.status),
        Err(error) => {
            eprintln!("hollyspool: can't write the output: {error}");
            ExitCode::from(NO_OUTPUT)
        }
    }
}
