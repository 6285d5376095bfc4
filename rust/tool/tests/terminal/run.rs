//! Running the tool.

use std::io::Write;
use std::process::{Command, Stdio};

/// What a run printed, and its exit status.
pub struct Run {
    pub status: i32,
    pub out: String,
    pub err: String,
}

/// The tool, with these arguments.
pub fn tool(args: &[&str]) -> Command {
    let mut command = Command::new(env!("CARGO_BIN_EXE_hollyspool"));
    command.args(args);
    command
}

/// Runs the tool with nothing on standard input.
pub fn run(args: &[&str]) -> Run {
    run_on(&[], args)
}

/// Runs the tool with a book or a text on standard input.
pub fn run_on(input: &[u8], args: &[&str]) -> Run {
    let mut child = tool(args)
        .stdin(Stdio::piped())
        .stdout(Stdio::piped())
        .stderr(Stdio::piped())
        .spawn()
        .expect("the tool starts");
    let mut pipe = child.stdin.take().expect("it has a standard input");
    // Where the arguments are bad it doesn't read.
    let _ = pipe.write_all(input);
    drop(pipe);
    let output = child.wait_with_output().expect("it ends");
    let text = |bytes| String::from_utf8(bytes).expect("it prints UTF-8");
    Run {
        status: output.status.code().expect("it ends by itself"),
        out: text(output.stdout),
        err: text(output.stderr),
    }
}

/// The path of a sample book.
pub fn sample(name: &str) -> String {
    format!("{}/../../books/{name}.book", env!("CARGO_MANIFEST_DIR"))
}

/// The path of a sample text.
pub fn sample_text(name: &str) -> String {
    format!("{}/../../texts/{name}.smt2", env!("CARGO_MANIFEST_DIR"))
}

/// x2 ↦ nil, bounds 4 1 1: all variables but x2 are stray.
pub const STRAY: [u8; 17] = [2, 1, 11, 0, 3, 0, 2, 14, 0, 3, 0, 4, 1, 1, 3, 2, 0];

/// P1's book: x ↦ x, bounds 1 1 1.
pub const P1: [u8; 17] = [2, 1, 11, 0, 3, 0, 2, 14, 0, 3, 0, 1, 1, 1, 3, 1, 1];
