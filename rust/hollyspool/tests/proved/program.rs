//! The program `shape`, as a shell runs it.

use std::io::Write;
use std::path::Path;
use std::process::{Command, Stdio};

use cases::line::{about, Call};

const PROGRAM: &str = concat!(env!("CARGO_MANIFEST_DIR"), "/../../crates/shape/out/shape");

#[test]
fn shape_lines() {
    for case in about(Call::Shape) {
        assert_eq!(printed(&case.book), case.outcome.out, "{}", case.source);
    }
}

/// What the program prints for an input.
fn printed(input: &[u8]) -> Vec<u8> {
    assert!(
        Path::new(PROGRAM).exists(),
        "run `rt run < stdin` in crates/shape first"
    );
    let mut shape = Command::new(PROGRAM)
        .stdin(Stdio::piped())
        .stdout(Stdio::piped())
        .spawn()
        .expect("the program starts");
    let mut pipe = shape.stdin.take().expect("it has a standard input");
    // It reads no more than it needs to, so the rest of a long input may find the pipe closed.
    let _ = pipe.write_all(input);
    drop(pipe);
    shape.wait_with_output().expect("it ends").stdout
}
