//! Where a command's bytes come from.

use std::ffi::{OsStr, OsString};
use std::fs::{self, File};
use std::io::{self, Read};

use crate::hex;

/// One byte more than the longest book: such an input is refused, whatever follows.
const ENOUGH: u64 = 207;

/// The book's bytes, from a path or, for `-`, from standard input.
pub fn book(file: &OsStr) -> Result<Vec<u8>, String> {
    read(file, ENOUGH)
}

/// A text, of any length.
pub fn text(file: &OsStr) -> Result<Vec<u8>, String> {
    read(file, u64::MAX)
}

fn read(file: &OsStr, most: u64) -> Result<Vec<u8>, String> {
    let mut bytes = Vec::new();
    let read = if file == "-" {
        io::stdin().lock().take(most).read_to_end(&mut bytes)
    } else {
        File::open(file).and_then(|opened| opened.take(most).read_to_end(&mut bytes))
    };
    match read {
        Ok(_) => Ok(bytes),
        Err(error) => Err(format!("can't read {}: {error}", file.display())),
    }
}

/// What a file is called in messages.
pub fn name(file: &OsStr) -> String {
    match file.to_string_lossy() {
        dash if dash == "-" => "<stdin>".to_owned(),
        path => path.into_owned(),
    }
}

/// The bytes of a model or an assignment: hex digits, or `@` and a path.
pub fn bytes(args: &[OsString]) -> Result<Vec<u8>, String> {
    let words: Option<Vec<&str>> = args.iter().map(|arg| arg.to_str()).collect();
    let text = words
        .ok_or("a MODEL or ASSIGNMENT is hex digits or @PATH")?
        .join(" ");
    match text.strip_prefix('@') {
        Some(path) => fs::read(path).map_err(|error| format!("can't read {path}: {error}")),
        None => hex::read(&text),
    }
}
