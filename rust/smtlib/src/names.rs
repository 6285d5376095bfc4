//! Names that a body may have.

use crate::sexp::shown;

/// The words of lists, which are no names.
const WORDS: [&str; 9] = [
    "and", "or", "sep", "wand", "not", "=", "distinct", "pto", "ls",
];

/// Whether a body may have this name: a lower-case letter, up to seven more letters or digits, and
/// none of the words.
fn is_legal(name: &str) -> bool {
    let letter = |byte: &u8| byte.is_ascii_lowercase() || byte.is_ascii_digit();
    name.starts_with(|first: char| first.is_ascii_lowercase())
        && name.len() <= 8
        && name.as_bytes().iter().all(letter)
        && !WORDS.contains(&name)
}

/// A name for each of the file's: its own where it is legal, else the first free one of a, b, ..
pub fn chosen(file: &[String]) -> Vec<String> {
    let mut fresh = (0..).map(letters).filter(|name| !file.contains(name));
    let mut choose = |name: &String| match is_legal(name) {
        true => Some(name.clone()),
        false => fresh.next(),
    };
    let names = file.iter().map(&mut choose);
    names
        .map(|name| name.expect("there is no end of names"))
        .collect()
}

/// The names that are not the file's, each with the file's as it is written there.
pub fn renamed(file: &[String], names: &[String]) -> Vec<(String, String)> {
    let pairs = names.iter().zip(file);
    pairs
        .filter(|(new, old)| new != old)
        .map(|(new, old)| (new.clone(), shown(old)))
        .collect()
}

/// a to z, then a1 to z1, ..
fn letters(number: usize) -> String {
    let letter = char::from(b'a' + (number % 26) as u8);
    match number / 26 {
        0 => letter.to_string(),
        round => format!("{letter}{round}"),
    }
}
