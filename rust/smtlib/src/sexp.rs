//! Lists, symbols and the other words of SMT-LIB, each with the byte where it begins.

use crate::Unknown;

/// How deep lists may stand: far deeper than a body has them.
const DEEPEST: usize = 300;

/// A list or a word.
#[derive(Clone, Debug)]
pub struct Sexp {
    pub at: usize,
    pub kind: Kind,
}

#[derive(Clone, Debug)]
pub enum Kind {
    /// A symbol; one in bars is here without them.
    Symbol(String),
    /// A string, a number or a keyword, as it stands.
    Other(String),
    List(Vec<Sexp>),
}

impl Sexp {
    pub fn symbol(&self) -> Option<&str> {
        match &self.kind {
            Kind::Symbol(symbol) => Some(symbol),
            _ => None,
        }
    }

    pub fn list(&self) -> Option<&[Sexp]> {
        match &self.kind {
            Kind::List(items) => Some(items),
            _ => None,
        }
    }

    /// Whether it is this symbol.
    pub fn is(&self, symbol: &str) -> bool {
        self.symbol() == Some(symbol)
    }
}

/// A symbol as a file has it: in bars where it needs them.
pub fn shown(symbol: &str) -> String {
    let simple = |byte: &u8| byte.is_ascii_alphanumeric() || SIGNS.contains(byte);
    let starts_well = !symbol.starts_with(|first: char| first.is_ascii_digit());
    if !symbol.is_empty() && starts_well && symbol.as_bytes().iter().all(simple) {
        symbol.to_owned()
    } else {
        format!("|{symbol}|")
    }
}

/// What a simple symbol may have besides letters and digits.
const SIGNS: &[u8] = b"~!@$%^&*_-+=<>.?/";

/// The lists that a file consists of.
pub fn read(file: &[u8]) -> Result<Vec<Sexp>, Unknown> {
    // The lists that are open, and before them the file itself.
    let mut open = vec![(0, Vec::new())];
    let mut at = 0;
    while let Some(&byte) = file.get(at) {
        let start = at;
        at = match byte {
            b' ' | b'\n' | b'\t' | b'\r' => at + 1,
            b';' => line_end(file, at),
            b'(' => {
                if open.len() > DEEPEST {
                    return Unknown::at(at, format!("lists deeper than {DEEPEST}"));
                }
                open.push((at, Vec::new()));
                at + 1
            }
            b')' => {
                close(&mut open, at)?;
                at + 1
            }
            _ => {
                let (kind, end) = word(file, at)?;
                add(&mut open, Sexp { at: start, kind })?;
                end
            }
        };
    }
    match open.pop() {
        Some((_, items)) if open.is_empty() => Ok(items),
        Some((at, _)) => Unknown::at(at, "a list without its closing bracket"),
        None => Ok(Vec::new()),
    }
}

type Open = Vec<(usize, Vec<Sexp>)>;

/// Ends the innermost list.
fn close(open: &mut Open, at: usize) -> Result<(), Unknown> {
    match open.pop() {
        Some((start, items)) if !open.is_empty() => add(
            open,
            Sexp {
                at: start,
                kind: Kind::List(items),
            },
        ),
        _ => Unknown::at(at, "a closing bracket without its list"),
    }
}

/// Puts an item into the innermost list.
fn add(open: &mut Open, item: Sexp) -> Result<(), Unknown> {
    let outermost = open.len() == 1;
    match open.last_mut() {
        Some((_, items)) if !outermost || item.list().is_some() => {
            items.push(item);
            Ok(())
        }
        _ => Unknown::at(item.at, "a word outside of every command"),
    }
}

fn line_end(file: &[u8], at: usize) -> usize {
    let length = file[at..].iter().position(|&byte| byte == b'\n');
    length.map_or(file.len(), |length| at + length)
}

/// The word at a place, and the byte after it.
fn word(file: &[u8], at: usize) -> Result<(Kind, usize), Unknown> {
    match file[at] {
        b'|' => {
            let end = find(file, at, b'|').ok_or_else(|| without_end(at, "symbol in bars"))?;
            Ok((Kind::Symbol(text(&file[at + 1..end])), end + 1))
        }
        b'"' => {
            let end = string_end(file, at).ok_or_else(|| without_end(at, "string"))?;
            Ok((Kind::Other(text(&file[at..end])), end))
        }
        _ => plain(file, at),
    }
}

fn plain(file: &[u8], at: usize) -> Result<(Kind, usize), Unknown> {
    let goes_on = |&byte: &u8| byte.is_ascii_alphanumeric() || SIGNS.contains(&byte);
    let start = at + usize::from(matches!(file[at], b':' | b'#'));
    let length = file[start..]
        .iter()
        .take_while(|byte| goes_on(byte))
        .count();
    let end = start + length;
    if length == 0 {
        return Unknown::at(
            at,
            format!("'{}', which begins no word", file[at].escape_ascii()),
        );
    }
    let word = text(&file[at..end]);
    let is_symbol = start == at && !file[at].is_ascii_digit();
    let kind = if is_symbol { Kind::Symbol } else { Kind::Other };
    Ok((kind(word), end))
}

/// The next place after `at` with this byte.
fn find(file: &[u8], at: usize, byte: u8) -> Option<usize> {
    let length = file[at + 1..].iter().position(|&other| other == byte)?;
    Some(at + 1 + length)
}

/// The byte after a string; two quotation marks in it stand for one.
fn string_end(file: &[u8], at: usize) -> Option<usize> {
    let mut end = find(file, at, b'"')? + 1;
    while file.get(end) == Some(&b'"') {
        end = find(file, end, b'"')? + 1;
    }
    Some(end)
}

fn without_end(byte: usize, what: &str) -> Unknown {
    Unknown {
        byte,
        what: format!("a {what} without its end"),
    }
}

fn text(bytes: &[u8]) -> String {
    String::from_utf8_lossy(bytes).into_owned()
}
