//! The refusal of a text, shown as a compiler would.

use hollyspool::{Answer, Refusal};

use crate::args::Reach;
use crate::expected;
use crate::json::Object;
use crate::report::{object, Report, REFUSED};
use crate::source::Source;

/// A refusal with the byte of the text that it names.
pub struct Complaint<'a> {
    source: &'a Source<'a>,
    byte: usize,
    /// What is wrong, in words.
    said: String,
    /// What should stand there instead; nothing, where that can't be said.
    expected: String,
    /// The fields that its answer has.
    fields: Object,
}

impl<'a> Complaint<'a> {
    /// The complaint of an import that refused the text for a byte of it.
    pub fn of(source: &'a Source<'a>, answer: Answer, refusal: Refusal) -> Complaint<'a> {
        let byte = (answer.place as usize).min(source.text.len());
        let expected = match refusal {
            Refusal::BadText { .. } => expected::after(&source.text[..byte]),
            _ => String::new(),
        };
        let said = match refusal {
            Refusal::ManyNodes { .. } => "too many nodes (27): with the item that ends here the \
                 formula has more than 64"
                .to_owned(),
            Refusal::ManyNames { .. } => format!(
                "too many names (28): {} is the ninth, and a text has at most eight",
                name_at(source.text, byte)
            ),
            _ => bad_text(source.text, byte, &expected),
        };
        Complaint {
            byte,
            said,
            expected,
            fields: object(answer, &refusal.to_string()),
            source,
        }
    }

    /// The complaint of the translator. It is not the bench's, so it has no number.
    pub fn unknown(source: &'a Source<'a>, unknown: smtlib::Unknown) -> Complaint<'a> {
        let said = format!("not translated: {}", unknown.what);
        Complaint {
            fields: Object::new().text("meaning", &said),
            byte: unknown.byte,
            expected: String::new(),
            said,
            source,
        }
    }

    /// In words, lines of their own.
    pub fn words(&self) -> String {
        let more = match &*self.expected {
            "" => String::new(),
            expected => format!("expected {expected}"),
        };
        self.source.shown(self.byte, &self.said, &more)
    }

    /// For machines.
    pub fn object(self) -> Object {
        let (line, column) = self.source.place(self.byte);
        let object = self
            .fields
            .number("line", line as u64)
            .number("column", column as u64);
        match &*self.expected {
            "" => object,
            expected => object.text("expected", expected),
        }
    }
}

/// The refusal of n or p, which is none of the text.
pub fn bounds(answer: Answer, Reach { n, p }: Reach, json: bool) -> Report {
    let meaning = format!(
        "n is {n} and p is {p}, but each is at most {}",
        hollyspool::Bounds::MOST
    );
    if json {
        return Report::text(REFUSED, object(answer, &meaning).line());
    }
    Report::note(REFUSED, &format!("refused with 12: {meaning}"))
}

/// What is wrong with the byte at 26's place.
fn bad_text(text: &[u8], byte: usize, expected: &str) -> String {
    let rest = &text[byte..];
    let wrong = match rest {
        [] => "the text ends before its formula does".to_owned(),
        [b'\r', ..] => "a carriage return, as files from Windows have them; only spaces and line \
             feeds may separate"
            .to_owned(),
        [b'\t', ..] => "a tab; only spaces and line feeds may separate".to_owned(),
        [0xef, 0xbb, 0xbf, ..] => "a byte order mark; a text begins with its formula".to_owned(),
        _ => {
            let hint = hint(text, byte, expected);
            format!("no formula can go on with {} here{hint}", quoted(rest))
        }
    };
    format!("bad text (26): {wrong}")
}

/// A word more, where it is not plain why a byte can't stand.
fn hint(text: &[u8], byte: usize, expected: &str) -> String {
    let begun = expected::begun(&text[..byte]);
    let rest = text[byte..]
        .iter()
        .take_while(|byte| byte.is_ascii_alphanumeric());
    let whole: Vec<u8> = begun.iter().chain(rest).copied().collect();
    let whole = String::from_utf8_lossy(&whole);
    let hint = match text[byte] {
        _ if expected.contains("of the name") && expected::WORDS.contains(&&*whole) => {
            return format!("; {whole} is a word, and no name");
        }
        b';' => "; comments stand in whole files only, those with assert",
        b'A'..=b'Z' | b'_' => "; names are lower-case letters and digits",
        b'(' if expected == "`sep.emp`" => "; lists stand at most 16 deep",
        b'a'..=b'z' | b'0'..=b'9' if begun.len() == 8 => {
            "; a name has at most eight letters and digits"
        }
        _ => "",
    };
    hint.to_owned()
}

/// The first character of a text, or its first byte where that is none.
fn quoted(text: &[u8]) -> String {
    let first = &text[..text.len().min(4)];
    let valid = match std::str::from_utf8(first) {
        Ok(text) => text,
        Err(error) => std::str::from_utf8(&first[..error.valid_up_to()]).unwrap_or_default(),
    };
    match valid.chars().next() {
        Some(' ') => "a space".to_owned(),
        Some('\n') => "a line feed".to_owned(),
        Some(c) if !c.is_control() => format!("'{c}'"),
        _ => format!("byte {:02x}", text[0]),
    }
}

/// The name that stands at a byte.
fn name_at(text: &[u8], byte: usize) -> String {
    let name = text[byte..]
        .iter()
        .take_while(|byte| byte.is_ascii_alphanumeric());
    name.map(|&byte| char::from(byte)).collect()
}
