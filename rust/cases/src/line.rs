//! The lines of `fixed.txt`, `random.txt` and `next.txt`; the folder's README.md gives their form.

/// The call that a line is about.
#[derive(Clone, Copy, Debug, PartialEq, Eq)]
pub enum Call {
    Read,
    Body,
    Judge,
    Search,
    Next,
    Encode,
    Assign,
    Shape,
    Import,
    Export,
}

/// An answer and the bytes that came with it.
#[derive(Clone, Debug, PartialEq, Eq)]
pub struct Outcome {
    pub number: u64,
    pub place: u64,
    pub tried: u64,
    pub out: Vec<u8>,
}

impl Outcome {
    /// The answer with these three, and the bytes.
    pub fn of(number: u64, place: u64, tried: u64, out: Vec<u8>) -> Outcome {
        Outcome {
            number,
            place,
            tried,
            out,
        }
    }
}

/// A line: a call's input and the outcome it must have.
#[derive(Clone, Debug)]
pub struct Case {
    /// The file and line, for messages.
    pub source: String,
    pub call: Call,
    /// Whether it is in the ordinary profile, and not in the strong one.
    pub ordinary: bool,
    /// The book or, for an import, the text.
    pub book: Vec<u8>,
    /// The model, the assignment, or the bounds n and p.
    pub arg: Vec<u8>,
    /// The budget or the entry.
    pub number: u64,
    /// The length of the output buffer.
    pub room: usize,
    pub outcome: Outcome,
}

impl Case {
    /// The output buffer before the call.
    pub fn buffer(&self) -> Vec<u8> {
        vec![0xA5; self.room]
    }
}

/// Every line of the three files.
pub fn all() -> Vec<Case> {
    let fixed = lines("fixed.txt", include_str!("../fixed.txt"));
    let random = lines("random.txt", include_str!("../random.txt"));
    let next = lines("next.txt", include_str!("../next.txt"));
    fixed.chain(random).chain(next).collect()
}

/// The lines about one call, in either profile.
pub fn about(call: Call) -> Vec<Case> {
    let mut cases = all();
    cases.retain(|case| case.call == call);
    assert!(!cases.is_empty(), "no line is about {call:?}");
    cases
}

fn lines<'a>(file: &'a str, text: &'a str) -> impl Iterator<Item = Case> + 'a {
    text.lines().enumerate().map(move |(at, line)| {
        let source = format!("{file}:{}", at + 1);
        parse(&source, line).unwrap_or_else(|| panic!("{source} is no case"))
    })
}

fn parse(source: &str, line: &str) -> Option<Case> {
    let words: Vec<&str> = line.split(' ').collect();
    let [call, book, arg, budget, room, "=>", number, place, tried, out] = words[..] else {
        return None;
    };
    let in_ordinary = call.strip_suffix(":ordinary");
    Some(Case {
        source: source.to_owned(),
        call: call_named(in_ordinary.unwrap_or(call))?,
        ordinary: in_ordinary.is_some(),
        book: bytes(book)?,
        arg: bytes(arg)?,
        number: budget.parse().ok()?,
        room: room.parse().ok()?,
        outcome: Outcome {
            number: number.parse().ok()?,
            place: place.parse().ok()?,
            tried: tried.parse().ok()?,
            out: bytes(out)?,
        },
    })
}

fn call_named(word: &str) -> Option<Call> {
    Some(match word {
        "read" => Call::Read,
        "body" => Call::Body,
        "judge" => Call::Judge,
        "search" => Call::Search,
        "next" => Call::Next,
        "encode" => Call::Encode,
        "assign" => Call::Assign,
        "shape" => Call::Shape,
        "import" => Call::Import,
        "export" => Call::Export,
        _ => return None,
    })
}

/// The bytes behind hex digits, `-` for none.
fn bytes(hex: &str) -> Option<Vec<u8>> {
    if hex == "-" {
        return Some(Vec::new());
    }
    let (pairs, []) = hex.as_bytes().as_chunks::<2>() else {
        return None;
    };
    pairs
        .iter()
        .map(|pair| u8::from_str_radix(std::str::from_utf8(pair).ok()?, 16).ok())
        .collect()
}
