//! Document 02, [2]: the text of a formula, cut into tokens.
//!
//! A token is a bracket, or a stretch without blanks and brackets: as blanks may stand around every
//! one, the tokens of a well-formed text are its brackets, words and names. Where a token can't
//! stand, its longest beginning with which some well-formed text goes on ends at number 26's place.

/// The deepest list, the outermost being 1.
const DEEPEST: usize = 16;

/// The most letters and digits of a name.
const LONGEST_NAME: usize = 8;

const EMPTY: &[u8] = b"sep.emp";

const NIL: &[u8] = b"sep.nil";

/// The words that begin a list, and that are no names.
const WORDS: [&[u8]; 9] = [
    b"and",
    b"or",
    b"sep",
    b"wand",
    b"not",
    b"=",
    b"distinct",
    b"pto",
    b"ls",
];

/// The letters of a name, packed; 0 for `sep.nil`.
pub type Term = u64;

/// An item, its inner ones being finished before it.
#[derive(Clone, Copy, Debug, PartialEq, Eq)]
pub enum Item {
    Empty,
    Not,
    And,
    Or,
    Sep,
    Wand,
    Equal(Term, Term),
    Distinct(Term, Term),
    Points(Term, Term),
    List(Term, Term),
}

/// A name where it stands.
#[derive(Clone, Copy, Debug)]
pub struct Name {
    pub letters: Term,
    pub first: usize,
    /// The byte after it.
    pub after: usize,
}

/// What a text has, as far as some well-formed text goes on with it.
#[derive(Debug)]
pub struct Text {
    /// The items as they are finished, each with its last byte.
    pub items: Vec<(Item, usize)>,
    /// The names as they stand, `sep.nil` left out.
    pub names: Vec<Name>,
    /// The first byte with which no well-formed text can go on.
    pub bad: Option<usize>,
}

impl Text {
    pub fn read(text: &[u8]) -> Text {
        let mut reader = Reader {
            text,
            at: 0,
            items: Vec::with_capacity(64),
            names: Vec::with_capacity(64),
        };
        let bad = reader.whole().err();
        Text {
            items: reader.items,
            names: reader.names,
            bad,
        }
    }
}

/// What stands at a place.
#[derive(Clone, Copy)]
enum Kind {
    Open,
    Close,
    Stretch,
    /// The end of the text, a token of no bytes.
    End,
}

struct Token<'t> {
    kind: Kind,
    first: usize,
    bytes: &'t [u8],
}

struct Reader<'t> {
    text: &'t [u8],
    at: usize,
    items: Vec<(Item, usize)>,
    names: Vec<Name>,
}

/// The place of number 26.
type Bad = usize;

impl<'t> Reader<'t> {
    fn whole(&mut self) -> Result<(), Bad> {
        self.formula(0)?;
        let token = self.token();
        match token.kind {
            Kind::End => Ok(()),
            _ => Err(token.first),
        }
    }

    /// A list, or `sep.emp`, inside that many lists.
    fn formula(&mut self, depth: usize) -> Result<(), Bad> {
        let token = self.token();
        match token.kind {
            Kind::Open if depth < DEEPEST => self.list(depth + 1),
            Kind::Stretch => self.empty(token),
            _ => Err(token.first),
        }
    }

    /// `sep.emp` is finished at its last byte, whatever follows it.
    fn empty(&mut self, token: Token) -> Result<(), Bad> {
        let same = common(token.bytes, EMPTY);
        if same == EMPTY.len() {
            self.items.push((Item::Empty, token.first + same - 1));
        }
        if token.bytes.len() == EMPTY.len() && same == EMPTY.len() {
            Ok(())
        } else {
            Err(token.first + same)
        }
    }

    /// A list of that depth, behind its opening bracket.
    fn list(&mut self, depth: usize) -> Result<(), Bad> {
        let word = self.token();
        let item = match word.bytes {
            b"and" => self.join(depth, Item::And)?,
            b"or" => self.join(depth, Item::Or)?,
            b"sep" => self.join(depth, Item::Sep)?,
            b"wand" => self.join(depth, Item::Wand)?,
            b"not" => {
                self.formula(depth)?;
                Item::Not
            }
            b"=" => self.atom(Item::Equal)?,
            b"distinct" => self.atom(Item::Distinct)?,
            b"pto" => self.atom(Item::Points)?,
            b"ls" => self.atom(Item::List)?,
            other => {
                let beginnings = WORDS.iter().map(|word| common(other, word));
                return Err(word.first + beginnings.max().unwrap_or(0));
            }
        };
        let end = self.token();
        match end.kind {
            Kind::Close => self.items.push((item, end.first)),
            _ => return Err(end.first),
        }
        Ok(())
    }

    fn join(&mut self, depth: usize, item: Item) -> Result<Item, Bad> {
        self.formula(depth)?;
        self.formula(depth)?;
        Ok(item)
    }

    fn atom(&mut self, item: fn(Term, Term) -> Item) -> Result<Item, Bad> {
        let a = self.term()?;
        let b = self.term()?;
        Ok(item(a, b))
    }

    /// A name or `sep.nil`.
    fn term(&mut self) -> Result<Term, Bad> {
        let Token { kind, first, bytes } = self.token();
        if bytes == NIL {
            return Ok(0);
        }
        let most = name_within(bytes);
        if !matches!(kind, Kind::Stretch) || most < bytes.len() || WORDS.contains(&bytes) {
            return Err(first + most.max(common(bytes, NIL)));
        }
        let letters = packed(bytes);
        self.names.push(Name {
            letters,
            first,
            after: self.at,
        });
        Ok(letters)
    }

    /// The next token, and on behind it.
    fn token(&mut self) -> Token<'t> {
        let rest = &self.text[self.at..];
        let blanks = rest.iter().position(|&byte| !is_blank(byte));
        let first = self.at + blanks.unwrap_or(rest.len());
        let rest = &self.text[first..];
        let (kind, length) = match rest.first() {
            None => (Kind::End, 0),
            Some(b'(') => (Kind::Open, 1),
            Some(b')') => (Kind::Close, 1),
            Some(_) => {
                let end = rest.iter().position(|&byte| is_edge(byte));
                (Kind::Stretch, end.unwrap_or(rest.len()))
            }
        };
        self.at = first + length;
        Token {
            kind,
            first,
            bytes: &rest[..length],
        }
    }
}

fn is_blank(byte: u8) -> bool {
    matches!(byte, b' ' | b'\n')
}

/// Whether no stretch goes on with the byte.
fn is_edge(byte: u8) -> bool {
    matches!(byte, b' ' | b'\n' | b'(' | b')')
}

/// How many bytes two stretches begin with alike.
fn common(one: &[u8], other: &[u8]) -> usize {
    let pairs = one.iter().zip(other);
    pairs.take_while(|(one, other)| one == other).count()
}

/// How many bytes of a stretch some name begins with. A word is no name, but up to its last byte it
/// begins one; and so does the whole word where one letter more makes a name of it.
fn name_within(bytes: &[u8]) -> usize {
    let letters = |(at, byte): &(usize, &u8)| match byte {
        b'a'..=b'z' => *at < LONGEST_NAME,
        b'0'..=b'9' => *at > 0 && *at < LONGEST_NAME,
        _ => false,
    };
    let most = bytes.iter().enumerate().take_while(letters).count();
    match most {
        LONGEST_NAME if WORDS.contains(&&bytes[..most]) => most - 1,
        _ => most,
    }
}

/// A name as one number, in which all its letters are.
fn packed(name: &[u8]) -> Term {
    let pack = |packed, &letter| packed << 8 | Term::from(letter);
    name.iter().fold(0, pack)
}
