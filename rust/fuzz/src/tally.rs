//! How often each call gave each number.

use std::fmt;

use hollyspool::Profile;

/// The calls that give a number.
#[derive(Clone, Copy, Debug)]
pub enum Call {
    Read,
    Import,
    Export,
    Judge(Profile),
    Search(Profile),
    Encode(Profile),
    Assign(Profile),
}

/// The calls in the order of their columns, those of the ordinary profile behind the strong one's.
const COLUMNS: [&str; 11] = [
    "read", "import", "export", "judge", "ordinary", "search", "ordinary", "encode", "ordinary",
    "assign", "ordinary",
];

impl Call {
    fn column(self) -> usize {
        match self {
            Call::Read => 0,
            Call::Import => 1,
            Call::Export => 2,
            Call::Judge(profile) => 3 + profile as usize,
            Call::Search(profile) => 5 + profile as usize,
            Call::Encode(profile) => 7 + profile as usize,
            Call::Assign(profile) => 9 + profile as usize,
        }
    }
}

/// One more than the highest number.
const NUMBERS: usize = 29;

/// Counts by number and call, of models renumbered, and of books that were written and read back.
#[derive(Default)]
pub struct Tally {
    numbers: [[u64; COLUMNS.len()]; NUMBERS],
    /// Inputs that both profiles answer alike, without operator 8 and with it, and those that they don't.
    pub alike: [u64; 2],
    pub apart: u64,
    /// Models that became others by renumbering, and don't fit, or do, before and after.
    pub renumbered: [u64; 2],
    /// Texts that could be read back, and texts that were too deep or had too many nodes.
    pub read_back: u64,
    pub not_read_back: u64,
    /// Models that both books were judged on and did not fit, or did.
    pub matched: [u64; 2],
}

impl Tally {
    pub fn count(&mut self, call: Call, number: u64) {
        self.numbers[number as usize][call.column()] += 1;
    }
}

impl fmt::Display for Tally {
    fn fmt(&self, f: &mut fmt::Formatter<'_>) -> fmt::Result {
        write!(f, "number")?;
        for column in COLUMNS {
            write!(f, "{column:>10}")?;
        }
        for (number, counts) in self.numbers.iter().enumerate() {
            if (3..10).contains(&number) {
                continue;
            }
            write!(f, "\n{number:6}")?;
            for count in counts {
                write!(f, "{count:10}")?;
            }
        }
        let ([without, with], apart) = (self.alike, self.apart);
        write!(
            f,
            "\nprofiles: alike on {without} inputs without operator 8 and on {with} with it, apart on {apart}"
        )?;
        let [no, yes] = self.renumbered;
        write!(f, "\nrenumbered models: {yes} fit, {no} do not")?;
        let ([no, yes], read, not) = (self.matched, self.read_back, self.not_read_back);
        write!(
            f,
            "\ntexts of books: {read} read back, {not} too deep or with too many nodes; \
             models of both books: {yes} fit, {no} do not"
        )
    }
}
