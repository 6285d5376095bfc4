//! A text in a file, by lines and columns.

/// How much of a line is shown before the byte it is shown for, and after.
const BEFORE: usize = 72;
const AFTER: usize = 40;

/// A text and what its file is called.
pub struct Source<'a> {
    pub name: &'a str,
    pub text: &'a [u8],
}

impl Source<'_> {
    /// The line and the column of a byte, each from 1. Columns are bytes.
    pub fn place(&self, byte: usize) -> (usize, usize) {
        let before = &self.text[..byte];
        let lines = before.iter().filter(|&&byte| byte == b'\n').count();
        (lines + 1, byte - line_start(before) + 1)
    }

    /// What is said of a byte, its line, and a caret under the byte with more words.
    pub fn shown(&self, byte: usize, said: &str, more: &str) -> String {
        let (line, column) = self.place(byte);
        let (before, after) = self.text.split_at(byte);
        let before = last(&plain(&before[line_start(before)..]), BEFORE);
        let end = after.iter().position(|&byte| byte == b'\n');
        let after = first(&plain(&after[..end.unwrap_or(after.len())]), AFTER);
        let name = self.name;
        let (number, margin) = (line.to_string(), " ".repeat(line.to_string().len()));
        let under = " ".repeat(before.chars().count());
        let lines = [
            format!("{name}:{line}:{column}: {said}"),
            format!("  {number} | {before}{after}"),
            format!("  {margin} | {under}^ {more}"),
        ];
        let lines = lines.iter().map(|line| format!("{}\n", line.trim_end()));
        lines.collect()
    }
}

/// Where the last line of a text starts.
fn line_start(text: &[u8]) -> usize {
    let feed = text.iter().rposition(|&byte| byte == b'\n');
    feed.map_or(0, |feed| feed + 1)
}

/// A line without anything that moves a terminal's cursor.
fn plain(line: &[u8]) -> String {
    let text = String::from_utf8_lossy(line);
    let visible = |c: char| if c.is_control() { ' ' } else { c };
    text.chars().map(visible).collect()
}

fn first(text: &str, count: usize) -> String {
    match text.char_indices().nth(count) {
        Some((at, _)) => format!("{}…", &text[..at]),
        None => text.to_owned(),
    }
}

fn last(text: &str, count: usize) -> String {
    match text.char_indices().nth_back(count) {
        Some((at, c)) => format!("…{}", &text[at + c.len_utf8()..]),
        None => text.to_owned(),
    }
}
