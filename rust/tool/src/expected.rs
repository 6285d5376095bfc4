//! What may stand behind a beginning of a text, in words. It is the proved import that says so: it is
//! given the beginning with something behind it, and what it doesn't refuse there may stand there.

use hollyspool::{import, MOST_BOOK};

/// What is more than one byte and may stand in a text; what of it may stand here, the import says.
pub const WORDS: [&str; 11] = [
    "and", "or", "sep", "wand", "not", "=", "distinct", "pto", "ls", "sep.emp", "sep.nil",
];

/// How many lower-case letters go on where a name may stand. All but one do where the name would
/// become a word.
const MOST_LETTERS: usize = 25;

/// What may stand behind a beginning with which some well-formed text goes on.
pub fn after(before: &[u8]) -> String {
    let begun = begun(before);
    let mut list = here(before, begun);
    if !begun.is_empty() && goes_on(before, b" ") {
        let mut then = here(&[before, b" "].concat(), b"");
        then.retain(|word| !list.contains(word));
        match (&then[..], &list[..]) {
            ([], []) => list.extend(["a space", "a line feed"].map(str::to_owned)),
            ([], _) => {}
            _ => list.push(format!("a space and then {}", one_of(&then))),
        }
    }
    if goes_on(before, b"") {
        list.push("the end of the text".to_owned());
    }
    one_of(&list)
}

/// Whether the import refuses the text with 26 behind these bytes at the earliest: it is whole, or
/// goes on. The end of a text that is not whole is no byte of it, so nothing goes on with none.
fn goes_on(before: &[u8], more: &[u8]) -> bool {
    let text = [before, more].concat();
    let answer = import(&text, 0, 0, &mut [0; MOST_BOOK]);
    answer.number != 26 || (!more.is_empty() && answer.place as usize == text.len())
}

/// The word or name that a text ends with, as far as it goes.
pub fn begun(text: &[u8]) -> &[u8] {
    let edge = text.iter().rposition(|byte| b" \n()".contains(byte));
    &text[edge.map_or(0, |edge| edge + 1)..]
}

/// What may stand at once, without a blank before it.
fn here(before: &[u8], begun: &[u8]) -> Vec<String> {
    let taken: Vec<u8> = (0..=255).filter(|&byte| goes_on(before, &[byte])).collect();
    let mut told = b" \n".to_vec();
    let mut list = Vec::new();
    if taken
        .iter()
        .filter(|byte| byte.is_ascii_lowercase())
        .count()
        >= MOST_LETTERS
    {
        let goes_on = taken.iter().any(u8::is_ascii_digit);
        list.push(
            if goes_on {
                "more of the name"
            } else {
                "a name"
            }
            .to_owned(),
        );
        told.extend((b'a'..=b'z').chain(b'0'..=b'9'));
    }
    let words = words(before, begun);
    told.extend(words.iter().map(|word| word.as_bytes()[begun.len()]));
    let others = taken.iter().filter(|byte| !told.contains(byte));
    list.extend(others.map(|byte| format!("`{}`", byte.escape_ascii())));
    list.extend(words.iter().map(|word| format!("`{word}`")));
    list
}

/// The words that may stand, with what is begun of them: behind each a blank goes on.
fn words(before: &[u8], begun: &[u8]) -> Vec<&'static str> {
    let goes_on = |word: &&str| match word.as_bytes().strip_prefix(begun) {
        Some(rest) if !rest.is_empty() => goes_on(before, &[rest, b" "].concat()),
        _ => false,
    };
    WORDS.into_iter().filter(goes_on).collect()
}

/// `a, b or c`.
fn one_of(list: &[String]) -> String {
    match list {
        [] => String::new(),
        [one] => one.clone(),
        [first @ .., last] => format!("{} or {last}", first.join(", ")),
    }
}
