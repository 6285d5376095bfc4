//! The names in a text.

/// What is no name in a text that is accepted: the words of lists, and the two others.
const WORDS: [&str; 11] = [
    "and", "or", "sep", "wand", "not", "=", "distinct", "pto", "ls", "sep.emp", "sep.nil",
];

/// The names of a text that is accepted, each once, as they first appear: variable 1's is the first.
pub fn names(text: &[u8]) -> Vec<String> {
    let mut names: Vec<String> = Vec::new();
    for stretch in text.split(|byte| b" \n()".contains(byte)) {
        let word = String::from_utf8_lossy(stretch).into_owned();
        if !word.is_empty() && !WORDS.contains(&&*word) && !names.contains(&word) {
            names.push(word);
        }
    }
    names
}
