//! Texts of formulas: random ones, with blanks where they may stand.

use crate::random::Random;

/// The words over two formulas.
const JOINS: [&str; 4] = ["and", "or", "sep", "wand"];

/// The words over two terms.
const ATOMS: [&str; 4] = ["=", "distinct", "pto", "ls"];

/// Names: plain ones, and those that begin like a word or are as long as may be.
const NAMES: [&str; 12] = [
    "x", "y", "z", "ands", "sepx", "distinc", "a2345678", "l", "lsx", "eq", "o0", "nil",
];

/// What a random text is made of.
#[derive(Clone, Copy, Debug)]
pub struct Shape {
    /// About how many items there are.
    pub items: usize,
    /// How deep a list may stand.
    pub depth: usize,
    /// How many names there are to choose from, at most twelve.
    pub names: usize,
}

/// The brackets and words of a random formula.
pub fn tokens(random: &mut Random, shape: Shape) -> Vec<&'static str> {
    let mut tokens = Vec::new();
    formula(random, shape, &mut tokens);
    tokens
}

fn formula(random: &mut Random, shape: Shape, tokens: &mut Vec<&'static str>) {
    if shape.depth == 0 || (shape.items <= 1 && random.below(4) == 0) {
        tokens.push("sep.emp");
        return;
    }
    let inner = |items: usize| Shape {
        items,
        depth: shape.depth - 1,
        ..shape
    };
    tokens.push("(");
    if shape.items <= 1 {
        let term = |random: &mut Random| match random.below(6) {
            0 => "sep.nil",
            _ => NAMES[random.below(shape.names)],
        };
        tokens.extend([random.one_of(&ATOMS), term(random), term(random)]);
    } else if random.below(4) == 0 {
        tokens.push("not");
        formula(random, inner(shape.items - 1), tokens);
    } else {
        let first = 1 + random.below(shape.items - 1);
        tokens.push(random.one_of(&JOINS));
        formula(random, inner(first), tokens);
        formula(random, inner(shape.items - first), tokens);
    }
    tokens.push(")");
}

/// The tokens in a text: a blank where one is needed, and up to `more` of them anywhere.
pub fn text(random: &mut Random, tokens: &[&str], more: usize) -> Vec<u8> {
    let mut text = Vec::new();
    let mut before = "(";
    for &token in tokens.iter().chain(&[")"]) {
        let needed = usize::from(!is_bracket(before) && !is_bracket(token));
        let blanks = needed + random.below(more + 1);
        text.extend((0..blanks).map(|_| random.one_of(b"   \n")));
        text.extend_from_slice(token.as_bytes());
        before = token;
    }
    // The bracket at the end is there for the blanks before it.
    text.pop();
    text
}

fn is_bracket(token: &str) -> bool {
    matches!(token, "(" | ")")
}
