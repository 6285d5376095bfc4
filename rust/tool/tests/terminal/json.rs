//! As much of JSON as the tool prints, read back.

use std::collections::BTreeMap;

#[derive(Clone, Debug, PartialEq)]
pub enum Json {
    Null,
    Number(u64),
    Text(String),
    List(Vec<Json>),
    Object(BTreeMap<String, Json>),
}

/// The one value that a text is. Anything else fails the test.
pub fn parse(text: &str) -> Json {
    let mut rest = text;
    let json = value(&mut rest);
    assert_eq!(rest, "\n", "after {text}");
    json
}

fn value(rest: &mut &str) -> Json {
    if let Some(after) = rest.strip_prefix("null") {
        *rest = after;
        return Json::Null;
    }
    match rest.chars().next() {
        Some('"') => Json::Text(text(rest)),
        Some('[') => {
            let mut items = Vec::new();
            separated(rest, '[', ']', |rest| items.push(value(rest)));
            Json::List(items)
        }
        Some('{') => {
            let mut fields = BTreeMap::new();
            separated(rest, '{', '}', |rest| {
                let name = text(rest);
                skip(rest, ':');
                assert!(fields.insert(name, value(rest)).is_none(), "a field twice");
            });
            Json::Object(fields)
        }
        _ => {
            let end = rest.find(|c: char| !c.is_ascii_digit()).expect("an end");
            let (digits, after) = rest.split_at(end);
            *rest = after;
            Json::Number(digits.parse().expect("a number"))
        }
    }
}

fn separated(rest: &mut &str, open: char, close: char, mut item: impl FnMut(&mut &str)) {
    skip(rest, open);
    while !rest.starts_with(close) {
        item(rest);
        if !rest.starts_with(close) {
            skip(rest, ',');
            assert!(!rest.starts_with(close), "a comma at the end");
        }
    }
    skip(rest, close);
}

fn text(rest: &mut &str) -> String {
    skip(rest, '"');
    let mut text = String::new();
    let mut characters = rest.char_indices();
    while let Some((at, character)) = characters.next() {
        match character {
            '"' => {
                *rest = &rest[at + 1..];
                return text;
            }
            '\\' => match characters.next() {
                Some((_, 'n')) => text.push('\n'),
                Some((_, plain @ ('"' | '\\'))) => text.push(plain),
                other => panic!("an escape that is never needed: {other:?}"),
            },
            control if control < ' ' => panic!("a control character in a text"),
            plain => text.push(plain),
        }
    }
    panic!("a text without an end");
}

fn skip(rest: &mut &str, sign: char) {
    *rest = rest
        .strip_prefix(sign)
        .unwrap_or_else(|| panic!("{sign} expected before {rest}"));
}
