//! One JSON object, written field by field.

use std::fmt::Write;

/// An object that is being written.
pub struct Object(String);

impl Object {
    pub fn new() -> Object {
        Object("{".to_owned())
    }

    /// A field that is a number.
    pub fn number(self, name: &str, number: u64) -> Object {
        self.field(name, &number.to_string())
    }

    /// A field that is a text.
    pub fn text(self, name: &str, text: &str) -> Object {
        self.field(name, &quoted(text))
    }

    /// A field that is a list of numbers, `null` where there is none.
    pub fn numbers(self, name: &str, numbers: impl Iterator<Item = Option<u8>>) -> Object {
        let items: Vec<String> = numbers
            .map(|number| number.map_or("null".to_owned(), |number| number.to_string()))
            .collect();
        self.field(name, &format!("[{}]", items.join(",")))
    }

    /// A field that is a list of texts.
    pub fn texts(self, name: &str, texts: &[String]) -> Object {
        let items: Vec<String> = texts.iter().map(|text| quoted(text)).collect();
        self.field(name, &format!("[{}]", items.join(",")))
    }

    /// The object, on a line of its own.
    pub fn line(self) -> String {
        self.0 + "}\n"
    }

    fn field(mut self, name: &str, value: &str) -> Object {
        if self.0.len() > 1 {
            self.0.push(',');
        }
        self.0.push_str(&quoted(name));
        self.0.push(':');
        self.0.push_str(value);
        self
    }
}

fn quoted(text: &str) -> String {
    let mut quoted = "\"".to_owned();
    for character in text.chars() {
        match character {
            '"' | '\\' => quoted.extend(['\\', character]),
            '\n' => quoted.push_str("\\n"),
            control if control < ' ' => {
                write!(quoted, "\\u{:04x}", u32::from(control)).expect("a text takes all");
            }
            other => quoted.push(other),
        }
    }
    quoted + "\""
}
