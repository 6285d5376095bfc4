//! Whole SMT-LIB files, as cvc5, Astral and SL-COMP have them, brought down to one assertion body.
//!
//! **This is not proved.** What is proved begins at the body that it writes: the bench reads that
//! text, and nothing else of the file reaches it. The step is one of syntax, and its result is there
//! to be read: `hollyspool translate FILE` prints the body. The way back, [`whole_file`], is not proved
//! either.
//!
//! ```
//! let file = "\
//! (declare-sort Loc 0)
//! (declare-heap (Loc Loc))
//! (declare-const Head Loc)
//! (declare-const x Loc)
//! (assert (sep (pto Head x) (ls x nil)))   ; a queue
//! (assert (distinct Head x))
//! (check-sat)
//! ";
//! let body = smtlib::translate(file.as_bytes()).unwrap();
//! assert_eq!(body.text, "(and (sep (pto a x) (ls x sep.nil)) (distinct a x))\n");
//! assert_eq!(body.file_name("a"), "Head");
//! assert_eq!(body.file_name("x"), "x");
//! ```
//!
//! `=` and `distinct` hold on any heap, as in cvc5 and SL-COMP; where a file means them as document
//! 003 does, on the empty heap, it has to say `(and (= x y) sep.emp)`. A constant that is declared
//! and not used still names its location, as in Astral: the body gets `(= z z)` for it, which holds
//! on any heap. What is not known is refused at its byte, never left out.

#![deny(missing_docs)]

mod cells;
mod file;
mod formula;
mod names;
mod phrase;
mod script;
mod sexp;
mod written;

pub use file::whole_file;
pub use script::is_whole_file;

/// The body of a file's assertions.
#[derive(Clone, Debug, PartialEq, Eq)]
pub struct Body {
    /// The text, in lines.
    pub text: String,
    /// The names in the text that are not the file's, with the file's.
    pub renamed: Vec<(String, String)>,
}

impl Body {
    /// The file's name for a name of the text.
    pub fn file_name<'a>(&'a self, name: &'a str) -> &'a str {
        let renamed = self.renamed.iter().find(|(new, _)| new == name);
        renamed.map_or(name, |(_, old)| old)
    }
}

/// Something in a file that is not known here.
#[derive(Clone, Debug, PartialEq, Eq)]
pub struct Unknown {
    /// The byte where it begins.
    pub byte: usize,
    /// What it is, in words.
    pub what: String,
}

impl Unknown {
    fn at<T>(byte: usize, what: impl Into<String>) -> Result<T, Unknown> {
        Err(Unknown {
            byte,
            what: what.into(),
        })
    }
}

/// The body of a whole file.
pub fn translate(file: &[u8]) -> Result<Body, Unknown> {
    let script = script::Script::read(file)?;
    Ok(written::body(&script))
}
