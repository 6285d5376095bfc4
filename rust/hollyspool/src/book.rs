//! Books: built from a formula, or accepted from bytes and read back.

use std::error::Error;
use std::fmt;

use crate::bounds::Bounds;
use crate::calls::{MOST_BOOK, MOST_TEXT};
use crate::formula::Formula;
use crate::names::names;
use crate::refusal::Refusal;

/// The most nodes that a formula in a book has.
pub const MOST_NODES: usize = 64;

/// The bytes before a formula: contents and bounds.
const HEAD: usize = 14;

/// A book that the reader accepts, with what stands in it.
#[derive(Clone, Debug, PartialEq, Eq)]
pub struct Book {
    bytes: Vec<u8>,
    bounds: Bounds,
    formula: Formula,
}

/// Why a formula and bounds make no book.
#[derive(Clone, Copy, Debug, PartialEq, Eq)]
pub enum Unwritable {
    /// One of v, n and p is over 8.
    Bound {
        /// The bound's name.
        name: char,
        /// Its value.
        value: u8,
    },
    /// The formula has more than 64 nodes.
    Nodes {
        /// How many it has.
        count: usize,
    },
    /// The formula mentions a variable over v.
    Variable {
        /// The first such variable.
        variable: u8,
        /// The number of variables.
        v: u8,
    },
}

impl Book {
    /// The book with these bounds and this formula. Nodes are numbered a's tree first, then b's,
    /// then their parent.
    ///
    /// ```
    /// use hollyspool::{Book, Formula};
    ///
    /// let book = Book::new(1, 1, 1, &Formula::Points(1, 1))?;
    /// assert_eq!(
    ///     book.bytes(),
    ///     [2, 1, 11, 0, 3, 0, 2, 14, 0, 3, 0, 1, 1, 1, 3, 1, 1]
    /// );
    /// let refused = Book::new(1, 1, 1, &Formula::Points(1, 2)).unwrap_err();
    /// assert_eq!(refused.to_string(), "the formula mentions x2, but v is 1");
    /// # Ok::<(), hollyspool::Unwritable>(())
    /// ```
    pub fn new(v: u8, n: u8, p: u8, formula: &Formula) -> Result<Book, Unwritable> {
        for (name, value) in [('v', v), ('n', n), ('p', p)] {
            if value > Bounds::MOST {
                return Err(Unwritable::Bound { name, value });
            }
        }
        let count = formula.nodes();
        if count > MOST_NODES {
            return Err(Unwritable::Nodes { count });
        }
        let mut nodes = Vec::with_capacity(count);
        write_nodes(formula, v, &mut nodes)?;
        let [low, high] = (3 * count as u16).to_le_bytes();
        let mut bytes = vec![2, 1, 11, 0, 3, 0, 2, 14, 0, low, high, v, n, p];
        bytes.extend_from_slice(nodes.as_flattened());
        Ok(Book {
            bytes,
            bounds: Bounds { v, n, p },
            formula: formula.clone(),
        })
    }

    /// The book behind the bytes, if the proved reader accepts them.
    ///
    /// ```
    /// use hollyspool::{Book, Refusal};
    ///
    /// let mut bytes = [2, 1, 11, 0, 3, 0, 2, 14, 0, 3, 0, 1, 1, 1, 3, 1, 1];
    /// let book = Book::accept(&bytes)?;
    /// assert_eq!(book.formula().to_string(), "x1 ↦ x1");
    ///
    /// bytes[14] = 11;
    /// assert_eq!(Book::accept(&bytes), Err(Refusal::Operator { node: 0 }));
    /// # Ok::<(), Refusal>(())
    /// ```
    pub fn accept(bytes: &[u8]) -> Result<Book, Refusal> {
        crate::read(bytes).settled()?;
        let bounds = match *crate::body(bytes, 0) {
            [v, n, p] => Bounds { v, n, p },
            _ => unreachable!("an accepted book has three bounds"),
        };
        let nodes = crate::body(bytes, 1).as_chunks().0;
        Ok(Book {
            bytes: bytes.to_vec(),
            bounds,
            formula: read_node(nodes, nodes.len() - 1),
        })
    }

    /// The book of the formula that a text means, over n locations and with path bound p, and the
    /// names of its variables, from variable 1's. The proved import reads the text and writes the
    /// book; the names are those that stand in the text, in their order.
    ///
    /// ```
    /// use hollyspool::{Book, Refusal};
    ///
    /// let (book, names) = Book::parse("(sep (pto head x) (ls x sep.nil))", 4, 4)?;
    /// assert_eq!(names, ["head", "x"]);
    /// assert_eq!(book.bounds().v, 2);
    /// let formula = book.formula().with_names(&names).to_string();
    /// assert_eq!(formula, "head ↦ x * ls(x, nil)");
    ///
    /// let refused = Book::parse("(ls x)", 4, 4);
    /// assert_eq!(refused, Err(Refusal::BadText { byte: 5 }));
    /// # Ok::<(), Refusal>(())
    /// ```
    pub fn parse(text: impl AsRef<[u8]>, n: u64, p: u64) -> Result<(Book, Vec<String>), Refusal> {
        let text = text.as_ref();
        let mut book = [0; MOST_BOOK];
        crate::import(text, n, p, &mut book).settled()?;
        let formula = usize::from(u16::from_le_bytes([book[9], book[10]]));
        let book = Book::accept(&book[..HEAD + formula])?;
        Ok((book, names(text)))
    }

    /// The text of its formula, as the proved export writes it: variables are `v1`, `v2`, .., and each
    /// equation or inequality stands beside `sep.emp`, since in a text it holds on any heap.
    ///
    /// Read back at the same n and p, where it is at most 16 deep and makes at most 64 nodes, the
    /// text holds on exactly the book's models once variables are matched by name, for a book
    /// without [stray](Book::stray) variables. A text numbers its names as they first appear, so
    /// the two may number them differently; and a stray variable does not stand in the text at all.
    ///
    /// An accepted book always has a text, and [`MOST_TEXT`] bytes are enough for each, so that this
    /// is never refused; the call it makes could be.
    ///
    /// ```
    /// use hollyspool::{judge, Book, Formula};
    ///
    /// let book = Book::new(2, 2, 2, &Formula::Differ(2, 1).star(Formula::Points(2, 1)))?;
    /// let text = book.text()?;
    /// assert_eq!(text, "(sep (and (distinct v2 v1) sep.emp) (pto v2 v1))");
    ///
    /// let (back, names) = Book::parse(&text, 2, 2)?;
    /// assert_eq!(names, ["v2", "v1"]);
    /// // Variable 2 is at location 1, variable 1 at location 2; cell 1 holds 2.
    /// assert_eq!(judge(book.bytes(), &[2, 1, 2, 255]).number, 0);
    /// assert_eq!(judge(back.bytes(), &[1, 2, 2, 255]).number, 0);
    /// # Ok::<(), Box<dyn std::error::Error>>(())
    /// ```
    pub fn text(&self) -> Result<String, Refusal> {
        let mut out = [0; MOST_TEXT];
        crate::export(&self.bytes, &mut out).settled()?;
        let text = out.split(|&byte| byte == 0).next().unwrap_or_default();
        Ok(text.iter().copied().map(char::from).collect())
    }

    /// Its bytes, as every call takes them.
    pub fn bytes(&self) -> &[u8] {
        &self.bytes
    }

    /// Its bounds.
    pub fn bounds(&self) -> Bounds {
        self.bounds
    }

    /// Its formula.
    pub fn formula(&self) -> &Formula {
        &self.formula
    }

    /// The declared variables that no atom names, upwards. Their locations are named all the same,
    /// so two parts may meet there, and the search refuses the book.
    ///
    /// ```
    /// use hollyspool::{search, Book, Formula, Refusal};
    ///
    /// let cell = Formula::Points(1, 1);
    /// let book = Book::new(2, 1, 1, &cell)?;
    /// assert_eq!(book.stray(), [2]);
    /// let refused = search(book.bytes(), 6, &mut [0; 3]).settled();
    /// assert_eq!(refused, Err(Refusal::StrayVariable { variable: 2 }));
    ///
    /// let named = Book::new(2, 1, 1, &cell.star(Formula::Equal(2, 2)))?;
    /// assert!(named.stray().is_empty());
    /// # Ok::<(), hollyspool::Unwritable>(())
    /// ```
    pub fn stray(&self) -> Vec<u8> {
        (1..=self.bounds.v)
            .filter(|&variable| !self.formula.names(variable))
            .collect()
    }
}

/// Appends a formula's nodes, its root last, and gives the root's number.
fn write_nodes(formula: &Formula, v: u8, nodes: &mut Vec<[u8; 3]>) -> Result<u8, Unwritable> {
    let [a, b] = match formula {
        Formula::Equal(x, y)
        | Formula::Differ(x, y)
        | Formula::Points(x, y)
        | Formula::List(x, y) => {
            if let Some(&variable) = [x, y].into_iter().find(|&&variable| variable > v) {
                return Err(Unwritable::Variable { variable, v });
            }
            [*x, *y]
        }
        Formula::Not(a) => [write_nodes(a, v, nodes)?, 0],
        Formula::And(a, b)
        | Formula::Or(a, b)
        | Formula::AndNot(a, b)
        | Formula::Star(a, b)
        | Formula::Septraction(a, b) => [write_nodes(a, v, nodes)?, write_nodes(b, v, nodes)?],
    };
    let root = nodes.len() as u8;
    nodes.push([formula.operator(), a, b]);
    Ok(root)
}

/// The formula that a node of an accepted book stands for.
fn read_node(nodes: &[[u8; 3]], node: usize) -> Formula {
    let [operator, a, b] = nodes[node];
    let child = |number: u8| Box::new(read_node(nodes, number.into()));
    match operator {
        1 => Formula::Equal(a, b),
        2 => Formula::Differ(a, b),
        3 => Formula::Points(a, b),
        4 => Formula::List(a, b),
        5 => Formula::And(child(a), child(b)),
        6 => Formula::Or(child(a), child(b)),
        7 => Formula::AndNot(child(a), child(b)),
        8 => Formula::Not(child(a)),
        9 => Formula::Star(child(a), child(b)),
        10 => Formula::Septraction(child(a), child(b)),
        _ => unreachable!("an accepted book has operators 1 to 10"),
    }
}

impl fmt::Display for Unwritable {
    fn fmt(&self, f: &mut fmt::Formatter<'_>) -> fmt::Result {
        match self {
            Unwritable::Bound { name, value } => {
                write!(f, "{name} is {value}, but a bound is 0 to {}", Bounds::MOST)
            }
            Unwritable::Nodes { count } => write!(
                f,
                "the formula has {count} nodes, but a book has at most {MOST_NODES}"
            ),
            Unwritable::Variable { variable, v } => {
                write!(f, "the formula mentions x{variable}, but v is {v}")
            }
        }
    }
}

impl Error for Unwritable {}
