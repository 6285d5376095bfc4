//! Models: a stack and a heap, read from their bytes and shown.

use std::fmt;

use crate::bounds::Bounds;
use crate::notation::Variable;
use crate::refusal::Refusal;

/// What a cell's byte says where no cell is allocated.
const UNALLOCATED: u8 = 255;

/// A stack and a heap.
///
/// ```
/// use hollyspool::{Book, Formula, Model, NIL};
///
/// let queue = Formula::Points(1, 2).star(Formula::Points(2, NIL));
/// let book = Book::new(2, 3, 3, &queue)?;
/// let mut bytes = [0; 5];
/// let answer = hollyspool::search(book.bytes(), u64::MAX, &mut bytes);
/// assert_eq!(answer.number, 0);
///
/// let model = Model::read(book.bounds(), &bytes)?;
/// assert_eq!(model.to_string(), "x1=2 x2=1 ; 1→0, 2→1");
/// assert_eq!(model.bytes(), bytes);
/// # Ok::<(), Box<dyn std::error::Error>>(())
/// ```
#[derive(Clone, Debug, PartialEq, Eq)]
pub struct Model {
    /// The location of each variable, from variable 1.
    pub stack: Vec<u8>,
    /// The value at each location from 1, or none where it is not allocated.
    pub heap: Vec<Option<u8>>,
}

impl Model {
    /// The model behind the bytes: v locations, then n values or 255. Refused as the judge
    /// refuses it.
    pub fn read(bounds: Bounds, bytes: &[u8]) -> Result<Model, Refusal> {
        if bytes.len() != bounds.model_length() {
            return Err(Refusal::ModelLength);
        }
        let (stack, cells) = bytes.split_at(bounds.v.into());
        let out_of_range = |(at, &byte): (usize, &u8)| {
            byte > bounds.n && (at < stack.len() || byte != UNALLOCATED)
        };
        if let Some(byte) = bytes.iter().enumerate().position(out_of_range) {
            return Err(Refusal::ModelValue { byte: byte as u64 });
        }
        let cell = |&byte: &u8| (byte != UNALLOCATED).then_some(byte);
        Ok(Model {
            stack: stack.to_vec(),
            heap: cells.iter().map(cell).collect(),
        })
    }

    /// Its bytes, as the judge takes them.
    pub fn bytes(&self) -> Vec<u8> {
        let cells = self.heap.iter().map(|cell| cell.unwrap_or(UNALLOCATED));
        self.stack.iter().copied().chain(cells).collect()
    }

    /// The allocated locations with their values, upwards.
    pub fn cells(&self) -> impl Iterator<Item = (u8, u8)> + '_ {
        let cell = |(location, cell): (u8, &Option<u8>)| Some((location, (*cell)?));
        (1..).zip(&self.heap).filter_map(cell)
    }

    /// The model with these names for variables 1, 2, ..; a variable that has none is `x` and its
    /// number.
    ///
    /// ```
    /// use hollyspool::Model;
    ///
    /// let model = Model { stack: vec![2, 1], heap: vec![None, Some(1)] };
    /// assert_eq!(model.to_string(), "x1=2 x2=1 ; 2→1");
    /// let names = ["x".to_owned(), "tail".to_owned()];
    /// assert_eq!(model.with_names(&names).to_string(), "x=2 tail=1 ; 2→1");
    /// ```
    pub fn with_names<'a>(&'a self, names: &'a [String]) -> impl fmt::Display + 'a {
        Named { model: self, names }
    }
}

/// Stack ; cells. What is not there is left out: no variables, no cells.
impl fmt::Display for Model {
    fn fmt(&self, f: &mut fmt::Formatter<'_>) -> fmt::Result {
        write!(f, "{}", self.with_names(&[]))
    }
}

/// A model and the names of its variables.
struct Named<'a> {
    model: &'a Model,
    names: &'a [String],
}

impl fmt::Display for Named<'_> {
    fn fmt(&self, f: &mut fmt::Formatter<'_>) -> fmt::Result {
        for (variable, location) in (1..).zip(&self.model.stack) {
            write!(f, "{}={location} ", Variable(variable, self.names))?;
        }
        write!(f, ";")?;
        let mut before = " ";
        for (location, value) in self.model.cells() {
            write!(f, "{before}{location}→{value}")?;
            before = ", ";
        }
        Ok(())
    }
}
