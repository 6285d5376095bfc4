//! Formulas in readable notation, with names for their variables.

use std::fmt;

use crate::formula::{Formula, NIL};

impl Formula {
    /// The formula in readable notation, with these names for variables 1, 2, ..; a variable that
    /// has none is `x` and its number.
    ///
    /// ```
    /// use hollyspool::{Formula, NIL};
    ///
    /// let queue = Formula::Points(1, 2).star(Formula::List(2, NIL));
    /// assert_eq!(queue.to_string(), "x1 ↦ x2 * ls(x2, nil)");
    /// let names = ["head".to_owned(), "next".to_owned()];
    /// let named = queue.with_names(&names).to_string();
    /// assert_eq!(named, "head ↦ next * ls(next, nil)");
    /// ```
    pub fn with_names<'a>(&'a self, names: &'a [String]) -> impl fmt::Display + 'a {
        Named {
            formula: self,
            names,
        }
    }
}

impl fmt::Display for Formula {
    fn fmt(&self, f: &mut fmt::Formatter<'_>) -> fmt::Result {
        write!(f, "{}", self.with_names(&[]))
    }
}

/// A variable by its name.
pub(crate) struct Variable<'a>(pub u8, pub &'a [String]);

impl fmt::Display for Variable<'_> {
    fn fmt(&self, f: &mut fmt::Formatter<'_>) -> fmt::Result {
        let Variable(number, names) = *self;
        if number == NIL {
            return write!(f, "nil");
        }
        match names.get(usize::from(number) - 1) {
            Some(name) => write!(f, "{name}"),
            None => write!(f, "x{number}"),
        }
    }
}

/// A formula and the names of its variables.
#[derive(Clone, Copy)]
struct Named<'a> {
    formula: &'a Formula,
    names: &'a [String],
}

impl<'a> Named<'a> {
    fn inner(self, formula: &'a Formula) -> Named<'a> {
        Named { formula, ..self }
    }

    fn operand(self, formula: &'a Formula) -> Operand<'a> {
        Operand(self.inner(formula))
    }

    fn negated(self, formula: &'a Formula) -> Negated<'a> {
        Negated(self.inner(formula))
    }
}

impl fmt::Display for Named<'_> {
    fn fmt(&self, f: &mut fmt::Formatter<'_>) -> fmt::Result {
        let variable = |number: &u8| Variable(*number, self.names);
        match self.formula {
            Formula::Equal(x, y) => write!(f, "{} = {}", variable(x), variable(y)),
            Formula::Differ(x, y) => write!(f, "{} ≠ {}", variable(x), variable(y)),
            Formula::Points(x, y) => write!(f, "{} ↦ {}", variable(x), variable(y)),
            Formula::List(x, y) => write!(f, "ls({}, {})", variable(x), variable(y)),
            Formula::And(a, b) => {
                write!(f, "{} ∧ ", self.operand(a))?;
                // Without brackets it would read as operator 7.
                match **b {
                    Formula::Not(_) => write!(f, "({})", self.inner(b)),
                    _ => write!(f, "{}", self.operand(b)),
                }
            }
            Formula::Or(a, b) => write!(f, "{} ∨ {}", self.operand(a), self.operand(b)),
            Formula::AndNot(a, b) => write!(f, "{} ∧ ¬{}", self.operand(a), self.negated(b)),
            Formula::Not(a) => write!(f, "¬{}", self.negated(a)),
            Formula::Star(a, b) => write!(f, "{} * {}", self.operand(a), self.operand(b)),
            Formula::Septraction(a, b) => {
                write!(f, "{} −⊛ {}", self.operand(a), self.operand(b))
            }
        }
    }
}

/// A formula beside a sign: another sign in it needs brackets.
struct Operand<'a>(Named<'a>);

impl fmt::Display for Operand<'_> {
    fn fmt(&self, f: &mut fmt::Formatter<'_>) -> fmt::Result {
        if self.0.formula.joins() {
            write!(f, "({})", self.0)
        } else {
            write!(f, "{}", self.0)
        }
    }
}

/// A formula after `¬`: whatever does not begin with a word or another `¬` needs brackets.
struct Negated<'a>(Named<'a>);

impl fmt::Display for Negated<'_> {
    fn fmt(&self, f: &mut fmt::Formatter<'_>) -> fmt::Result {
        match self.0.formula {
            Formula::List(..) | Formula::Not(_) => write!(f, "{}", self.0),
            _ => write!(f, "({})", self.0),
        }
    }
}
