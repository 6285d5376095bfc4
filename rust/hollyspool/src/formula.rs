//! Formulas as trees.

/// The variable whose location is always nil's.
pub const NIL: u8 = 0;

/// A formula: atoms over variables (by number, 0 being nil), and connectives.
///
/// The variants stand in the order of the operators, 1 to 10. They print in the notation of the
/// logic, with brackets wherever one operator stands directly in another:
///
/// ```
/// use hollyspool::{Formula, NIL};
///
/// let queue = Formula::Differ(1, NIL).star(Formula::Points(1, 2).star(Formula::List(2, NIL)));
/// assert_eq!(queue.to_string(), "x1 ≠ nil * (x1 ↦ x2 * ls(x2, nil))");
/// ```
#[derive(Clone, Debug, PartialEq, Eq)]
pub enum Formula {
    /// 1, x = y: the same location, and the heap is empty.
    Equal(u8, u8),
    /// 2, x ≠ y: different locations, and the heap is empty.
    Differ(u8, u8),
    /// 3, x ↦ y: the heap is one cell, at x, and holds y's location.
    Points(u8, u8),
    /// 4, ls(x, y): the heap is a list from x to y.
    List(u8, u8),
    /// 5, a ∧ b: both hold.
    And(Box<Formula>, Box<Formula>),
    /// 6, a ∨ b: one of them holds.
    Or(Box<Formula>, Box<Formula>),
    /// 7, a ∧ ¬b: guarded negation.
    AndNot(Box<Formula>, Box<Formula>),
    /// 8, ¬a.
    Not(Box<Formula>),
    /// 9, a * b: the heap is two strongly disjoint parts, one for each.
    Star(Box<Formula>, Box<Formula>),
    /// 10, a −⊛ b: an added heap fits a, and together with the heap it fits b.
    Septraction(Box<Formula>, Box<Formula>),
}

impl Formula {
    /// a ∧ b.
    pub fn and(self, b: Formula) -> Formula {
        Formula::And(Box::new(self), Box::new(b))
    }

    /// a ∨ b.
    pub fn or(self, b: Formula) -> Formula {
        Formula::Or(Box::new(self), Box::new(b))
    }

    /// a ∧ ¬b, guarded negation.
    pub fn and_not(self, b: Formula) -> Formula {
        Formula::AndNot(Box::new(self), Box::new(b))
    }

    /// ¬a.
    pub fn negated(self) -> Formula {
        Formula::Not(Box::new(self))
    }

    /// a * b.
    pub fn star(self, b: Formula) -> Formula {
        Formula::Star(Box::new(self), Box::new(b))
    }

    /// a −⊛ b, with this formula for the added heap.
    pub fn septraction(self, b: Formula) -> Formula {
        Formula::Septraction(Box::new(self), Box::new(b))
    }

    /// The operator's number, 1 to 10.
    pub fn operator(&self) -> u8 {
        match self {
            Formula::Equal(..) => 1,
            Formula::Differ(..) => 2,
            Formula::Points(..) => 3,
            Formula::List(..) => 4,
            Formula::And(..) => 5,
            Formula::Or(..) => 6,
            Formula::AndNot(..) => 7,
            Formula::Not(..) => 8,
            Formula::Star(..) => 9,
            Formula::Septraction(..) => 10,
        }
    }

    /// How many nodes it has.
    ///
    /// ```
    /// use hollyspool::Formula;
    ///
    /// assert_eq!(Formula::Equal(0, 0).negated().nodes(), 2);
    /// ```
    pub fn nodes(&self) -> usize {
        match self {
            Formula::Equal(..) | Formula::Differ(..) | Formula::Points(..) | Formula::List(..) => 1,
            Formula::Not(a) => 1 + a.nodes(),
            Formula::And(a, b)
            | Formula::Or(a, b)
            | Formula::AndNot(a, b)
            | Formula::Star(a, b)
            | Formula::Septraction(a, b) => 1 + a.nodes() + b.nodes(),
        }
    }

    /// Whether an atom of it names the variable.
    ///
    /// ```
    /// use hollyspool::Formula;
    ///
    /// let formula = Formula::Points(1, 3).negated();
    /// assert!(formula.names(3));
    /// assert!(!formula.names(2));
    /// ```
    pub fn names(&self, variable: u8) -> bool {
        match self {
            Formula::Equal(x, y)
            | Formula::Differ(x, y)
            | Formula::Points(x, y)
            | Formula::List(x, y) => [*x, *y].contains(&variable),
            Formula::Not(a) => a.names(variable),
            Formula::And(a, b)
            | Formula::Or(a, b)
            | Formula::AndNot(a, b)
            | Formula::Star(a, b)
            | Formula::Septraction(a, b) => a.names(variable) || b.names(variable),
        }
    }

    /// Whether a sign stands between two formulas.
    pub(crate) fn joins(&self) -> bool {
        matches!(self.operator(), 5..=7 | 9 | 10)
    }
}
