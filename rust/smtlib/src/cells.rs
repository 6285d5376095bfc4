//! What SL-COMP's files say of cells before their formulas: the type of a cell with one field, and
//! the list segment as a recursive definition.

use crate::sexp::Sexp;

/// The operands of a list that begins with this word.
pub fn operands<'a>(sexp: &'a Sexp, word: &str) -> Option<&'a [Sexp]> {
    let (head, operands) = sexp.list()?.split_first()?;
    head.is(word).then_some(operands)
}

/// Whether it is the empty heap, in any spelling.
pub fn is_empty_heap(sexp: &Sexp) -> bool {
    let spelled = |sexp: &Sexp| sexp.is("sep.emp") || sexp.is("emp");
    match sexp.list() {
        None => spelled(sexp),
        // (sep.emp), and (_ emp Loc Cell)
        Some([word]) => spelled(word),
        Some([underscore, word, _, _]) => underscore.is("_") && spelled(word),
        _ => false,
    }
}

/// Whether it is nil with its sort, `(as nil Loc)`; the plain spellings are symbols.
pub fn is_nil_of_a_sort(sexp: &Sexp) -> bool {
    match operands(sexp, "as") {
        Some([word, _]) => word.is("nil") || word.is("sep.nil"),
        _ => false,
    }
}

/// A cell with one field.
#[derive(Clone, Debug)]
pub struct Cell {
    /// The datatype.
    pub sort: String,
    pub constructor: String,
    /// The sort of the field.
    pub field: Sexp,
}

/// The cell that `(declare-datatypes ((SORT 0)) (((CONSTRUCTOR (FIELD LOC)))))` declares.
pub fn cell(operands: &[Sexp]) -> Option<Cell> {
    let [sorts, types] = operands else {
        return None;
    };
    let [sort] = sorts.list()? else { return None };
    let [sort, _] = sort.list()? else { return None };
    let [constructors] = types.list()? else {
        return None;
    };
    one_constructor(sort, constructors)
}

/// The same for `(declare-datatype SORT ((CONSTRUCTOR (FIELD LOC))))`.
pub fn single_cell(operands: &[Sexp]) -> Option<Cell> {
    match operands {
        [sort, constructors] => one_constructor(sort, constructors),
        _ => None,
    }
}

fn one_constructor(sort: &Sexp, constructors: &Sexp) -> Option<Cell> {
    let [constructor] = constructors.list()? else {
        return None;
    };
    let [name, field] = constructor.list()? else {
        return None;
    };
    let [_, field] = field.list()? else {
        return None;
    };
    Some(Cell {
        sort: sort.symbol()?.to_owned(),
        constructor: name.symbol()?.to_owned(),
        field: field.clone(),
    })
}

/// The name that `(define-fun-rec NAME ((x LOC) (y LOC)) Bool BODY)` gives to the list segment:
/// empty where x and y are the same, else a cell at x and a segment from its value to y.
pub fn list_segment(operands: &[Sexp], cell: Option<&Cell>) -> Option<String> {
    let [name, parameters, _, body] = operands else {
        return None;
    };
    let [x, y] = parameters.list()? else {
        return None;
    };
    let segment = Segment {
        name: name.symbol()?,
        x: x.list()?.first()?.symbol()?,
        y: y.list()?.first()?.symbol()?,
        cell,
    };
    let cases = self::operands(body, "or")?;
    let whole = both(cases, |one| segment.ends(one), |one| segment.goes_on(one));
    whole.then(|| segment.name.to_owned())
}

struct Segment<'a> {
    name: &'a str,
    x: &'a str,
    y: &'a str,
    cell: Option<&'a Cell>,
}

impl Segment<'_> {
    /// `(and (= x y) emp)`.
    fn ends(&self, sexp: &Sexp) -> bool {
        let Some(parts) = operands(sexp, "and") else {
            return false;
        };
        both(parts, |one| self.relates(one, "="), is_empty_heap)
    }

    /// `(exists ((u Loc)) (and (distinct x y) (sep (pto x u) (NAME u y))))`.
    fn goes_on(&self, sexp: &Sexp) -> bool {
        let inner = || {
            let [bound, body] = operands(sexp, "exists")? else {
                return None;
            };
            let [variable] = bound.list()? else {
                return None;
            };
            let u = variable.list()?.first()?.symbol()?;
            let parts = operands(body, "and")?;
            Some(both(
                parts,
                |one| self.differs(one),
                |one| self.link(one, u),
            ))
        };
        inner().unwrap_or(false)
    }

    fn link(&self, sexp: &Sexp, u: &str) -> bool {
        let points = |one: &Sexp| match operands(one, "pto") {
            Some([source, value]) => source.is(self.x) && self.holds(value, u),
            _ => false,
        };
        let rest = |one: &Sexp| match operands(one, self.name) {
            Some([from, to]) => from.is(u) && to.is(self.y),
            _ => false,
        };
        operands(sexp, "sep").is_some_and(|parts| both(parts, points, rest))
    }

    /// Whether a cell's value is u, as a location or in the cell's constructor.
    fn holds(&self, value: &Sexp, u: &str) -> bool {
        match (self.cell, value.list()) {
            (Some(cell), Some([constructor, field])) => {
                constructor.is(&cell.constructor) && field.is(u)
            }
            (None, None) => value.is(u),
            _ => false,
        }
    }

    /// `(distinct x y)` or `(not (= x y))`.
    fn differs(&self, sexp: &Sexp) -> bool {
        match operands(sexp, "not") {
            Some([equation]) => self.relates(equation, "="),
            _ => self.relates(sexp, "distinct"),
        }
    }

    /// The word over x and y.
    fn relates(&self, sexp: &Sexp, word: &str) -> bool {
        operands(sexp, word).is_some_and(|terms| both(terms, |t| t.is(self.x), |t| t.is(self.y)))
    }
}

/// Whether there are two items, one this and the other that, in either order.
fn both(items: &[Sexp], this: impl Fn(&Sexp) -> bool, that: impl Fn(&Sexp) -> bool) -> bool {
    match items {
        [a, b] => (this(a) && that(b)) || (this(b) && that(a)),
        _ => false,
    }
}
