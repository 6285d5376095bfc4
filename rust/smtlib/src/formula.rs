//! Formulas and terms of a file.

use crate::cells::{is_empty_heap, is_nil_of_a_sort};
use crate::phrase::{Atom, Join, Phrase, Term, MOST_ITEMS};
use crate::script::Script;
use crate::sexp::{shown, Kind, Sexp};
use crate::Unknown;

/// The most terms of one relation.
const MOST_TERMS: usize = 40;

/// The words that have a meaning of their own, besides the names of the list segment.
pub const WORDS: [&str; 20] = [
    "and",
    "or",
    "sep",
    "not",
    "wand",
    "septraction",
    "=>",
    "xor",
    "ite",
    "=",
    "distinct",
    "pto",
    "let",
    "!",
    "true",
    "false",
    "emp",
    "sep.emp",
    "nil",
    "sep.nil",
];

/// What a name stands for.
#[derive(Clone, Debug)]
pub enum Bound {
    Term(Term),
    Formula(Phrase),
}

/// A reader of formulas where these names are bound, the last first.
pub struct Reader<'a> {
    pub script: &'a Script,
    pub scope: Vec<(String, Bound)>,
}

impl Reader<'_> {
    pub fn formula(&mut self, sexp: &Sexp) -> Result<Phrase, Unknown> {
        let phrase = self.any_formula(sexp)?;
        if phrase.items() > MOST_ITEMS {
            let what = format!("a formula of more than {MOST_ITEMS} items when it is written out");
            return Unknown::at(sexp.at, what);
        }
        Ok(phrase)
    }

    fn any_formula(&mut self, sexp: &Sexp) -> Result<Phrase, Unknown> {
        match &sexp.kind {
            Kind::Symbol(symbol) => self.named_formula(sexp, symbol),
            Kind::List(_) if is_empty_heap(sexp) => Ok(Phrase::empty()),
            Kind::List(items) => match items.split_first() {
                Some((head, operands)) if head.symbol().is_some() => {
                    self.list(sexp, head, operands)
                }
                _ => Unknown::at(sexp.at, "a list that begins with no word"),
            },
            Kind::Other(word) => Unknown::at(sexp.at, format!("{word} where a formula must stand")),
        }
    }

    fn named_formula(&mut self, sexp: &Sexp, symbol: &str) -> Result<Phrase, Unknown> {
        if let Some(Bound::Formula(phrase)) = self.bound(symbol) {
            return Ok(phrase.clone());
        }
        if self.term(sexp).is_ok() {
            let what = format!("{}, a location, where a formula must stand", shown(symbol));
            return Unknown::at(sexp.at, what);
        }
        match symbol {
            "true" => Ok(Phrase::always()),
            "false" => Ok(Phrase::never()),
            _ if is_empty_heap(sexp) => Ok(Phrase::empty()),
            _ => self.expanded(sexp, symbol, &[]),
        }
    }

    fn bound(&self, name: &str) -> Option<&Bound> {
        let mut innermost = self.scope.iter().rev();
        let (_, bound) = innermost.find(|(bound, _)| bound == name)?;
        Some(bound)
    }

    fn list(&mut self, sexp: &Sexp, head: &Sexp, rest: &[Sexp]) -> Result<Phrase, Unknown> {
        let word = head.symbol().unwrap_or_default();
        match word {
            "and" => self.join(sexp, Join::And, rest),
            "or" => self.join(sexp, Join::Or, rest),
            "sep" => self.join(sexp, Join::Sep, rest),
            "not" => Ok(self.exactly(sexp, rest, 1)?.remove(0).negated()),
            "wand" => self.pair(sexp, rest, Phrase::wand),
            "septraction" => self.pair(sexp, rest, |a, b| a.wand(b.negated()).negated()),
            "=>" => self.implication(sexp, rest),
            "xor" => self.exclusive(sexp, rest),
            "ite" => {
                let mut all = self.exactly(sexp, rest, 3)?;
                let [c, b, a] = [(); 3].map(|()| all.pop().expect("three formulas"));
                Ok(Phrase::choice(a, b, c))
            }
            "=" => self.relation(sexp, Atom::Equal, rest),
            "distinct" => self.relation(sexp, Atom::Distinct, rest),
            "pto" => self.points(sexp, rest),
            "let" => self.bindings(sexp, rest),
            // (! FORMULA :named NAME ..)
            "!" if !rest.is_empty() => self.formula(&rest[0]),
            _ if self.script.lists.iter().any(|list| list == word) => match rest {
                [x, y] => Ok(Phrase::atom(Atom::List, self.term(x)?, self.term(y)?)),
                _ => Unknown::at(sexp.at, format!("{word} over other than two locations")),
            },
            _ => self.expanded(head, word, rest),
        }
    }

    fn formulas(&mut self, sexps: &[Sexp]) -> Result<Vec<Phrase>, Unknown> {
        sexps.iter().map(|sexp| self.formula(sexp)).collect()
    }

    fn exactly(&mut self, at: &Sexp, rest: &[Sexp], count: usize) -> Result<Vec<Phrase>, Unknown> {
        if rest.len() != count {
            let what = format!("{} formulas here, where {count} must stand", rest.len());
            return Unknown::at(at.at, what);
        }
        self.formulas(rest)
    }

    fn some(&mut self, at: &Sexp, rest: &[Sexp]) -> Result<Vec<Phrase>, Unknown> {
        match rest {
            [] => Unknown::at(at.at, "a connective over nothing"),
            _ => self.formulas(rest),
        }
    }

    fn join(&mut self, at: &Sexp, join: Join, rest: &[Sexp]) -> Result<Phrase, Unknown> {
        Ok(Phrase::join(join, self.some(at, rest)?))
    }

    fn pair(
        &mut self,
        at: &Sexp,
        rest: &[Sexp],
        make: impl Fn(Phrase, Phrase) -> Phrase,
    ) -> Result<Phrase, Unknown> {
        let mut two = self.exactly(at, rest, 2)?;
        let b = two.pop().expect("two formulas");
        Ok(make(two.remove(0), b))
    }

    /// From the right: A => (B => C).
    fn implication(&mut self, at: &Sexp, rest: &[Sexp]) -> Result<Phrase, Unknown> {
        let all = self.some(at, rest)?.into_iter().rev();
        let implied = all.reduce(|implied, condition| condition.negated().or(implied));
        Ok(implied.expect("one or more"))
    }

    /// From the left: (A xor B) xor C.
    fn exclusive(&mut self, at: &Sexp, rest: &[Sexp]) -> Result<Phrase, Unknown> {
        let mut all = self.some(at, rest)?.into_iter();
        let first = all.next().expect("one or more");
        all.try_fold(first, |so_far, one| {
            let other = one.clone().negated();
            let phrase = Phrase::choice(so_far, other, one);
            match phrase.items() > MOST_ITEMS {
                true => Unknown::at(at.at, "an xor of too many formulas"),
                false => Ok(phrase),
            }
        })
    }

    /// Two or more terms: each equal to the next, or each distinct from every other.
    fn relation(&mut self, at: &Sexp, atom: Atom, rest: &[Sexp]) -> Result<Phrase, Unknown> {
        let terms: Vec<Term> = rest
            .iter()
            .map(|sexp| self.term(sexp))
            .collect::<Result<_, _>>()?;
        if terms.len() < 2 || terms.len() > MOST_TERMS {
            let what = format!("{} over {} locations", atom.word(), terms.len());
            return Unknown::at(at.at, what);
        }
        let last = |first: usize| match atom {
            Atom::Equal => first + 2,
            _ => terms.len(),
        };
        let pairs = (0..terms.len() - 1)
            .flat_map(|first| (first + 1..last(first)).map(move |second| (first, second)));
        let atoms = pairs.map(|(a, b)| Phrase::atom(atom, terms[a], terms[b]));
        Ok(Phrase::join(Join::And, atoms.collect()))
    }

    /// `(pto x y)`, or `(pto x (CONSTRUCTOR y))` where cells have a type.
    fn points(&mut self, at: &Sexp, rest: &[Sexp]) -> Result<Phrase, Unknown> {
        let [source, value] = rest else {
            return Unknown::at(at.at, "pto over other than a location and a value");
        };
        let cell = self.script.cell.as_ref();
        let value = match (cell, value.list()) {
            (Some(cell), Some([constructor, field])) if constructor.is(&cell.constructor) => field,
            (Some(_), None) => {
                return Unknown::at(value.at, "a value without the constructor of its cell");
            }
            _ => value,
        };
        Ok(Phrase::atom(
            Atom::Points,
            self.term(source)?,
            self.term(value)?,
        ))
    }

    /// `(let ((NAME VALUE) ..) FORMULA)`: values are read before any of the names is bound.
    fn bindings(&mut self, at: &Sexp, rest: &[Sexp]) -> Result<Phrase, Unknown> {
        let [bindings, body] = rest else {
            return Unknown::at(at.at, "a let of other than bindings and a formula");
        };
        let mut bound = Vec::new();
        for binding in bindings.list().unwrap_or_default() {
            match binding.list() {
                Some([name, value]) if name.symbol().is_some() => {
                    let name = name.symbol().unwrap_or_default();
                    bound.push((name.to_owned(), self.value(value)?));
                }
                _ => return Unknown::at(binding.at, "a binding of other than a name and a value"),
            }
        }
        let outside = self.scope.len();
        self.scope.extend(bound);
        let phrase = self.formula(body);
        self.scope.truncate(outside);
        phrase
    }

    /// A term if it is one, else a formula.
    fn value(&mut self, sexp: &Sexp) -> Result<Bound, Unknown> {
        match self.term(sexp) {
            Ok(term) => Ok(Bound::Term(term)),
            Err(_) => Ok(Bound::Formula(self.formula(sexp)?)),
        }
    }

    fn term(&mut self, sexp: &Sexp) -> Result<Term, Unknown> {
        let Some(symbol) = sexp.symbol() else {
            return match is_nil_of_a_sort(sexp) {
                true => Ok(Term::Nil),
                false => Unknown::at(sexp.at, "something other than a constant or nil"),
            };
        };
        match self.bound(symbol) {
            Some(Bound::Term(term)) => return Ok(*term),
            Some(Bound::Formula(_)) => {
                let what = format!("{}, a formula, where a location must stand", shown(symbol));
                return Unknown::at(sexp.at, what);
            }
            None => {}
        }
        let mut constants = self.script.constants.iter();
        match constants.position(|constant| constant == symbol) {
            Some(number) => Ok(Term::Constant(number)),
            None if symbol == "nil" || symbol == "sep.nil" => Ok(Term::Nil),
            None => Unknown::at(sexp.at, format!("{}, which is not declared", shown(symbol))),
        }
    }

    /// A definition with its parameters put in.
    fn expanded(&mut self, head: &Sexp, name: &str, rest: &[Sexp]) -> Result<Phrase, Unknown> {
        let mut definitions = self.script.definitions.iter();
        let Some(definition) = definitions.find(|one| one.name == name) else {
            return Unknown::at(head.at, format!("{}, which is not known here", shown(name)));
        };
        let parameters = definition.parameters;
        if parameters != rest.len() {
            let what = format!("{name} over {} instead of {parameters}", rest.len());
            return Unknown::at(head.at, what);
        }
        let terms = rest.iter().map(|sexp| self.term(sexp));
        let terms: Vec<Term> = terms.collect::<Result<_, _>>()?;
        Ok(definition.phrase.with(&terms))
    }
}
