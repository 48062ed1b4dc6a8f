//! One answer: its bindings, and terms with their values put in.
use crate::most;
use crate::refusal::{Cause, Culprit, Refusal, What};
use crate::term::{Symbol, Term};
use std::collections::HashMap;
use std::ops::Deref;

/// One binding of an answer.
#[derive(Clone, Debug, PartialEq, Eq)]
pub struct Binding {
    /// The unknown's number; new ones are numbered on from the question's.
    pub unknown: u16,
    /// It mentions no unknown that is bound in this or an earlier binding.
    pub value: Term,
}

/// A solved form: bindings in the order made, as a slice of them has it. An unknown that none binds may have any value.
#[derive(Clone, Debug, PartialEq, Eq)]
pub struct Answer {
    bindings: Vec<Binding>,
}

impl Answer {
    pub(crate) fn new(bindings: Vec<Binding>) -> Answer {
        Answer { bindings }
    }

    /// The value of an unknown as it is listed, if it has one: later bindings may bind unknowns in it.
    pub fn value(&self, unknown: u16) -> Option<&Term> {
        let binding = self.iter().find(|binding| binding.unknown == unknown);
        binding.map(|binding| &binding.value)
    }

    /// The term with all bindings put in: what is left of unknowns in it may have any value.
    ///
    /// Values may stand in values many times over, so that a short answer can mean a term that no memory holds. Therefore a term that has more than
    /// [`most::SIZE`] symbols then is refused, with [`Cause::Limit`].
    ///
    /// ```
    /// use mensorique::{Limits, Question, Term};
    ///
    /// // {f0,x0} = {x1,f1}
    /// let mut question = Question::new(2, [0, 0]);
    /// let left = Term::set([Term::constant(0), Term::Unknown(0)]);
    /// let right = Term::set([Term::Unknown(1), Term::constant(1)]);
    /// question.equate(&left, &right)?;
    /// let answers = question.run(Limits::default())?;
    /// let answer = answers.iter().next().unwrap();
    /// assert_eq!(answer.filled(&Term::Unknown(0))?, Term::constant(1));
    /// assert_eq!(answer.filled(&left)?, Term::set([Term::constant(0), Term::constant(1)]));
    /// # Ok::<(), mensorique::Refusal>(())
    /// ```
    pub fn filled(&self, term: &Term) -> Result<Term, Refusal> {
        let symbols = self.values().put_in(term)?;
        Ok(Term::made_of(symbols.into_iter()))
    }

    pub(crate) fn values(&self) -> Values<'_> {
        let values = self.iter().map(|binding| (binding.unknown, &binding.value));
        Values {
            of: values.collect(),
        }
    }
}

/// What each bound unknown stands for.
pub(crate) struct Values<'a> {
    of: HashMap<u16, &'a Term>,
}

impl Values<'_> {
    /// The symbols of a term with all values put in. No binding mentions what it or an earlier one binds, so this comes to an end.
    pub(crate) fn put_in(&self, term: &Term) -> Result<Vec<Symbol>, Refusal> {
        let mut filled = Vec::new();
        let mut due = term.symbols();
        while let Some(symbol) = due.next() {
            match symbol {
                Symbol::Unknown(i) if self.of.contains_key(&i) => due.put(self.of[&i]),
                _ if filled.len() == most::SIZE => {
                    return Err(Refusal {
                        culprit: Some(Culprit::new(What::Size, most::SIZE + 1)),
                        ..Refusal::new(Cause::Limit, most::SIZE)
                    })
                }
                symbol => filled.push(symbol),
            }
        }
        Ok(filled)
    }
}

impl Deref for Answer {
    type Target = [Binding];

    fn deref(&self) -> &[Binding] {
        &self.bindings
    }
}

impl IntoIterator for Answer {
    type Item = Binding;
    type IntoIter = std::vec::IntoIter<Binding>;

    fn into_iter(self) -> Self::IntoIter {
        self.bindings.into_iter()
    }
}

impl<'a> IntoIterator for &'a Answer {
    type Item = &'a Binding;
    type IntoIter = std::slice::Iter<'a, Binding>;

    fn into_iter(self) -> Self::IntoIter {
        self.bindings.iter()
    }
}
