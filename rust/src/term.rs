//! Terms, and their words.
use crate::refusal::{Cause, Refusal};
use std::cmp::Ordering;

const EMPTY: u16 = 0;
const WITH: u16 = 1;
const UNKNOWN: u16 = 1000;
const FUNCTOR: u16 = 2000;

/// A term. `==` compares how two terms are written; [`crate::equal`] tells whether two ground terms are equal as sets.
///
/// ```
/// use mensorique::Term;
///
/// let group = Term::set_with([Term::constant(0), Term::Unknown(1)], Term::Unknown(2));
/// assert_eq!(group.to_string(), "{f0,x1|x2}");
/// ```
#[derive(Clone, Debug, PartialEq, Eq, Hash)]
pub enum Term {
    /// Unknown i, written `x3`.
    Unknown(u16),
    /// The empty set, `{}`.
    Empty,
    /// A functor and its arguments, `f2(x0,f1)`; without arguments, `f1`.
    Functor(u16, Vec<Term>),
    /// Members added to a tail, `{t,t|s}`.
    Set(Vec<Term>, Box<Term>),
}

/// What a term is made of, in prefix order: after member adding come the member and the rest, after a functor its arguments.
#[derive(Clone, Copy, Debug, PartialEq, Eq)]
pub(crate) enum Symbol {
    Empty,
    With,
    Unknown(u16),
    Functor(u16, usize),
}

impl Symbol {
    /// How many terms come after it.
    fn terms(self) -> usize {
        match self {
            Symbol::With => 2,
            Symbol::Functor(_, arguments) => arguments,
            _ => 0,
        }
    }

    /// Its word, where there is one.
    pub(crate) fn word(self) -> Option<u16> {
        match self {
            Symbol::Empty => Some(EMPTY),
            Symbol::With => Some(WITH),
            Symbol::Unknown(i) if i < FUNCTOR - UNKNOWN => Some(UNKNOWN + i),
            Symbol::Unknown(_) => None,
            Symbol::Functor(k, _) => FUNCTOR.checked_add(k),
        }
    }

    /// The symbol of a word that is known to be one.
    fn of_word(word: u16, arities: &[u8]) -> Symbol {
        match word {
            EMPTY => Symbol::Empty,
            WITH => Symbol::With,
            UNKNOWN..FUNCTOR => Symbol::Unknown(word - UNKNOWN),
            _ => {
                let functor = word - FUNCTOR;
                Symbol::Functor(functor, arities[usize::from(functor)].into())
            }
        }
    }
}

/// Goes through a term's symbols without recursion.
pub(crate) struct Symbols<'a> {
    /// What is still to be gone through, the last first, and whether it is a member.
    due: Vec<(&'a Term, bool)>,
}

impl<'a> Symbols<'a> {
    /// Puts a term next in line.
    pub(crate) fn put(&mut self, term: &'a Term) {
        self.due.push((term, false));
    }
}

impl Iterator for Symbols<'_> {
    type Item = Symbol;

    fn next(&mut self) -> Option<Symbol> {
        loop {
            let (term, is_member) = self.due.pop()?;
            if is_member {
                self.due.push((term, false));
                return Some(Symbol::With);
            }
            match term {
                Term::Unknown(i) => return Some(Symbol::Unknown(*i)),
                Term::Empty => return Some(Symbol::Empty),
                Term::Functor(k, arguments) => {
                    let all = arguments.iter().rev();
                    self.due.extend(all.map(|argument| (argument, false)));
                    return Some(Symbol::Functor(*k, arguments.len()));
                }
                Term::Set(members, tail) => {
                    self.put(tail);
                    let all = members.iter().rev();
                    self.due.extend(all.map(|member| (member, true)));
                }
            }
        }
    }
}

impl Term {
    /// A functor without arguments.
    pub fn constant(functor: u16) -> Term {
        Term::Functor(functor, Vec::new())
    }

    /// The set of these members, `{t,t}`.
    pub fn set(members: impl IntoIterator<Item = Term>) -> Term {
        Term::set_with(members, Term::Empty)
    }

    /// These members added to a tail, `{t,t|s}`. Where the tail is itself a set with members, they come after these.
    pub fn set_with(members: impl IntoIterator<Item = Term>, tail: Term) -> Term {
        let mut members: Vec<Term> = members.into_iter().collect();
        match tail {
            Term::Set(more, tail) => {
                members.extend(more);
                Term::Set(members, tail)
            }
            tail if members.is_empty() => tail,
            tail => Term::Set(members, Box::new(tail)),
        }
    }

    pub(crate) fn symbols(&self) -> Symbols<'_> {
        Symbols {
            due: vec![(self, false)],
        }
    }

    /// Appends the term's words. Each name must be declared, and each functor must have as many arguments as its arity: words that break this could
    /// form other terms, so no entry could tell.
    pub(crate) fn append(
        &self,
        unknowns: usize,
        arities: &[u8],
        words: &mut Vec<u16>,
    ) -> Result<(), Refusal> {
        for symbol in self.symbols() {
            let refused = |cause| Refusal::new(cause, words.len());
            let declared = match symbol {
                Symbol::Unknown(i) => usize::from(i) < unknowns,
                Symbol::Functor(k, arguments) => match arities.get(usize::from(k)) {
                    Some(&arity) if usize::from(arity) != arguments => {
                        return Err(refused(Cause::Arguments))
                    }
                    arity => arity.is_some(),
                },
                _ => true,
            };
            let word = symbol.word().filter(|_| declared);
            let word = word.ok_or_else(|| refused(Cause::Undeclared))?;
            words.push(word);
        }
        Ok(())
    }

    /// Takes the words of one term, which are known to form one, from the front.
    pub(crate) fn take(words: &mut &[u16], arities: &[u8]) -> Term {
        let symbol = |&word: &u16| Symbol::of_word(word, arities);
        let (mut at, mut due) = (0, 1);
        while due > 0 {
            due = due - 1 + symbol(&words[at]).terms();
            at += 1;
        }
        let (own, after) = words.split_at(at);
        *words = after;
        Term::made_of(own.iter().map(symbol))
    }

    /// The term that has these symbols, which are known to form one.
    pub(crate) fn made_of(symbols: impl DoubleEndedIterator<Item = Symbol>) -> Term {
        made(symbols, |_| ())
    }

    /// The same, with the members of every set put in order, and without those of a kind that stand side by side then.
    pub(crate) fn made_in_order(
        symbols: impl DoubleEndedIterator<Item = Symbol>,
        order: impl Fn(&Term, &Term) -> Ordering,
    ) -> Term {
        made(symbols, |members| {
            members.sort_by(&order);
            members.dedup();
        })
    }
}

/// The term that has these symbols; `settle` has each set's members before the set is taken as a whole.
fn made(symbols: impl DoubleEndedIterator<Item = Symbol>, settle: impl Fn(&mut Vec<Term>)) -> Term {
    // From the right, the terms after a symbol lie ready, a set's members with the last first until it is taken as a whole.
    let mut ready: Vec<Term> = Vec::new();
    let whole = |ready: &mut Vec<Term>| {
        let mut term = ready.pop().expect("a term");
        if let Term::Set(members, _) = &mut term {
            members.reverse();
            settle(members);
        }
        term
    };
    for symbol in symbols.rev() {
        let term = match symbol {
            Symbol::Empty => Term::Empty,
            Symbol::Unknown(i) => Term::Unknown(i),
            Symbol::Functor(k, arguments) => {
                Term::Functor(k, (0..arguments).map(|_| whole(&mut ready)).collect())
            }
            Symbol::With => {
                let member = whole(&mut ready);
                match ready.pop().expect("a rest") {
                    Term::Set(mut members, tail) => {
                        members.push(member);
                        Term::Set(members, tail)
                    }
                    tail => Term::Set(vec![member], Box::new(tail)),
                }
            }
        };
        ready.push(term);
    }
    whole(&mut ready)
}
