//! The distinct groups of a list: terms with all values put in, equal by the laws once.
use crate::answers::List;
use crate::most;
use crate::refusal::{Cause, Culprit, Refusal, What};
use crate::term::{Symbol, Term};
use crate::words;
use std::cmp::Ordering;
use std::collections::HashMap;

/// One group of a list: what the answers at some places of it make of the terms that [`List::groups`] was asked for.
///
/// Two answers are put into one group only where the archive's own test finds each of their terms equal. That test is for ground terms, so unknowns that
/// have no value are held as constants: each is replaced by a functor without arguments of its own, declared after the question's. Every path
/// of a search numbers its new unknowns for itself; here they are numbered anew from the question's count up, in the order in which they stand in the terms
/// as written below. Groups that could be made the same only by yet other numbers stay two.
#[derive(Clone, Debug, PartialEq, Eq)]
pub struct Group {
    /// The terms, in one writing: members without repeats, those that begin with a functor first, in the order of their numbers, then sets, then unknowns.
    pub terms: Vec<Term>,
    /// Which answers of the list make this group, counted from 0.
    pub listed: Vec<usize>,
}

/// The terms of one answer in symbols, with all values put in.
type Filled = Vec<Vec<Symbol>>;

pub(crate) fn distinct(list: List<'_>, terms: &[Term]) -> Result<Vec<Group>, Refusal> {
    let mut groups: Vec<Group> = Vec::new();
    let mut firsts: Vec<Filled> = Vec::new();
    // Groups by their writing: the test is made only between terms that are written alike then.
    let mut written: HashMap<Vec<u16>, Vec<usize>> = HashMap::new();
    for (place, answer) in list.iter().enumerate() {
        let values = answer.values();
        let mut numbers = Numbers::new(list.unknowns);
        let mut filled = Filled::new();
        for term in terms {
            let mut symbols = values.put_in(term)?;
            comparable(&symbols)?;
            numbers.give(&mut symbols);
            filled.push(symbols);
        }
        let writing: Vec<Term> = filled.iter().map(|symbols| tidy(symbols)).collect();
        let symbols = writing.iter().flat_map(Term::symbols);
        let alike = written
            .entry(symbols.filter_map(Symbol::word).collect())
            .or_default();
        let mut own = None;
        for &group in alike.iter() {
            if all_equal(list.arities, &firsts[group], &filled)? {
                own = Some(group);
                break;
            }
        }
        if let Some(group) = own {
            groups[group].listed.push(place);
            continue;
        }
        alike.push(groups.len());
        let tidied: Filled = writing.iter().map(|t| t.symbols().collect()).collect();
        groups.push(Group {
            // The writing is shown where the archive says that it means the same.
            terms: match all_equal(list.arities, &tidied, &filled)? {
                true => writing,
                false => filled
                    .iter()
                    .map(|s| Term::made_of(s.iter().copied()))
                    .collect(),
            },
            listed: vec![place],
        });
        firsts.push(filled);
    }
    Ok(groups)
}

/// Two terms are compared in one row, so each may have half of its words.
fn comparable(symbols: &[Symbol]) -> Result<(), Refusal> {
    let both = symbols.len() + symbols.len();
    if both <= most::WORDS {
        return Ok(());
    }
    Err(Refusal {
        culprit: Some(Culprit::new(What::Words, both)),
        ..Refusal::new(Cause::Limit, most::WORDS)
    })
}

/// Are two terms equal by the laws, with these arities, where unknowns are held as constants? Each unknown is replaced by a functor without arguments of its
/// own, declared after the others, and [`words::equal`] compares what is then ground. So unknowns and functors together may be as many as functors may be.
///
/// ```
/// use mensorique::{equal_held, Term};
///
/// let (a, x) = (Term::constant(0), Term::Unknown(3));
/// let once = Term::set_with([a.clone()], x.clone());
/// let twice = Term::set_with([a.clone(), a.clone()], x.clone());
/// assert!(equal_held(&[0], &once, &twice)?);
/// assert!(!equal_held(&[0], &once, &Term::set([a, x]))?);
/// # Ok::<(), mensorique::Refusal>(())
/// ```
pub fn equal_held(arities: &[u8], left: &Term, right: &Term) -> Result<bool, Refusal> {
    let mut row = Vec::new();
    left.append(usize::MAX, arities, &mut row)?;
    right.append(usize::MAX, arities, &mut row)?;
    let [left, right] = [left, right].map(|term| term.symbols().collect::<Vec<_>>());
    symbols_equal(arities, &left, &right)
}

fn all_equal(arities: &[u8], left: &Filled, right: &Filled) -> Result<bool, Refusal> {
    for (left, right) in left.iter().zip(right) {
        if left != right && !symbols_equal(arities, left, right)? {
            return Ok(false);
        }
    }
    Ok(true)
}

fn symbols_equal(arities: &[u8], left: &[Symbol], right: &[Symbol]) -> Result<bool, Refusal> {
    let mut held = Vec::new();
    let word = |symbol: &Symbol| {
        let ground = match *symbol {
            Symbol::Unknown(i) => {
                let known = held.iter().position(|&unknown| unknown == i);
                let constant = arities.len() + known.unwrap_or(held.len());
                if known.is_none() {
                    held.push(i);
                }
                Symbol::Functor(u16::try_from(constant).unwrap_or(u16::MAX), 0)
            }
            symbol => symbol,
        };
        // Where the numbers run out, the functors are above their limit, which is told before any word.
        ground.word().unwrap_or(u16::MAX)
    };
    let row: Vec<u16> = left.iter().chain(right).map(word).collect();
    let mut declared = arities.to_vec();
    declared.resize(arities.len() + held.len(), 0);
    words::equal(&declared, &row)
}

/// The term of these symbols with its members in order and without repeats.
fn tidy(symbols: &[Symbol]) -> Term {
    Term::made_in_order(symbols.iter().copied(), |a, b| order(a, b, &|i| i))
}

/// Functor terms come first, then sets, then unknowns, in the order of what `rank` makes of their numbers.
fn order(a: &Term, b: &Term, rank: &dyn Fn(u16) -> u16) -> Ordering {
    let all = |a: &[Term], b: &[Term]| {
        for (a, b) in a.iter().zip(b) {
            let first = order(a, b, rank);
            if first.is_ne() {
                return first;
            }
        }
        a.len().cmp(&b.len())
    };
    match (a, b) {
        (Term::Functor(j, some), Term::Functor(k, others)) => {
            j.cmp(k).then_with(|| all(some, others))
        }
        (Term::Functor(..), _) => Ordering::Less,
        (_, Term::Functor(..)) => Ordering::Greater,
        (Term::Empty, Term::Empty) => Ordering::Equal,
        (Term::Empty, _) => Ordering::Less,
        (_, Term::Empty) => Ordering::Greater,
        (Term::Set(some, tail), Term::Set(others, other)) => {
            all(some, others).then_with(|| order(tail, other, rank))
        }
        (Term::Set(..), _) => Ordering::Less,
        (_, Term::Set(..)) => Ordering::Greater,
        (Term::Unknown(i), Term::Unknown(j)) => rank(*i).cmp(&rank(*j)),
    }
}

/// Numbers for the new unknowns of one answer, from the question's count up.
struct Numbers {
    first: usize,
    /// The new unknowns that have a number, in order.
    given: Vec<u16>,
}

impl Numbers {
    fn new(first: usize) -> Numbers {
        Numbers {
            first,
            given: Vec::new(),
        }
    }

    fn of(&self, i: u16) -> Option<u16> {
        if usize::from(i) < self.first {
            return Some(i);
        }
        let at = self.given.iter().position(|&given| given == i)?;
        u16::try_from(self.first + at).ok()
    }

    /// Gives the new unknowns of a term their numbers, in the order in which they stand when all that have none yet count as the same.
    fn give(&mut self, symbols: &mut [Symbol]) {
        let mut without = self.without(symbols.iter().copied());
        if without.len() > 1 {
            let rank = |i| self.of(i).unwrap_or(u16::MAX);
            let term = Term::made_in_order(symbols.iter().copied(), |a, b| order(a, b, &rank));
            without = self.without(term.symbols());
        }
        self.given.extend(without);
        for symbol in symbols {
            if let Symbol::Unknown(i) = symbol {
                *i = self.of(*i).unwrap_or(*i);
            }
        }
    }

    /// The unknowns that have no number yet, as they stand.
    fn without(&self, symbols: impl Iterator<Item = Symbol>) -> Vec<u16> {
        let mut without = Vec::new();
        for symbol in symbols {
            if let Symbol::Unknown(i) = symbol {
                if self.of(i).is_none() && !without.contains(&i) {
                    without.push(i);
                }
            }
        }
        without
    }
}
