//! Whether values fit an answer: its new unknowns must have values for which every binding holds.

use crate::equality::{Value, Values};
use crate::random::Maker;
use crate::search::Outcome;
use crate::terms::*;
use crate::words::check_answers;

/// The bindings of one answer, in order.
pub type Answer = Vec<(u16, Term)>;

/// The listed answers. No binding may mention an unknown bound in its own or an earlier line.
pub fn answers(question: &Question, outcome: &Outcome) -> Result<Vec<Answer>, String> {
    let lists = check_answers(&question.arities, outcome.answers, &outcome.words)
        .map_err(|r| format!("no answer list: {r:?}"))?;
    let mut answers = Vec::new();
    for lines in lists {
        let mut answer: Answer = Vec::new();
        for (unknown, start) in lines {
            let mut at = start;
            let term = Term::read(&outcome.words, &mut at, &question.arities);
            let twice = answer.iter().any(|(bound, _)| *bound == unknown);
            if twice || term.mentions(unknown) || answer.iter().any(|(b, _)| term.mentions(*b)) {
                return Err(format!(
                    "an unknown is bound twice or mentioned later: {answer:?}"
                ));
            }
            answer.push((unknown, term));
        }
        answers.push(answer);
    }
    Ok(answers)
}

/// Whether the values fit the answer. A new unknown first stands as the tail of a binding X = {..|N} whose X
/// has a value v: then N can only be v's kernel with some of v's members, so that trying these is exact.
pub fn fits(values: &mut Values, answer: &[(u16, Term)], given: &[usize]) -> Result<bool, String> {
    let mut given: Vec<Option<usize>> = given.iter().copied().map(Some).collect();
    given.resize(NAMES as usize, None);
    fits_from(values, answer, &mut given)
}

fn fits_from(
    values: &mut Values,
    answer: &[(u16, Term)],
    given: &mut Vec<Option<usize>>,
) -> Result<bool, String> {
    let Some(((unknown, term), rest)) = answer.split_first() else {
        return Ok(true);
    };
    let Some(value) = given[usize::from(*unknown)] else {
        return Err(format!("x{unknown} is bound before it stands anywhere"));
    };
    let mut found = Vec::new();
    mentioned(term, &mut found);
    found.retain(|&u| given[usize::from(u)].is_none());
    if found.is_empty() {
        let other = values.of(term, &|u| given[usize::from(u)].unwrap_or(0));
        return Ok(value == other && fits_from(values, rest, given)?);
    }
    let tail = term.strip().1.as_unknown();
    if found.len() > 1 || tail != Some(found[0]) {
        return Err(format!("a new unknown is no tail: x{unknown} = {term:?}"));
    }
    let new = usize::from(found[0]);
    let whole = values.value(value).clone();
    let members: Vec<usize> = whole.members.iter().copied().collect();
    for choice in 0..1_u64 << members.len() {
        let some = (0..members.len()).filter(|i| choice >> i & 1 == 1);
        let part = values.number(Value {
            kernel: whole.kernel.clone(),
            members: some.map(|i| members[i]).collect(),
        });
        given[new] = Some(part);
        let other = values.of(term, &|u| given[usize::from(u)].unwrap_or(0));
        if value == other && fits_from(values, rest, given)? {
            return Ok(true);
        }
    }
    given[new] = None;
    Ok(false)
}

/// Each unknown of the term as often as it occurs.
fn mentioned(term: &Term, found: &mut Vec<u16>) {
    match term.shape() {
        Shape::Unknown(number) => found.push(*number),
        Shape::Empty => {}
        Shape::With(member, rest) => {
            mentioned(member, found);
            mentioned(rest, found);
        }
        Shape::Functor(_, arguments) => arguments.iter().for_each(|a| mentioned(a, found)),
    }
}

/// Random values for the unknowns that the answer leaves open, and by its bindings for the others.
pub fn instance(
    maker: &mut Maker,
    values: &mut Values,
    question: &Question,
    answer: &[(u16, Term)],
) -> Vec<usize> {
    let mut given: Vec<usize> = (0..NAMES)
        .map(|_| {
            let budget = maker.random.between(1, 4);
            let term = maker.term(budget);
            values.of_ground(&term)
        })
        .collect();
    for (unknown, term) in answer.iter().rev() {
        given[usize::from(*unknown)] = values.of(term, &|u| given[usize::from(u)]);
    }
    given.truncate(question.unknowns as usize);
    given
}

/// All terms inside a term, itself included.
pub fn parts(term: &Term, found: &mut Vec<Term>) {
    found.push(term.clone());
    match term.shape() {
        Shape::Unknown(_) | Shape::Empty => {}
        Shape::With(member, rest) => {
            parts(member, found);
            parts(rest, found);
        }
        Shape::Functor(_, arguments) => arguments.iter().for_each(|a| parts(a, found)),
    }
}
