//! Which number of a refused call was above its limit. The archive tells only that one was; here they are looked at in the archive's order.
use crate::answers::End;
use crate::most;
use crate::refusal::{Culprit, What};
use crate::words::Asked;

/// The number, where it is above its limit.
fn above(what: What, given: u64) -> Option<Culprit> {
    (given > what.most()?).then_some(Culprit { what, given })
}

fn count(what: What, given: usize) -> Option<Culprit> {
    above(what, given as u64)
}

/// Of the arities lent beside words.
fn of_arities(arities: &[u8]) -> Option<Culprit> {
    count(What::Functors, arities.len()).or_else(|| {
        let largest = arities.iter().copied().find(|&arity| arity > most::ARITY);
        Some(Culprit::new(What::Arity, usize::from(largest?)))
    })
}

pub(crate) fn of_question(asked: Asked<'_>) -> Option<Culprit> {
    count(What::Unknowns, asked.unknowns)
        .or_else(|| of_arities(asked.arities))
        .or_else(|| count(What::Equations, asked.equations))
        .or_else(|| count(What::Words, asked.words.len()))
}

pub(crate) fn of_run(asked: Asked<'_>, steps: u64, depth: usize, size: usize) -> Option<Culprit> {
    above(What::Steps, steps)
        .or_else(|| count(What::Depth, depth))
        .or_else(|| count(What::Size, size))
        .or_else(|| of_question(asked))
}

/// Of ground terms.
pub(crate) fn of_row(arities: &[u8], row: &[u16]) -> Option<Culprit> {
    of_arities(arities).or_else(|| count(What::Words, row.len()))
}

pub(crate) fn of_list(arities: &[u8], end: u64, visited: u64) -> Option<Culprit> {
    if u32::try_from(end).ok().and_then(End::of_number).is_none() {
        return Some(Culprit {
            what: What::End,
            given: end,
        });
    }
    above(What::Visited, visited).or_else(|| of_arities(arities))
}

/// Of a text that is refused at a place: the number that stands there, or the symbol after as many as there may be.
pub(crate) fn of_text(text: &[u8], place: usize) -> Option<Culprit> {
    let before = text.get(..place)?;
    let line = before
        .iter()
        .rposition(|&byte| byte == b'\n')
        .map_or(0, |at| at + 1);
    let after = &text[place..];
    let digits = after
        .iter()
        .take_while(|byte| byte.is_ascii_digit())
        .count();
    let number = std::str::from_utf8(&after[..digits]).ok()?;
    let what = match &before[line..] {
        b"edition=" => What::Edition,
        b"unknowns=" => What::Unknowns,
        b"equations=" => What::Equations,
        arities if arities.starts_with(b"arities=") => {
            let commas = arities.iter().filter(|&&byte| byte == b',').count();
            if commas == most::FUNCTORS {
                return Some(Culprit::new(What::Functors, commas + 1));
            }
            What::Arity
        }
        // After a name's letter there is a number of too many digits.
        [.., b'x'] if digits > 0 => What::Unknowns,
        [.., b'f'] if digits > 0 => What::Functors,
        _ => return Some(Culprit::new(What::Words, most::WORDS + 1)),
    };
    let given = number.parse().unwrap_or(u64::MAX);
    Some(Culprit { what, given })
}
