//! The checks of lent words: a question, a row of ground terms, an answer list, and their nesting.
//! Counts and arities come first (3, place 0), then the 4,097th symbol (3), then 8, then 6.

use crate::terms::*;

/// Counts and arities lent beside words: above a limit is 3, place 0.
pub fn check_arities(arities: &[u8]) -> Result<(), Refusal> {
    if arities.len() > MOST_FUNCTORS || arities.iter().any(|&a| u64::from(a) > MOST_ARITY) {
        return refuse(3, 0);
    }
    Ok(())
}

fn check_length(words: &[u16]) -> Result<(), Refusal> {
    if words.len() > MOST_SYMBOLS {
        return refuse(3, MOST_SYMBOLS);
    }
    Ok(())
}

/// How many terms follow the word, or none if it has no meaning or is not declared.
fn terms_after(word: u16, unknowns: u64, arities: &[u8]) -> Option<usize> {
    match word {
        EMPTY => Some(0),
        WITH => Some(2),
        UNKNOWN..FUNCTOR => (u64::from(word - UNKNOWN) < unknowns).then_some(0),
        FUNCTOR.. => arities
            .get(usize::from(word - FUNCTOR))
            .map(|&a| usize::from(a)),
        _ => None,
    }
}

/// The end of the term that begins at `start`.
fn term_end(words: &[u16], start: usize, unknowns: u64, arities: &[u8]) -> Result<usize, Refusal> {
    let mut at = start;
    let mut due = 1;
    while due > 0 {
        let Some(&word) = words.get(at) else {
            return refuse(8, words.len());
        };
        let Some(after) = terms_after(word, unknowns, arities) else {
            return refuse(8, at);
        };
        due = due - 1 + after;
        at += 1;
    }
    Ok(at)
}

/// Exactly `count` terms and nothing after; gives the places where they begin.
fn check_terms(
    words: &[u16],
    count: u64,
    unknowns: u64,
    arities: &[u8],
) -> Result<Vec<usize>, Refusal> {
    let mut starts = Vec::new();
    let mut at = 0;
    for _ in 0..count {
        starts.push(at);
        at = term_end(words, at, unknowns, arities)?;
    }
    if at < words.len() {
        return refuse(8, at);
    }
    Ok(starts)
}

/// A question: its counts and arities, its length, its words. Gives the places where its terms begin.
pub fn check_question(
    unknowns: u64,
    arities: &[u8],
    equations: u64,
    words: &[u16],
) -> Result<Vec<usize>, Refusal> {
    if unknowns > MOST_UNKNOWNS || equations > MOST_EQUATIONS {
        return refuse(3, 0);
    }
    check_arities(arities)?;
    check_length(words)?;
    check_terms(words, 2 * equations, unknowns, arities)
}

/// A row of `count` ground terms, its arities being good.
pub fn check_row(arities: &[u8], row: &[u16], count: u64) -> Result<(), Refusal> {
    check_length(row)?;
    check_terms(row, count, 0, arities)?;
    Ok(())
}

/// A binding in an answer list: the unknown's number and the place where its value begins.
pub type Line = (u16, usize);

/// An answer list's words. Only the layout is tested, with unknowns up to 511.
pub fn check_answers(
    arities: &[u8],
    answers: u64,
    words: &[u16],
) -> Result<Vec<Vec<Line>>, Refusal> {
    let mut list = Vec::new();
    let mut at = 0;
    for _ in 0..answers {
        let Some(&bindings) = words.get(at) else {
            return refuse(8, words.len());
        };
        at += 1;
        let mut lines = Vec::new();
        for _ in 0..bindings {
            match words.get(at) {
                None => return refuse(8, words.len()),
                Some(&unknown) if u64::from(unknown) >= NAMES => return refuse(8, at),
                Some(&unknown) => lines.push((unknown, at + 1)),
            }
            at = term_end(words, at + 1, NAMES, arities)?;
        }
        list.push(lines);
    }
    if at < words.len() {
        return refuse(8, at);
    }
    Ok(list)
}

/// Tests the nesting of the good term at `at` inside `open` brackets: 6 at the word that the 201st open
/// bracket would write. A set's bracket writes its first member adding, a functor's writes the functor.
pub fn check_nesting(
    words: &[u16],
    at: usize,
    open: usize,
    arities: &[u8],
) -> Result<usize, Refusal> {
    let inside = match words[at] {
        WITH => true,
        word => word >= FUNCTOR && arities[usize::from(word - FUNCTOR)] > 0,
    };
    if !inside {
        return Ok(at + 1);
    }
    if open == MOST_NESTING {
        return refuse(6, at);
    }
    if words[at] == WITH {
        let mut rest = at;
        while words[rest] == WITH {
            rest = check_nesting(words, rest + 1, open + 1, arities)?;
        }
        return check_nesting(words, rest, open + 1, arities);
    }
    let mut end = at + 1;
    for _ in 0..arities[usize::from(words[at] - FUNCTOR)] {
        end = check_nesting(words, end, open + 1, arities)?;
    }
    Ok(end)
}
