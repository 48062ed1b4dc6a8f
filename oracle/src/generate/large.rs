//! Runs that are large in one way: many members, high numbers of unknowns, growing values, long paths, functors of many arguments.

use super::runs;
use crate::random::{question, rich_question, Maker, Random};
use crate::terms::*;

/// Searches longer than this are cut off by their steps.
const MOST_VISITED: u64 = 3000;

pub fn case(random: &mut Random) -> String {
    let asked = match random.below(5) {
        0 => many_members(random),
        1 => high_unknowns(random),
        2 => growing_values(random),
        3 => long_path(random),
        _ => wide_functors(random),
    };
    let least = runs::least_loan(&asked, MOST_VISITED);
    runs::lent(random, &asked, least, MOST_VISITED)
}

/// A set equation with more children than any run visits.
fn many_members(random: &mut Random) -> Question {
    let arities = [0, 0, 0, 1];
    let mut side = || {
        let count = random.between(4, 14);
        let tail = random.below(4) as u16;
        let mut maker = Maker::new(random, 4, &arities);
        let members: Vec<Term> = (0..count).map(|_| maker.term(1)).collect();
        let tail = match tail {
            0 => Term::empty(),
            number => Term::unknown(number),
        };
        Term::set(&members, tail)
    };
    let (left, right) = (side(), side());
    question(4, &arities, &[(left, right)])
}

/// The last unknowns that there may be, so that new ones are numbered from 256 or just below.
fn high_unknowns(random: &mut Random) -> Question {
    let mut asked = rich_question(random);
    let unknowns = random.between(250, 256) as u16;
    for word in &mut asked.words {
        if (UNKNOWN..FUNCTOR).contains(word) {
            *word = UNKNOWN + unknowns - 1 - (*word - UNKNOWN);
        }
    }
    asked.unknowns = u64::from(unknowns);
    asked
}

/// Each unknown is two of the next: bound from the last, values double up to thousands of symbols.
fn growing_values(random: &mut Random) -> Question {
    let count = random.between(3, 11) as u16;
    let mut equations: Vec<Equation> = (0..count)
        .rev()
        .map(|i| {
            let next = Term::unknown(i + 1);
            let twice = match random.below(2) {
                0 => Term::set(&[next.clone(), next], Term::empty()),
                _ => Term::functor(1, vec![next.clone(), next]),
            };
            (Term::unknown(i), twice)
        })
        .collect();
    if random.percent(30) {
        random.shuffle(&mut equations);
    }
    question(count + 1, &[0, 2], &equations)
}

/// Chains that are taken apart a functor a step, up to a thousand deep.
fn long_path(random: &mut Random) -> Question {
    let mut equations = Vec::new();
    for number in 0..random.between(1, 6) as u16 {
        let length = random.between(100, 199);
        let chain = |end| (0..length).fold(end, |term, _| Term::functor(1, vec![term]));
        let end = match random.below(3) {
            0 => Term::empty(),
            1 => Term::unknown(number + 1),
            _ => Term::functor(0, vec![]),
        };
        equations.push((chain(Term::unknown(number)), chain(end)));
    }
    question(7, &[0, 1], &equations)
}

/// Functors with the last numbers and as many arguments as there may be.
fn wide_functors(random: &mut Random) -> Question {
    let mut arities = vec![0; MOST_FUNCTORS];
    arities[250..].fill(MOST_ARITY as u8);
    let mut equations = Vec::new();
    for _ in 0..random.between(1, 3) {
        let number = random.between(248, 255);
        let mut maker = Maker::new(random, 6, &arities[..4]);
        let mut arguments = || (0..arities[number]).map(|_| maker.term(2)).collect();
        let left = Term::functor(number as u16, arguments());
        equations.push((left, Term::functor(number as u16, arguments())));
    }
    question(6, &arities, &equations)
}
