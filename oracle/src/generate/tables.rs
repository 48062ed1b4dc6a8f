//! Cases of the writers and of ground terms: good words, words damaged, capacities that fit or are one short.

use super::asked_line;
use crate::cases::joined;
use crate::random::{arities, small_question, Maker, Random};
use crate::search::{search, Loan};
use crate::terms::*;
use crate::text::writers;

/// One to three edits of words.
pub fn damage(random: &mut Random, words: &mut Vec<u16>) {
    const LIKELY: [u16; 22] = [
        0, 1, 2, 3, 9, 255, 511, 512, 999, 1000, 1001, 1005, 1255, 1256, 1511, 1512, 1999, 2000,
        2001, 2005, 2256, 65535,
    ];
    for _ in 0..random.between(1, 3) {
        let at = random.below(words.len() + 1);
        let word = *random.pick(&LIKELY);
        match random.below(6) {
            0..=2 if at < words.len() => words[at] = word,
            3 => words.insert(at, word),
            4 if at < words.len() => {
                words.remove(at);
            }
            5 => words.truncate(at),
            _ => words.push(word),
        }
    }
}

/// A capacity about what is needed: all, one short, none, or more.
fn capacity(random: &mut Random, needed: Result<Vec<u8>, Refusal>) -> usize {
    let needed = needed.map_or(100, |text| text.len());
    match random.below(6) {
        0..=1 => needed,
        2 => needed.saturating_sub(1),
        3 => random.below(needed + 1),
        4 => 0,
        _ => needed + random.below(50),
    }
}

pub fn wild_number(random: &mut Random) -> u64 {
    *random.pick(&[
        0,
        1,
        2,
        5,
        64,
        65,
        256,
        257,
        1 << 16,
        1 << 32,
        u64::MAX - 1,
        u64::MAX,
    ])
}

pub fn write_question(random: &mut Random) -> String {
    let budget = random.between(1, 16);
    let mut asked = small_question(random, budget);
    if random.percent(40) {
        damage(random, &mut asked.words);
    }
    match random.below(20) {
        0 => asked.unknowns = wild_number(random),
        1 => asked.equations = wild_number(random),
        2 if !asked.arities.is_empty() => {
            let at = random.below(asked.arities.len());
            asked.arities[at] = *random.pick(&[0, 1, 8, 9, 255]);
        }
        _ => {}
    }
    let needed = writers::write_question(&asked, usize::MAX);
    asked_line("writeq", &asked, capacity(random, needed))
}

pub fn write_answers(random: &mut Random) -> String {
    let mut list = if random.percent(50) {
        found_list(random)
    } else {
        made_list(random)
    };
    if random.percent(35) {
        damage(random, &mut list.words);
    }
    match random.below(16) {
        0 => list.end = wild_number(random),
        1 => list.end = *random.pick(&[1, 19, 25, 7, 256, 20 + (1 << 32)]),
        2 => list.visited = *random.pick(&[MOST_STEPS, MOST_STEPS + 1, u64::MAX]),
        3 => list.answers = wild_number(random),
        4 if !list.arities.is_empty() => list.arities[0] = *random.pick(&[0, 1, 8, 9, 255]),
        _ => {}
    }
    let needed = writers::write_answers(&list, usize::MAX);
    format!(
        "writel\t{}\t{}\t{}\t{}\t{}\t{}",
        joined(&list.arities),
        list.end,
        list.visited,
        list.answers,
        joined(&list.words),
        capacity(random, needed)
    )
}

/// The list of a small search.
fn found_list(random: &mut Random) -> writers::AnswerList {
    let asked = small_question(random, 6);
    let loan = Loan {
        steps: random.between(1, 300) as u64,
        depth: random.between(5, 40) as u64,
        size: random.between(20, 100) as u64,
        space: random.between(10, 60),
    };
    let outcome = search(&asked, &loan);
    writers::AnswerList::of(asked.arities, outcome)
}

/// A list by layout alone, with unknowns up to 511 that may repeat.
fn made_list(random: &mut Random) -> writers::AnswerList {
    let arities = arities(random);
    let answers = random.below(4);
    let mut words = Vec::new();
    for _ in 0..answers {
        let bindings = random.below(4);
        words.push(bindings as u16);
        for _ in 0..bindings {
            words.push(random.below(512) as u16);
            let budget = random.between(1, 8);
            let mut maker = Maker::new(random, 512, &arities);
            let value = maker.term(budget);
            value.write(&mut words);
        }
    }
    writers::AnswerList {
        arities,
        end: *random.pick(&[0, 20, 21, 22, 23, 24]),
        visited: random.below(2000) as u64,
        answers: answers as u64,
        words,
    }
}

pub fn equal(random: &mut Random) -> String {
    let arities = arities(random);
    let budget = random.between(1, 20);
    let mut maker = Maker::ground(random, &arities);
    let left = maker.term(budget);
    let right = if maker.random.percent(60) {
        maker.rewritten(&left)
    } else {
        maker.term(budget)
    };
    let mut row = left.words();
    right.write(&mut row);
    match random.below(20) {
        0..=4 => damage(random, &mut row),
        5 => {
            // Deep sets, alike or off by one.
            let depth = random.between(1, 60);
            row = [vec![1; depth], vec![0; depth + 1]].concat();
            let depth = depth + random.below(2);
            row.extend([vec![1; depth], vec![0; depth + 1]].concat());
        }
        6..=8 if !row.is_empty() => {
            // One symbol for another of the same arity: still a good row, seldom equal.
            let at = random.below(row.len());
            if row[at] == EMPTY && arities.first() == Some(&0) {
                row[at] = FUNCTOR;
            }
        }
        _ => {}
    }
    format!("equal\t{}\t{}", joined(&arities), joined(&row))
}

/// Ground values for the question's unknowns that an answer's bindings give, with random ones for the rest.
fn values_of_answer(random: &mut Random, asked: &Question) -> Option<Vec<Term>> {
    let loan = Loan {
        steps: 500,
        depth: 60,
        size: 200,
        space: 200,
    };
    let outcome = search(asked, &loan);
    let lists =
        crate::words::check_answers(&asked.arities, outcome.answers, &outcome.words).ok()?;
    if lists.is_empty() {
        return None;
    }
    let lines = random.pick(&lists);
    let mut values: Vec<Term> = (0..NAMES).map(|i| Term::unknown(i as u16)).collect();
    let mut maker = Maker::ground(random, &asked.arities);
    for value in &mut values[..(2 * asked.unknowns) as usize] {
        let budget = maker.random.between(1, 4);
        *value = maker.term(budget);
    }
    // A binding mentions only unknowns that are bound later or never.
    for &(unknown, start) in lines.iter().rev() {
        let mut at = start;
        let mut value = Term::read(&outcome.words, &mut at, &asked.arities);
        for (i, given) in values.iter().enumerate() {
            value = value.replace(i as u16, given);
        }
        values[usize::from(unknown)] = maker.rewritten(&value);
    }
    values.truncate(asked.unknowns as usize);
    Some(values)
}

pub fn values(random: &mut Random) -> String {
    let budget = random.between(1, 8);
    let mut asked = small_question(random, budget);
    let found = if random.percent(75) {
        values_of_answer(random, &asked)
    } else {
        None
    };
    let values = found.unwrap_or_else(|| {
        let mut maker = Maker::ground(random, &asked.arities);
        (0..asked.unknowns).map(|_| maker.term(4)).collect()
    });
    let mut row: Vec<u16> = values.iter().flat_map(Term::words).collect();
    match random.below(20) {
        0..=2 => damage(random, &mut row),
        3..=4 => damage(random, &mut asked.words),
        5 => asked.unknowns = wild_number(random),
        6 => asked.equations = wild_number(random),
        _ => {}
    }
    asked_line("values", &asked, joined(&row))
}
