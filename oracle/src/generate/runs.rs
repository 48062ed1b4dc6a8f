//! Cases of a run: loans that just suffice or are one short, and loans above their limits.

use super::texts::{damage, text_of};
use crate::cases::hex;
use crate::fast::Solver;
use crate::random::{rich_question, small_question, Random};
use crate::search::Loan;
use crate::terms::*;

/// No case visits more nodes than this, so that the whole corpus runs under an emulator.
const MOST_VISITED: u64 = 20_000;

pub fn line(loan: &Loan, text: &[u8]) -> String {
    let Loan {
        steps,
        depth,
        size,
        space,
    } = loan;
    format!("run\t{steps}\t{depth}\t{size}\t{space}\t{}", hex(text))
}

fn end(question: &Question, loan: &Loan) -> (u64, u64, usize) {
    let mut answers = vec![0; loan.space];
    let outcome = Solver::default().run(question, loan, &mut answers);
    outcome.map_or((0, 0, 0), |o| (o.end, o.visited, o.used))
}

/// The least number up to `most` for which the test holds, which holds from some number on.
fn least(most: u64, holds: impl Fn(u64) -> bool) -> u64 {
    let (mut low, mut high) = (0, most);
    while low < high {
        let middle = (low + high) / 2;
        if holds(middle) {
            high = middle;
        } else {
            low = middle + 1;
        }
    }
    low
}

/// The least loan that lets the search end as done within `steps`.
pub fn least_loan(question: &Question, steps: u64) -> Option<Loan> {
    let wide = Loan {
        steps,
        depth: MOST_DEPTH,
        size: MOST_SIZE,
        space: 20_000,
    };
    let (0, visited, used) = end(question, &wide) else {
        return None;
    };
    let ends_well = |loan: Loan| end(question, &loan).0 == 0;
    Some(Loan {
        steps: visited,
        depth: least(MOST_DEPTH, |depth| ends_well(Loan { depth, ..wide })),
        size: least(MOST_SIZE, |size| ends_well(Loan { size, ..wide })),
        space: used,
    })
}

/// A question and the least loan that its search is done with, if that is within `steps`. Most are tried
/// again until the search has an answer and some length.
pub fn asked(random: &mut Random, steps: u64) -> (Question, Option<Loan>) {
    let mut tries = if random.percent(70) { 8 } else { 0 };
    loop {
        let question = if random.percent(65) {
            rich_question(random)
        } else {
            let budget = random.between(1, 11);
            small_question(random, budget)
        };
        let loan = least_loan(&question, steps);
        let enough = loan.is_some_and(|loan| loan.steps > 5 && (2..300).contains(&loan.space));
        if enough || tries == 0 {
            return (question, loan);
        }
        tries -= 1;
    }
}

pub fn case(random: &mut Random) -> String {
    // Few searches are long: the corpus is run under an emulator.
    let steps = if random.percent(6) {
        MOST_VISITED
    } else {
        1500
    };
    let (question, least) = asked(random, steps);
    lent(random, &question, least, steps)
}

/// A run of the question's text, some of them damaged.
pub fn lent(random: &mut Random, question: &Question, least: Option<Loan>, steps: u64) -> String {
    let loan = loan_about(random, least, steps);
    let mut text = text_of(question);
    if random.percent(5) {
        damage(random, &mut text);
    }
    line(&loan, &text)
}

/// A loan about the least that a search is done with; if there is none, at most `steps` and anything else. A few are above a limit.
pub fn loan_about(random: &mut Random, least: Option<Loan>, steps: u64) -> Loan {
    let mut loan = match least {
        Some(loan) => one_short(random, loan),
        None => Loan {
            steps: random.below(steps as usize + 1) as u64,
            depth: *random.pick(&[2, 5, 12, 96, 1024]),
            size: *random.pick(&[8, 32, 64, 256, 8192]),
            space: *random.pick(&[0, 5, 100, 1000]),
        },
    };
    if random.percent(5) {
        above_limit(random, &mut loan);
    }
    loan
}

/// A loan that suffices exactly, amply, or is too small in one number.
fn one_short(random: &mut Random, least: Loan) -> Loan {
    let mut loan = least;
    match random.below(20) {
        0..=2 => {}
        3..=5 => {
            loan = Loan {
                steps: MOST_STEPS,
                depth: MOST_DEPTH,
                size: MOST_SIZE,
                space: 4096.max(least.space),
            }
        }
        6..=7 => loan.steps = loan.steps.saturating_sub(1),
        8..=9 => loan.depth = loan.depth.saturating_sub(1),
        10..=11 => loan.size = loan.size.saturating_sub(1),
        12..=13 => loan.space = loan.space.saturating_sub(1),
        14 => loan.steps = random.below(loan.steps as usize + 1) as u64,
        15 => loan.depth = random.below(loan.depth as usize + 1) as u64,
        16 => loan.size = random.below(loan.size as usize + 1) as u64,
        17 => loan.space = random.below(loan.space + 1),
        18 => {
            loan.steps = random.below(loan.steps as usize + 2) as u64;
            loan.depth = random.below(loan.depth as usize + 2) as u64;
            loan.size = random.below(loan.size as usize + 2) as u64;
            loan.space = random.below(loan.space + 2);
        }
        _ => {
            loan.steps += 1;
            loan.depth += 1;
            loan.size += 1;
            loan.space += 1;
        }
    }
    loan
}

fn above_limit(random: &mut Random, loan: &mut Loan) {
    let wide = *random.pick(&[1 << 16, 1 << 32, 1 << 63, u64::MAX]);
    match random.below(6) {
        0 => loan.steps = MOST_STEPS + 1,
        1 => loan.depth = MOST_DEPTH + 1,
        2 => loan.size = MOST_SIZE + 1,
        3 => loan.steps = wide.max(1 << 32),
        4 => loan.depth = wide,
        _ => loan.size = wide,
    }
}
