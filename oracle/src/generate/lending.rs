//! Cases of what is lent: buffers that a question is read into, and the room of a run of words, that just suffice, are one short, or are anything.

use super::tables::{self, wild_number};
use super::texts::{self, text_of};
use super::{asked_line, runs};
use crate::cases::hex;
use crate::random::{small_question, Random};
use crate::search::{check_limits, room_needed, Loan};
use crate::terms::*;

/// No search of a case visits more nodes, nor lists more words; and no run that is granted needs more room, so that a driver without a heap can lend it.
const MOST_VISITED: u64 = 1500;
const MOST_SPACE: usize = 4000;
const MOST_ROOM: usize = 400_000;

/// What is needed, one less, nothing, something less, more, or more than there can be.
fn about(random: &mut Random, needed: usize) -> usize {
    match random.below(10) {
        0..=4 => needed,
        5 => needed.saturating_sub(1),
        6 => 0,
        7 => random.below(needed + 1),
        8 => needed + random.between(1, 50),
        _ => *random.pick(&[1 << 32, usize::MAX]),
    }
}

/// A text, damaged or not, and two buffers.
pub fn read(random: &mut Random) -> String {
    let budget = random.between(1, 16);
    let asked = small_question(random, budget);
    let mut text = text_of(&asked);
    if random.percent(25) {
        texts::damage(random, &mut text);
    }
    let arities = about(random, asked.arities.len());
    let words = about(random, asked.words.len());
    format!("read\t{}\t{arities}\t{words}", hex(&text))
}

/// Words, damaged or not, a loan, and room.
pub fn run_words(random: &mut Random) -> String {
    let (mut asked, least) = runs::asked(random, MOST_VISITED);
    let mut loan = runs::loan_about(random, least, MOST_VISITED);
    if random.percent(25) {
        spoil(random, &mut asked);
        // What is left may be a good question with a long search.
        loan.steps = match loan.steps {
            steps if steps <= MOST_STEPS => steps.min(MOST_VISITED),
            above => above,
        };
    }
    loan.space = loan.space.min(MOST_SPACE);
    if random.percent(5) && least.is_some_and(|least| least.space <= MOST_SPACE) {
        loan.space = usize::MAX;
    }
    if check_limits(&loan).is_ok() && random.percent(90) {
        // As wide as there is room for: at most 1,024 + 8 rows of at least 387 words.
        let widest = MOST_ROOM as u64 / (loan.depth + 8) - 8;
        loan.size = loan.size.min(widest);
    }
    let room = room(random, &loan);
    let Loan {
        steps,
        depth,
        size,
        space,
    } = loan;
    asked_line(
        "runw",
        &asked,
        format!("{steps}\t{depth}\t{size}\t{space}\t{room}"),
    )
}

/// Words, a count or an arity that may not be what they were.
fn spoil(random: &mut Random, asked: &mut Question) {
    match random.below(8) {
        0 => asked.unknowns = wild_number(random),
        1 => asked.equations = wild_number(random),
        2 if !asked.arities.is_empty() => {
            let at = random.below(asked.arities.len());
            asked.arities[at] = *random.pick(&[0, 1, 8, 9, 255]);
        }
        _ => tables::damage(random, &mut asked.words),
    }
}

/// Room about what the loan needs; more than a driver can lend is always one short.
fn room(random: &mut Random, loan: &Loan) -> usize {
    if check_limits(loan).is_err() {
        return random.below(MOST_ROOM);
    }
    let needed = room_needed(loan);
    let lent = about(random, needed);
    if needed > MOST_ROOM {
        return lent.min(needed - 1);
    }
    lent
}
