//! Random trials of what the search promises: ground values solve a question exactly if they fit a listed
//! answer; a wider loan only continues a list and repeats what was done; and the fast search gives the same.

mod fits;
mod plant;

use crate::equality::{hold, Values};
use crate::fast::Solver;
use crate::random::{rich_question, small_question, Maker, Random};
use crate::search::{search, Loan, Outcome};
use crate::terms::*;
use crate::text::{reader::read, writers::write_question};
use fits::{answers, Answer};

/// What was tried, for the reader of a report.
#[derive(Debug, Default, PartialEq, Eq)]
pub struct Tally {
    pub questions: u64,
    /// Searches that ended as done within the trial's loan; only these say which values solve.
    pub done: u64,
    pub visited: u64,
    pub answers: u64,
    /// Choices of values that were held against question and answers, and those among them that solve.
    pub values: u64,
    pub solving: u64,
    pub loans: u64,
    /// How often each end was met: done, steps, depth, size, space.
    pub ends: [u64; 5],
}

/// Tries `count` random questions; `Err` tells the first thing that is not as promised.
pub fn check(seed: u64, count: u64) -> Result<Tally, String> {
    let mut tally = Tally::default();
    let mut seeds = Random::new(seed);
    for index in 0..count {
        let mut random = Random::new(seeds.draw());
        let question = match random.below(3) {
            0 => {
                let budget = random.between(2, 9);
                small_question(&mut random, budget)
            }
            1 => rich_question(&mut random),
            _ => plant::question(&mut random),
        };
        try_question(&mut random, &question, &mut tally).map_err(|cause| {
            let text = write_question(&question, usize::MAX).unwrap_or_default();
            format!(
                "seed {seed}, question {index}: {cause}\n{}",
                String::from_utf8_lossy(&text)
            )
        })?;
    }
    Ok(tally)
}

fn try_question(random: &mut Random, question: &Question, tally: &mut Tally) -> Result<(), String> {
    tally.questions += 1;
    let text = write_question(question, usize::MAX).map_err(|r| format!("not written: {r:?}"))?;
    if read(&text).as_ref() != Ok(question) {
        return Err("reading does not undo writing".to_string());
    }
    let wide = Loan {
        steps: 6000,
        depth: 300,
        size: 2000,
        space: 20_000,
    };
    let outcome = run_both(question, &wide, tally)?;
    for _ in 0..3 {
        try_loans(random, question, &outcome, tally)?;
    }
    if outcome.end == 0 {
        tally.done += 1;
        tally.visited += outcome.visited;
        tally.answers += outcome.answers;
        try_values(random, question, &answers(question, &outcome)?, tally)?;
    }
    Ok(())
}

/// The plain search and the fast one, which must agree.
fn run_both(question: &Question, loan: &Loan, tally: &mut Tally) -> Result<Outcome, String> {
    let plain = search(question, loan);
    let mut words = vec![u16::MAX; loan.space];
    let fast = Solver::default()
        .run(question, loan, &mut words)
        .map_err(|r| format!("the fast search refuses: {r:?}"))?;
    let used = plain.words.len();
    if (fast.end, fast.visited, fast.answers, fast.used)
        != (plain.end, plain.visited, plain.answers, used)
        || words[..used] != plain.words
        || words[used..].iter().any(|&word| word != u16::MAX)
    {
        return Err(format!(
            "{loan:?}: plain gives {plain:?}, fast {fast:?} {words:?}"
        ));
    }
    tally.loans += 1;
    tally.ends[[0, 20, 21, 22, 23]
        .iter()
        .position(|&e| e == plain.end)
        .unwrap_or(0)] += 1;
    Ok(plain)
}

/// Two random loans, the later one at least the earlier: its list begins with the earlier one's, and it
/// repeats a search that was done.
fn try_loans(
    random: &mut Random,
    question: &Question,
    known: &Outcome,
    tally: &mut Tally,
) -> Result<(), String> {
    let mut earlier = Loan {
        steps: known.visited + 10,
        depth: 60,
        size: 200,
        space: known.words.len() + 10,
    };
    let which = random.below(5);
    if which == 0 || which == 4 {
        earlier.steps = random.below(known.visited as usize + 3) as u64;
    }
    if which == 1 || which == 4 {
        earlier.depth = random.below(20) as u64;
    }
    if which == 2 || which == 4 {
        earlier.size = random.below(60) as u64;
    }
    if which == 3 || which == 4 {
        earlier.space = random.below(known.words.len() + 3);
    }
    let mut later = earlier;
    for _ in 0..random.between(1, 4) {
        match random.below(4) {
            0 => later.steps += random.below(known.visited as usize + 2) as u64,
            1 => later.depth += random.below(20) as u64,
            2 => later.size += random.below(60) as u64,
            _ => later.space += random.below(known.words.len() + 2),
        }
    }
    let first = run_both(question, &earlier, tally)?;
    let second = run_both(question, &later, tally)?;
    if !second.words.starts_with(&first.words) || second.answers < first.answers {
        return Err(format!(
            "{earlier:?} lists what {later:?} does not begin with"
        ));
    }
    if first.end == 0 && first != second {
        return Err(format!("{earlier:?} was done, {later:?} differs"));
    }
    Ok(())
}

/// Values from a small universe, and values that the answers give: they solve exactly if they fit.
fn try_values(
    random: &mut Random,
    question: &Question,
    answers: &[Answer],
    tally: &mut Tally,
) -> Result<(), String> {
    let mut values = Values::default();
    let equations = question.read_equations();
    let unknowns = question.unknowns as usize;
    let universe = universe(random, question, &mut values, &equations);
    let total = universe.len().pow(unknowns as u32);
    for index in 0..total {
        let given: Vec<usize> = (0..unknowns)
            .map(|i| universe[index / universe.len().pow(i as u32) % universe.len()])
            .collect();
        try_given(&mut values, &equations, answers, &given, tally)?;
    }
    for answer in answers.iter().take(20) {
        for _ in 0..3 {
            let mut maker = Maker::ground(random, &question.arities);
            let mut given = fits::instance(&mut maker, &mut values, question, answer);
            if !hold(&mut values, &equations, &given) {
                return Err(format!("values that fit {answer:?} do not solve"));
            }
            if given.iter().all(|&v| values.value(v).members.len() <= 6) {
                try_given(&mut values, &equations, answers, &given, tally)?;
                if unknowns > 0 {
                    // One value off.
                    given[random.below(unknowns)] = *random.pick(&universe);
                    try_given(&mut values, &equations, answers, &given, tally)?;
                }
            }
        }
    }
    Ok(())
}

fn try_given(
    values: &mut Values,
    equations: &[Equation],
    answers: &[Answer],
    given: &[usize],
    tally: &mut Tally,
) -> Result<(), String> {
    let solve = hold(values, equations, given);
    let mut fit = false;
    for answer in answers {
        fit = fit || fits::fits(values, answer, given)?;
    }
    tally.values += 1;
    tally.solving += u64::from(solve);
    if solve != fit {
        let given: Vec<_> = given.iter().map(|&v| values.value(v).clone()).collect();
        return Err(format!("solve {solve}, fit {fit}: {given:?}"));
    }
    Ok(())
}

/// A few ground values: parts of the question with random values for its unknowns, and random ones.
fn universe(
    random: &mut Random,
    question: &Question,
    values: &mut Values,
    equations: &[Equation],
) -> Vec<usize> {
    let most = match question.unknowns {
        0 | 1 => 60,
        2 => 28,
        3 => 10,
        4 => 6,
        _ => 4,
    };
    let mut parts = Vec::new();
    for (left, right) in equations {
        fits::parts(left, &mut parts);
        fits::parts(right, &mut parts);
    }
    let mut maker = Maker::ground(random, &question.arities);
    let mut universe = Vec::new();
    for _ in 0..4 * most {
        let budget = maker.random.between(1, 5);
        let mut term = maker.term(budget);
        if maker.random.percent(50) && !parts.is_empty() {
            let part: &Term = maker.random.pick(&parts);
            let part = part.clone();
            term = (0..question.unknowns as u16).fold(part, |part, i| {
                let budget = maker.random.between(1, 3);
                part.replace(i, &maker.term(budget))
            });
        }
        let value = values.of_ground(&term);
        if values.value(value).members.len() <= 4 && !universe.contains(&value) {
            universe.push(value);
        }
        if universe.len() == most {
            break;
        }
    }
    universe
}
