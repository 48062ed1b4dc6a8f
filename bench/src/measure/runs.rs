//! Runs: nodes visited in a second by the component and by `fast`, medians of rounds in which each has its turn.

use crate::questions::{trials, Trial};
use crate::{median, timed};
use component::calls;
use oracle::fast::{Outcome, Solver};
use oracle::search::room_needed;
use oracle::terms::{Question, Refusal};
use std::time::Duration;

const ROUNDS: usize = 11;

/// A turn repeats its questions until it takes about so long.
const TURN: Duration = Duration::from_millis(40);

/// What the solvers are lent, kept from run to run. Each has its own answers, so that none is credited with the other's.
struct Lent {
    solver: Solver,
    room: Vec<u16>,
    component_answers: Vec<u16>,
    fast_answers: Vec<u16>,
}

impl Lent {
    fn component(&mut self, trial: &Trial, each: impl FnMut(&Outcome, &[u16])) {
        let (room, answers) = (&mut self.room, &mut self.component_answers);
        run_all(trial, each, answers, |question, answers| {
            calls::run(question, &trial.loan, answers, room)
        });
    }

    fn fast(&mut self, trial: &Trial, each: impl FnMut(&Outcome, &[u16])) {
        let (solver, answers) = (&mut self.solver, &mut self.fast_answers);
        run_all(trial, each, answers, |question, answers| {
            solver.run(question, &trial.loan, answers)
        });
    }
}

fn run_all(
    trial: &Trial,
    mut each: impl FnMut(&Outcome, &[u16]),
    answers: &mut [u16],
    mut run: impl FnMut(&Question, &mut [u16]) -> Result<Outcome, Refusal>,
) {
    for question in &trial.questions {
        let outcome = run(question, answers).expect("a good question and its room");
        each(&outcome, &answers[..outcome.used]);
    }
}

/// Runs both and panics where they differ; gives the nodes visited and how the run of a single question ends.
fn compared(lent: &mut Lent, trial: &Trial) -> (u64, u64) {
    let mut wanted = Vec::new();
    lent.fast(trial, |outcome, words| {
        wanted.push((*outcome, words.to_vec()))
    });
    let mut given = Vec::new();
    lent.component(trial, |outcome, words| {
        given.push((*outcome, words.to_vec()))
    });
    for (index, (given, wanted)) in given.iter().zip(&wanted).enumerate() {
        assert!(
            given == wanted,
            "{}, question {index}: the component gives {:?}, fast gives {:?}, or other words",
            trial.name,
            given.0,
            wanted.0
        );
    }
    let nodes = wanted.iter().map(|(outcome, _)| outcome.visited).sum();
    (nodes, wanted[0].0.end)
}

pub fn measure() {
    let trials = trials();
    let loan = &trials[0].loan;
    let mut lent = Lent {
        solver: Solver::default(),
        room: vec![0; room_needed(loan)],
        component_answers: vec![0; loan.space],
        fast_answers: vec![0; loan.space],
    };
    println!(
        "Nodes in a second, millions. The ratio is the component's speed by that of `fast`.\n"
    );
    println!("| questions | nodes | end | component | `fast` | ratio |");
    println!("|---|--:|--:|--:|--:|--:|");
    for trial in &trials {
        let (nodes, end) = compared(&mut lent, trial);
        let end = match trial.questions.len() {
            1 => end.to_string(),
            _ => String::new(),
        };
        let [component, fast] = times(&mut lent, trial);
        let speed = |time: Duration| nodes as f64 / time.as_secs_f64() / 1e6;
        println!(
            "| {} | {nodes} | {end} | {:.2} | {:.2} | {:.2} |",
            trial.name,
            speed(component),
            speed(fast),
            speed(component) / speed(fast)
        );
    }
}

/// The median time of the trial's questions, by the component and by `fast`.
fn times(lent: &mut Lent, trial: &Trial) -> [Duration; 2] {
    let once = timed(|| lent.fast(trial, |_, _| {}));
    let repeats = (TURN.as_nanos() / once.as_nanos().max(1)).max(1) as u32;
    let mut taken = [Vec::new(), Vec::new()];
    for round in 0..ROUNDS {
        // Each is the first of the two in turn.
        for turn in 0..2 {
            let which = (round + turn) % 2;
            let time = timed(|| {
                for _ in 0..repeats {
                    match which {
                        0 => lent.component(trial, |_, _| {}),
                        _ => lent.fast(trial, |_, _| {}),
                    }
                }
            });
            taken[which].push(time / repeats);
        }
    }
    taken.map(median)
}
