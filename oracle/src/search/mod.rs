//! The published search: a run visits the nodes depth first, children in order, and tests the table of ends.

pub mod children;
pub mod state;

use crate::terms::*;
use children::Children;
use state::{Node, State};

/// What is lent to a run: steps, depth, size, and how many answer words.
#[derive(Clone, Copy, Debug, PartialEq, Eq)]
pub struct Loan {
    pub steps: u64,
    pub depth: u64,
    pub size: u64,
    pub space: usize,
}

/// What a run gives back: its end, the nodes visited, the answers and their words.
#[derive(Clone, Debug, PartialEq, Eq)]
pub struct Outcome {
    pub end: u64,
    pub visited: u64,
    pub answers: u64,
    pub words: Vec<u16>,
}

/// The run limits: above one is 3, place 0.
pub fn check_limits(loan: &Loan) -> Result<(), Refusal> {
    if loan.steps > MOST_STEPS || loan.depth > MOST_DEPTH || loan.size > MOST_SIZE {
        return refuse(3, 0);
    }
    Ok(())
}

/// A run tests its limits, then the question, then its lent working room.
pub fn run(question: &Question, loan: &Loan, room: usize) -> Result<Outcome, Refusal> {
    check_limits(loan)?;
    question.check()?;
    let needed = room_needed(loan);
    if room < needed {
        return refuse(7, needed);
    }
    Ok(search(question, loan))
}

pub fn room_needed(loan: &Loan) -> usize {
    ((loan.depth + 8) * (loan.size + 8)) as usize
}

/// The search of a good question.
pub fn search(question: &Question, loan: &Loan) -> Outcome {
    let mut record = Outcome {
        end: 0,
        visited: 0,
        answers: 0,
        words: Vec::new(),
    };
    // The path of opened states, each with its children still to come: the due node's depth is its length.
    let mut path: Vec<Children> = Vec::new();
    let mut due = Node::Live(State::root(question));
    loop {
        record.end = end_before(&due, path.len() as u64, record.visited, loan);
        if record.end != 0 {
            return record;
        }
        record.visited += 1;
        if let Node::Live(state) = due {
            if state.is_answer() {
                let mut answer = Vec::new();
                state.write_answer(&mut answer);
                if record.words.len() + answer.len() > loan.space {
                    record.end = 23;
                    return record;
                }
                record.words.append(&mut answer);
                record.answers += 1;
            } else {
                path.push(Children::of(state));
            }
        }
        due = loop {
            match path.last_mut() {
                None => return record,
                Some(children) => match children.next() {
                    Some(node) => break node,
                    None => path.pop(),
                },
            };
        }
    }
}

/// The ends that are tested before the due node is counted, in the table's order; 0 if there is none.
fn end_before(due: &Node, depth: u64, visited: u64, loan: &Loan) -> u64 {
    if visited == loan.steps {
        20
    } else if depth > loan.depth {
        21
    } else if due.next_unknown() > NAMES {
        24
    } else if due.size() > loan.size {
        22
    } else {
        0
    }
}
