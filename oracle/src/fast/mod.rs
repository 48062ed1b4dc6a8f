//! The same search for speed, as the baseline of the benchmark: terms stay flat prefix words, buffers are
//! used again, and only a split keeps its state, since every other step has one child and is made in place.

mod rows;
mod split;
mod steps;

use crate::search::{check_limits, Loan};
use crate::terms::{Question, Refusal, NAMES, WITH};
use rows::{term_end, Row};
use split::Choice;

/// The end, nodes visited, answers, and how many answer words were used.
#[derive(Clone, Copy, Debug, PartialEq, Eq)]
pub struct Outcome {
    pub end: u64,
    pub visited: u64,
    pub answers: u64,
    pub used: usize,
}

/// What became of a due node's state: a dead end, a live one, or one too large to be written out.
enum Made {
    Dead,
    Live,
    Full,
}

/// The buffers of a run, which the next run may use again.
#[derive(Default)]
pub struct Solver {
    row: Row,
    spare: Row,
    choices: Vec<Choice>,
    open: usize,
    /// The path's bindings as an answer lists them; a state sees its first `bound` words.
    bindings: Vec<u16>,
    values: [Vec<u16>; 2],
    full: usize,
}

impl Solver {
    /// A run of a question. The loan's space is the first words of the answers' buffer, which has as many.
    pub fn run(
        &mut self,
        question: &Question,
        loan: &Loan,
        answers: &mut [u16],
    ) -> Result<Outcome, Refusal> {
        check_limits(loan)?;
        question.check()?;
        self.full = loan.size as usize;
        self.open = 0;
        self.bindings.clear();
        let row = &mut self.row;
        row.pending.clear();
        row.pending.extend_from_slice(&question.words);
        row.pile.clear();
        row.head = 0;
        row.next = question.unknowns as u16;
        row.depth = 0;
        row.bindings = 0;
        row.bound = 0;
        let mut record = Outcome {
            end: 0,
            visited: 0,
            answers: 0,
            used: 0,
        };
        let answers = &mut answers[..loan.space];
        record.end = self.search(&question.arities, loan, answers, &mut record);
        Ok(record)
    }

    fn search(
        &mut self,
        arities: &[u8],
        loan: &Loan,
        answers: &mut [u16],
        record: &mut Outcome,
    ) -> u64 {
        if loan.steps == 0 {
            return 20;
        }
        if self.row.pending.len() > self.full {
            return 22;
        }
        record.visited = 1;
        loop {
            // The row holds a state that was visited just now.
            let mut made = None;
            if self.row.head == self.row.pending.len() && self.row.pile.is_empty() {
                if !self.write_answer(answers, record) {
                    return 23;
                }
            } else if self.is_split(arities) {
                self.open_split(arities);
            } else {
                self.row.depth += 1;
                if record.visited == loan.steps {
                    return 20;
                }
                if self.row.depth > loan.depth {
                    return 21;
                }
                made = Some(self.step(arities));
            }
            loop {
                match made {
                    Some(Made::Live) if u64::from(self.row.next) > NAMES => return 24,
                    Some(Made::Full) if u64::from(self.row.next) > NAMES => return 24,
                    Some(Made::Full) => return 22,
                    Some(Made::Live) => {
                        if self.row.size() > self.full {
                            return 22;
                        }
                        record.visited += 1;
                        break;
                    }
                    Some(Made::Dead) => record.visited += 1,
                    None => {}
                }
                // On to the next pick of the innermost open split.
                while self.open > 0 && self.choices[self.open - 1].spent {
                    self.open -= 1;
                }
                if self.open == 0 {
                    return 0;
                }
                if record.visited == loan.steps {
                    return 20;
                }
                if self.choices[self.open - 1].depth() > loan.depth {
                    return 21;
                }
                made = Some(self.pick(arities));
            }
        }
    }

    fn write_answer(&self, answers: &mut [u16], record: &mut Outcome) -> bool {
        let length = 1 + self.row.bound;
        if length > answers.len() - record.used {
            return false;
        }
        let place = &mut answers[record.used..record.used + length];
        place[0] = self.row.bindings;
        place[1..].copy_from_slice(&self.bindings[..self.row.bound]);
        record.used += length;
        record.answers += 1;
        true
    }

    fn is_split(&self, arities: &[u8]) -> bool {
        let Row { pending, head, .. } = &self.row;
        pending.get(*head) == Some(&WITH) && pending[term_end(pending, *head, arities)] == WITH
    }
}
