//! The C functions, called with slices. An out number holds a mark before the call, so that each call shows what is owed beside the answer: a
//! refusal writes the place alone, anything else leaves the place as it was.

use mensorique::archive::*;
use oracle::fast::Outcome;
use oracle::search::Loan;
use oracle::terms::{Question, Refusal};
use oracle::text::writers::AnswerList;

/// What an out number holds before a call: no entry gives this.
const MARK: u64 = 0xa5a5_a5a5_a5a5_a5a5;

/// What a status says, where `outs` are the out numbers and `given` is what they mean.
fn told<T>(status: u32, place: usize, outs: &[u64], given: T) -> Result<T, Refusal> {
    if status == 0 {
        assert_eq!(
            place as u64, MARK,
            "the place is written though nothing is refused"
        );
        return Ok(given);
    }
    let left = outs.iter().all(|&out| out == MARK || out == MARK >> 32);
    assert!(
        left,
        "refused {status} {place}, and out numbers are written: {outs:x?}"
    );
    Err(Refusal {
        number: status as u8,
        place,
    })
}

/// What reading found: counts of unknowns, functors and equations, and of words.
pub struct Counts {
    pub unknowns: usize,
    pub functors: usize,
    pub equations: usize,
    pub used: usize,
}

pub fn read_question(
    text: &[u8],
    arities: &mut [u8],
    words: &mut [u16],
) -> Result<Counts, Refusal> {
    let mut outs = [MARK as usize; 4];
    let mut place = MARK as usize;
    let [unknowns, functors, equations, used] = &mut outs;
    // SAFETY: each pointer comes with the length of its slice, or points at a number.
    let status = unsafe {
        mensorique_read_question(
            text.as_ptr(),
            text.len(),
            arities.as_mut_ptr(),
            arities.len(),
            words.as_mut_ptr(),
            words.len(),
            unknowns,
            functors,
            equations,
            used,
            &mut place,
        )
    };
    let [unknowns, functors, equations, used] = outs;
    let counts = Counts {
        unknowns,
        functors,
        equations,
        used,
    };
    told(status, place, &outs.map(|out| out as u64), counts)
}

/// The length of the text.
pub fn write_question(question: &Question, text: &mut [u8]) -> Result<usize, Refusal> {
    let mut length = MARK as usize;
    let mut place = MARK as usize;
    // SAFETY: each pointer comes with the length of its slice, or points at a number.
    let status = unsafe {
        mensorique_write_question(
            question.unknowns as usize,
            question.arities.as_ptr(),
            question.arities.len(),
            question.equations as usize,
            question.words.as_ptr(),
            question.words.len(),
            text.as_mut_ptr(),
            text.len(),
            &mut length,
            &mut place,
        )
    };
    told(status, place, &[length as u64], length)
}

/// The length of the text.
pub fn write_answers(list: &AnswerList, text: &mut [u8]) -> Result<usize, Refusal> {
    let mut length = MARK as usize;
    let mut place = MARK as usize;
    // SAFETY: each pointer comes with the length of its slice, or points at a number.
    let status = unsafe {
        mensorique_write_answers(
            list.arities.as_ptr(),
            list.arities.len(),
            list.end,
            list.visited,
            list.answers as usize,
            list.words.as_ptr(),
            list.words.len(),
            text.as_mut_ptr(),
            text.len(),
            &mut length,
            &mut place,
        )
    };
    told(status, place, &[length as u64], length)
}

pub fn equal(arities: &[u8], row: &[u16]) -> Result<bool, Refusal> {
    let mut equal = MARK as u32;
    let mut place = MARK as usize;
    // SAFETY: each pointer comes with the length of its slice, or points at a number.
    let status = unsafe {
        mensorique_equal(
            arities.as_ptr(),
            arities.len(),
            row.as_ptr(),
            row.len(),
            &mut equal,
            &mut place,
        )
    };
    told(status, place, &[u64::from(equal)], equal).map(is_yes)
}

pub fn solves(question: &Question, row: &[u16]) -> Result<bool, Refusal> {
    let mut solves = MARK as u32;
    let mut place = MARK as usize;
    // SAFETY: each pointer comes with the length of its slice, or points at a number.
    let status = unsafe {
        mensorique_solves(
            question.unknowns as usize,
            question.arities.as_ptr(),
            question.arities.len(),
            question.equations as usize,
            question.words.as_ptr(),
            question.words.len(),
            row.as_ptr(),
            row.len(),
            &mut solves,
            &mut place,
        )
    };
    told(status, place, &[u64::from(solves)], solves).map(is_yes)
}

fn is_yes(out: u32) -> bool {
    assert!(out < 2, "{out} is neither yes nor no");
    out == 1
}

/// A run whose space is the whole of `answers`.
pub fn run(
    question: &Question,
    loan: &Loan,
    answers: &mut [u16],
    room: &mut [u16],
) -> Result<Outcome, Refusal> {
    let mut end = MARK as u32;
    let (mut visited, mut count) = (MARK, MARK);
    let mut used = MARK as usize;
    let mut place = MARK as usize;
    // SAFETY: each pointer comes with the length of its slice, or points at a number.
    let status = unsafe {
        mensorique_run(
            question.unknowns as usize,
            question.arities.as_ptr(),
            question.arities.len(),
            question.equations as usize,
            question.words.as_ptr(),
            question.words.len(),
            loan.steps,
            loan.depth as usize,
            loan.size as usize,
            answers.as_mut_ptr(),
            answers.len(),
            room.as_mut_ptr(),
            room.len(),
            &mut end,
            &mut visited,
            &mut count,
            &mut used,
            &mut place,
        )
    };
    let outcome = Outcome {
        end: u64::from(end),
        visited,
        answers: count,
        used,
    };
    told(
        status,
        place,
        &[outcome.end, visited, count, used as u64],
        outcome,
    )
}

/// The words of room that a run needs; 0 where a limit is exceeded.
pub fn room_words(loan: &Loan) -> usize {
    // SAFETY: two numbers go in and one comes back.
    unsafe { mensorique_room_words(loan.depth as usize, loan.size as usize) }
}
