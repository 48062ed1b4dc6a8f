//! The entries over slices, without allocation: what `include/mensorique.h` says of them holds here word for word.
use crate::refusal::Refusal;
use crate::{archive, culprits, Limits};
use std::mem::MaybeUninit;

/// A question in words.
#[derive(Clone, Copy, Debug)]
pub struct Asked<'a> {
    /// How many unknowns are declared.
    pub unknowns: usize,
    /// The arity of each functor.
    pub arities: &'a [u8],
    /// How many equations there are.
    pub equations: usize,
    /// Two terms for each equation, left then right, with nothing after.
    pub words: &'a [u16],
}

/// What [`read_question`] read into its buffers.
#[derive(Clone, Copy, Debug, PartialEq, Eq)]
pub struct Counts {
    /// How many unknowns are declared.
    pub unknowns: usize,
    /// How many arities stand at the start of their buffer.
    pub functors: usize,
    /// How many equations there are.
    pub equations: usize,
    /// How many words stand at the start of their buffer.
    pub words: usize,
}

/// How [`run`] ended, and what it counted.
#[derive(Clone, Copy, Debug, PartialEq, Eq)]
pub struct Ran {
    /// The end's number: 0, or 20 to 24.
    pub end: u32,
    /// How many nodes were visited.
    pub visited: u64,
    /// How many answers are listed.
    pub answers: u64,
    /// How many words of answers stand at the start of their buffer.
    pub words: usize,
}

/// The words of room that a run of this depth and size needs; 0 where one of them is above its limit.
pub fn room_words(depth: usize, size: usize) -> usize {
    // SAFETY: the function takes any numbers.
    unsafe { archive::mensorique_room_words(depth, size) }
}

/// Reads a question's text. 256 arities and 4,096 words always suffice.
pub fn read_question(
    text: &[u8],
    arities: &mut [u8],
    words: &mut [u16],
) -> Result<Counts, Refusal> {
    let mut read = Counts {
        unknowns: 0,
        functors: 0,
        equations: 0,
        words: 0,
    };
    let mut place = 0;
    // SAFETY: each pointer is a slice's, beside that slice's length; the lent slices and numbers are apart, being borrowed so.
    let status = unsafe {
        archive::mensorique_read_question(
            text.as_ptr(),
            text.len(),
            arities.as_mut_ptr(),
            arities.len(),
            words.as_mut_ptr(),
            words.len(),
            &mut read.unknowns,
            &mut read.functors,
            &mut read.equations,
            &mut read.words,
            &mut place,
        )
    };
    Refusal::told(status, place, || culprits::of_text(text, place)).map(|()| read)
}

/// Writes a question as text, and gives the text's length.
pub fn write_question(asked: Asked<'_>, text: &mut [u8]) -> Result<usize, Refusal> {
    let (mut length, mut place) = (0, 0);
    // SAFETY: as in `read_question`.
    let status = unsafe {
        archive::mensorique_write_question(
            asked.unknowns,
            asked.arities.as_ptr(),
            asked.arities.len(),
            asked.equations,
            asked.words.as_ptr(),
            asked.words.len(),
            text.as_mut_ptr(),
            text.len(),
            &mut length,
            &mut place,
        )
    };
    Refusal::told(status, place, || culprits::of_question(asked)).map(|()| length)
}

/// Writes a list of answers as text, and gives the text's length.
pub fn write_answers(
    arities: &[u8],
    end: u64,
    visited: u64,
    answers: usize,
    words: &[u16],
    text: &mut [u8],
) -> Result<usize, Refusal> {
    let (mut length, mut place) = (0, 0);
    // SAFETY: as in `read_question`.
    let status = unsafe {
        archive::mensorique_write_answers(
            arities.as_ptr(),
            arities.len(),
            end,
            visited,
            answers,
            words.as_ptr(),
            words.len(),
            text.as_mut_ptr(),
            text.len(),
            &mut length,
            &mut place,
        )
    };
    let culprit = || culprits::of_list(arities, end, visited);
    Refusal::told(status, place, culprit).map(|()| length)
}

/// Are the two ground terms of a row equal?
pub fn equal(arities: &[u8], row: &[u16]) -> Result<bool, Refusal> {
    let (mut equal, mut place) = (0, 0);
    // SAFETY: as in `read_question`.
    let status = unsafe {
        archive::mensorique_equal(
            arities.as_ptr(),
            arities.len(),
            row.as_ptr(),
            row.len(),
            &mut equal,
            &mut place,
        )
    };
    Refusal::told(status, place, || culprits::of_row(arities, row)).map(|()| equal == 1)
}

/// Do the ground values of a row, one for each unknown in order, solve a question?
pub fn solves(asked: Asked<'_>, row: &[u16]) -> Result<bool, Refusal> {
    let (mut solves, mut place) = (0, 0);
    // SAFETY: as in `read_question`.
    let status = unsafe {
        archive::mensorique_solves(
            asked.unknowns,
            asked.arities.as_ptr(),
            asked.arities.len(),
            asked.equations,
            asked.words.as_ptr(),
            asked.words.len(),
            row.as_ptr(),
            row.len(),
            &mut solves,
            &mut place,
        )
    };
    let culprit = || culprits::of_question(asked).or_else(|| culprits::of_row(asked.arities, row));
    Refusal::told(status, place, culprit).map(|()| solves == 1)
}

/// Lists the answers of a question into `answers`, in working room of at least [`room_words`] words.
pub fn run(
    asked: Asked<'_>,
    steps: u64,
    depth: usize,
    size: usize,
    answers: &mut [u16],
    room: &mut [u16],
) -> Result<Ran, Refusal> {
    let limits = Limits {
        steps,
        depth,
        size,
        answer_words: answers.len(),
    };
    // SAFETY: the answers' slice has that many words, and the archive writes words to both, so that they stay initialized.
    unsafe {
        let room = &mut *(room as *mut [u16] as *mut [MaybeUninit<u16>]);
        run_at(asked, limits, answers.as_mut_ptr(), room)
    }
}

/// The same with words that need not be initialized, neither those of answers nor of room: a granted run has written as many words of answers as it tells, and
/// what room held before changes no result.
///
/// # Safety
/// There are `limits.answer_words` words at `answers` that nothing else uses.
pub(crate) unsafe fn run_at(
    asked: Asked<'_>,
    limits: Limits,
    answers: *mut u16,
    room: &mut [MaybeUninit<u16>],
) -> Result<Ran, Refusal> {
    let mut ran = Ran {
        end: 0,
        visited: 0,
        answers: 0,
        words: 0,
    };
    let mut place = 0;
    let Limits {
        steps, depth, size, ..
    } = limits;
    // SAFETY: as in `read_question`; for the answers the caller vouches.
    let status = unsafe {
        archive::mensorique_run(
            asked.unknowns,
            asked.arities.as_ptr(),
            asked.arities.len(),
            asked.equations,
            asked.words.as_ptr(),
            asked.words.len(),
            steps,
            depth,
            size,
            answers,
            limits.answer_words,
            room.as_mut_ptr().cast(),
            room.len(),
            &mut ran.end,
            &mut ran.visited,
            &mut ran.answers,
            &mut ran.words,
            &mut place,
        )
    };
    let culprit = || culprits::of_run(asked, steps, depth, size);
    Refusal::told(status, place, culprit).map(|()| ran)
}
