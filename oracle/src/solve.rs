//! The program `solve`: a question's text in, an answer list's text out, or the refusal.

use crate::search::{search, Loan};
use crate::terms::*;
use crate::text::reader::read;
use crate::text::writers::{write_answers, AnswerList};

/// `solve` reads at most so many bytes, more than any good question has.
pub const MOST_BYTES: usize = 32_768;

const LOAN: Loan = Loan {
    steps: 100_000,
    depth: 96,
    size: 256,
    space: 4096,
};

/// What `solve` prints for what it read.
pub fn solve(text: &[u8]) -> Vec<u8> {
    match answer(&text[..text.len().min(MOST_BYTES)]) {
        Ok(text) => text,
        Err(Refusal { number, place }) => format!("refused={number}\nplace={place}\n").into_bytes(),
    }
}

fn answer(text: &[u8]) -> Result<Vec<u8>, Refusal> {
    let question = read(text)?;
    let outcome = search(&question, &LOAN);
    write_answers(&AnswerList::of(question.arities, outcome), usize::MAX)
}
