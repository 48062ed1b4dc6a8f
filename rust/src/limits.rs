//! What a run is lent: limits and room.
use crate::refusal::{Refusal, What};
use std::mem::MaybeUninit;

/// What a run may use: nodes visited, depth and size of a node, and words of answers. The default is that of the program `solve`.
///
/// ```
/// use mensorique::{End, Limits, Question, Term};
///
/// let mut question = Question::new(1, [0]);
/// question.equate(&Term::Unknown(0), &Term::set_with([Term::constant(0)], Term::Unknown(0)))?;
/// let few = Limits { steps: 2, ..Limits::default() };
/// assert_eq!(question.run(few)?.end(), End::Steps);
/// assert_eq!(question.run(Limits::MOST)?.end(), End::Done);
/// # Ok::<(), mensorique::Refusal>(())
/// ```
#[derive(Clone, Copy, Debug, PartialEq, Eq)]
pub struct Limits {
    /// At most 1,000,000,000.
    pub steps: u64,
    /// At most 1,024.
    pub depth: usize,
    /// At most 8,192.
    pub size: usize,
    /// The words that the list may have. Any number: no more are asked of this machine than the steps and the size can bring about, and what is not
    /// written to takes no memory where the system gives it page by page.
    pub answer_words: usize,
}

impl Limits {
    /// The most steps, depth and size that there are, with the default's words for answers.
    pub const MOST: Limits = Limits {
        steps: crate::most::STEPS,
        depth: crate::most::DEPTH,
        size: crate::most::SIZE,
        answer_words: Limits::DEFAULT.answer_words,
    };

    const DEFAULT: Limits = Limits {
        steps: 100_000,
        depth: 96,
        size: 256,
        answer_words: 4096,
    };

    /// The words that a list within these limits can have: an answer has one word more than its node has symbols, and each is a node.
    pub(crate) fn most_answer_words(&self) -> usize {
        let answers = usize::try_from(self.steps).unwrap_or(usize::MAX);
        let words = answers.saturating_mul(self.size.saturating_add(1));
        self.answer_words.min(words)
    }
}

impl Default for Limits {
    fn default() -> Limits {
        Limits::DEFAULT
    }
}

/// Working room, kept from one run to the next so that it is allocated once. Runs at the same time need one each.
///
/// It is not cleared: what room held before changes no result.
#[derive(Debug, Default)]
pub struct Room {
    /// Only the capacity counts.
    words: Vec<u16>,
}

impl Room {
    /// At least so many words.
    pub(crate) fn lend(&mut self, words: usize) -> Result<&mut [MaybeUninit<u16>], Refusal> {
        if self.words.capacity() < words {
            self.words = reserved(What::Room, words)?;
        }
        Ok(self.words.spare_capacity_mut())
    }
}

/// An empty vector with capacity for so many words or bytes, or the refusal that they cannot be had.
pub(crate) fn reserved<T>(what: What, count: usize) -> Result<Vec<T>, Refusal> {
    let mut reserved = Vec::new();
    match reserved.try_reserve_exact(count) {
        Ok(()) => Ok(reserved),
        Err(_) => Err(Refusal::memory(what, count)),
    }
}
