//! Why a call was refused, where, and what was too large.
use crate::most;
use std::error::Error;
use std::fmt;

/// The table of refusals. A cause's number is `cause as u32`.
#[derive(Clone, Copy, Debug, PartialEq, Eq, Hash)]
pub enum Cause {
    /// A byte that the text form hasn't here, or the text stops.
    Byte = 1,
    /// A number is missing or has a leading zero.
    Number = 2,
    /// A number, a count, a run limit or the 4,097th symbol is above its limit.
    Limit = 3,
    /// An unknown or a functor isn't declared.
    Undeclared = 4,
    /// A wrong count of arguments.
    Arguments = 5,
    /// Nesting above 200.
    Nesting = 6,
    /// A buffer or the room is too small; the place is the length needed.
    Buffer = 7,
    /// Words that form no such question, answer list or ground term.
    Words = 8,
}

/// What may be too large.
#[derive(Clone, Copy, Debug, PartialEq, Eq, Hash)]
pub enum What {
    /// The steps that a run is lent.
    Steps,
    /// The depth that a run is lent.
    Depth,
    /// The size that a run is lent; or the symbols of a term with all values put in.
    Size,
    /// The words for answers: there is no limit but this machine's memory.
    AnswerWords,
    /// The words of room: there is no limit but this machine's memory.
    Room,
    /// The bytes of a text to be written: there is no limit but this machine's memory.
    Text,
    /// The count of unknowns, or an unknown's number.
    Unknowns,
    /// The count of functors, or a functor's number.
    Functors,
    /// The arity of a functor.
    Arity,
    /// The count of equations.
    Equations,
    /// The count of words of a question, or of the ground terms lent to a call.
    Words,
    /// The edition of a text.
    Edition,
    /// The number of an end.
    End,
    /// The visited number of a list.
    Visited,
}

impl What {
    /// The most that there may be of it, where there is such a number.
    pub fn most(self) -> Option<u64> {
        Some(match self {
            What::Steps | What::Visited => most::STEPS,
            What::Depth => most::DEPTH as u64,
            What::Size => most::SIZE as u64,
            What::Unknowns => most::UNKNOWNS as u64,
            What::Functors => most::FUNCTORS as u64,
            What::Arity => most::ARITY.into(),
            What::Equations => most::EQUATIONS as u64,
            What::Words => most::WORDS as u64,
            What::AnswerWords | What::Room | What::Text | What::Edition | What::End => return None,
        })
    }
}

impl fmt::Display for What {
    fn fmt(&self, f: &mut fmt::Formatter<'_>) -> fmt::Result {
        f.write_str(match self {
            What::Steps => "steps",
            What::Depth => "depth",
            What::Size => "size",
            What::AnswerWords => "words for answers",
            What::Room => "words of room",
            What::Text => "bytes of text",
            What::Unknowns => "unknowns",
            What::Functors => "functors",
            What::Arity => "arity",
            What::Equations => "equations",
            What::Words => "words",
            What::Edition => "edition",
            What::End => "end",
            What::Visited => "visited",
        })
    }
}

/// What was too large in a call, and the number that it had.
#[derive(Clone, Copy, Debug, PartialEq, Eq, Hash)]
pub struct Culprit {
    /// What.
    pub what: What,
    /// Its number, or the largest number that there is where it has more digits than that.
    pub given: u64,
}

impl Culprit {
    pub(crate) fn new(what: What, given: usize) -> Culprit {
        let given = given as u64;
        Culprit { what, given }
    }
}

/// A refusal: its cause and its place, an offset in bytes of text or in words; for [`Cause::Buffer`] the length needed.
///
/// ```
/// use mensorique::{Cause, Limits, Question, What};
///
/// let question = Question::new(0, []);
/// let refusal = question.run(Limits { depth: 2000, ..Limits::default() }).unwrap_err();
/// assert_eq!(refusal.cause, Cause::Limit);
/// assert_eq!(refusal.culprit.unwrap().what, What::Depth);
/// assert_eq!(refusal.to_string(), "depth: 2000 is above the limit 1024");
/// ```
#[derive(Clone, Copy, Debug, PartialEq, Eq, Hash)]
pub struct Refusal {
    /// Why.
    pub cause: Cause,
    /// Where.
    pub place: usize,
    /// What was too large, where the cause is [`Cause::Limit`] or memory couldn't be had; if several things were, the first of them.
    pub culprit: Option<Culprit>,
}

impl Refusal {
    pub(crate) fn new(cause: Cause, place: usize) -> Refusal {
        Refusal {
            cause,
            place,
            culprit: None,
        }
    }

    /// What a status and a place say: nothing where the call was granted. Where something is above its limit, `culprit` looks for it.
    pub(crate) fn told(
        status: u32,
        place: usize,
        culprit: impl FnOnce() -> Option<Culprit>,
    ) -> Result<(), Refusal> {
        let cause = match status {
            0 => return Ok(()),
            1 => Cause::Byte,
            2 => Cause::Number,
            3 => Cause::Limit,
            4 => Cause::Undeclared,
            5 => Cause::Arguments,
            6 => Cause::Nesting,
            7 => Cause::Buffer,
            8 => Cause::Words,
            other => {
                unreachable!("the archive is proved to give a status of at most 8, not {other}")
            }
        };
        let culprit = match cause {
            Cause::Limit => culprit(),
            _ => None,
        };
        Err(Refusal {
            cause,
            place,
            culprit,
        })
    }

    /// So many words or bytes cannot be had.
    pub(crate) fn memory(what: What, count: usize) -> Refusal {
        Refusal {
            culprit: Some(Culprit::new(what, count)),
            ..Refusal::new(Cause::Buffer, count)
        }
    }
}

impl fmt::Display for Refusal {
    fn fmt(&self, f: &mut fmt::Formatter<'_>) -> fmt::Result {
        let place = self.place;
        match (self.cause, self.culprit) {
            (Cause::Byte, _) => write!(
                f,
                "the text has a byte that can't stand at {place}, or stops there"
            ),
            (Cause::Number, _) => write!(f, "a number is missing or has a leading zero at {place}"),
            (Cause::Limit, Some(Culprit { what, given })) => match what.most() {
                Some(most) => write!(f, "{what}: {given} is above the limit {most}"),
                None => write!(f, "{what}: there is no {given}"),
            },
            (Cause::Limit, None) => write!(f, "something is above its limit at {place}"),
            (Cause::Undeclared, _) => write!(
                f,
                "an unknown or a functor that isn't declared stands at {place}"
            ),
            (Cause::Arguments, _) => {
                write!(f, "a functor has a wrong count of arguments at {place}")
            }
            (Cause::Nesting, _) => write!(f, "brackets nest above 200 at {place}"),
            (Cause::Buffer, Some(Culprit { what, given })) => {
                write!(f, "{what}: this machine has no memory for {given}")
            }
            (Cause::Buffer, None) => write!(f, "a buffer is too small: {place} are needed"),
            (Cause::Words, _) => write!(
                f,
                "the words form no such terms: the word at {place} can't stand there"
            ),
        }
    }
}

impl Error for Refusal {}
