//! Questions: built term by term or read from text, and asked.
use crate::answers::{Answers, End, List};
use crate::limits::{reserved, Limits, Room};
use crate::most;
use crate::refusal::{Cause, Refusal, What};
use crate::term::Term;
use crate::words::{self, Asked, Ran};
use std::mem::MaybeUninit;
use std::sync::Arc;

/// A question: so many unknowns, the functors' arities, and equations between terms.
///
/// ```
/// use mensorique::{Question, Term};
///
/// // {f0|x0} = {f0,f1}
/// let mut question = Question::new(1, [0, 0]);
/// let left = Term::set_with([Term::constant(0)], Term::Unknown(0));
/// let right = Term::set([Term::constant(0), Term::constant(1)]);
/// question.equate(&left, &right)?;
/// assert_eq!(question.text()?, "edition=1\nunknowns=1\narities=0,0\nequations=1\nleft={f0|x0}\nright={f0,f1}\n");
/// assert!(question.solves(&[Term::set([Term::constant(1)])])?);
/// # Ok::<(), mensorique::Refusal>(())
/// ```
#[derive(Clone, Debug, PartialEq, Eq)]
pub struct Question {
    unknowns: usize,
    arities: Arc<[u8]>,
    equations: usize,
    words: Vec<u16>,
}

impl Question {
    /// A question without equations. Counts above their limits are refused when it is asked.
    pub fn new(unknowns: usize, arities: impl Into<Vec<u8>>) -> Question {
        Question {
            unknowns,
            arities: arities.into().into(),
            equations: 0,
            words: Vec::new(),
        }
    }

    /// Adds an equation. Refused with [`Cause::Undeclared`] or [`Cause::Arguments`] at the word that the name would have had; the question is then as it
    /// was.
    pub fn equate(&mut self, left: &Term, right: &Term) -> Result<&mut Question, Refusal> {
        let before = self.words.len();
        for side in [left, right] {
            if let Err(refusal) = side.append(self.unknowns, &self.arities, &mut self.words) {
                self.words.truncate(before);
                return Err(refusal);
            }
        }
        self.equations += 1;
        Ok(self)
    }

    /// Reads the text form.
    pub fn read(text: impl AsRef<[u8]>) -> Result<Question, Refusal> {
        let mut arities = [0; most::FUNCTORS];
        let mut words = vec![0; most::WORDS];
        let read = words::read_question(text.as_ref(), &mut arities, &mut words)?;
        words.truncate(read.words);
        words.shrink_to_fit();
        Ok(Question {
            unknowns: read.unknowns,
            arities: arities[..read.functors].into(),
            equations: read.equations,
            words,
        })
    }

    /// The text form. Reading it gives the same question.
    pub fn text(&self) -> Result<String, Refusal> {
        written(|text| words::write_question(self.asked(), text))
    }

    /// Do ground values, one for each unknown in order, solve the question?
    pub fn solves(&self, values: &[Term]) -> Result<bool, Refusal> {
        let mut row = Vec::new();
        for value in values {
            value.append(0, &self.arities, &mut row)?;
        }
        words::solves(self.asked(), &row)
    }

    /// Lists the answers, in room of its own.
    pub fn run(&self, limits: Limits) -> Result<Answers, Refusal> {
        self.run_in(limits, &mut Room::default())
    }

    /// Lists the answers, in room that is lent.
    ///
    /// Any limits may be asked for. Beside those above their bounds, words for answers or room that this machine has no memory for are refused, with
    /// [`Cause::Buffer`].
    pub fn run_in(&self, limits: Limits, room: &mut Room) -> Result<Answers, Refusal> {
        let room = self.room(limits, room)?;
        let answer_words = limits.most_answer_words();
        let limits = Limits {
            answer_words,
            ..limits
        };
        let mut listed = reserved(What::AnswerWords, answer_words)?;
        // SAFETY: there is capacity for that many words, and a granted run has written as many as it tells.
        let ran = unsafe { words::run_at(self.asked(), limits, listed.as_mut_ptr(), room)? };
        unsafe { listed.set_len(ran.words) };
        Ok(self.list(ran, &listed).kept())
    }

    /// Lists the answers into words that are lent, in room that is lent: nothing is allocated but room, where there is less than the run needs. As many words
    /// are used as [`Limits::answer_words`] says, or all where they are fewer.
    ///
    /// ```
    /// use mensorique::{Limits, Question, Room, Term};
    ///
    /// let (mut room, mut words) = (Room::default(), [0; 64]);
    /// for courses in 1..4 {
    ///     let mut question = Question::new(1, vec![0; courses.into()]);
    ///     let group = Term::set((0..courses).map(Term::constant));
    ///     question.equate(&Term::Unknown(0), &group)?;
    ///     let list = question.run_lent(Limits::default(), &mut room, &mut words)?;
    ///     assert_eq!(list.iter().next().unwrap()[0].value, group);
    /// }
    /// # Ok::<(), mensorique::Refusal>(())
    /// ```
    pub fn run_lent<'a>(
        &'a self,
        limits: Limits,
        room: &mut Room,
        words: &'a mut [u16],
    ) -> Result<List<'a>, Refusal> {
        let room = self.room(limits, room)?;
        let limits = Limits {
            answer_words: words.len().min(limits.answer_words),
            ..limits
        };
        // SAFETY: the slice has at least that many words.
        let ran = unsafe { words::run_at(self.asked(), limits, words.as_mut_ptr(), room)? };
        Ok(self.list(ran, &words[..ran.words]))
    }

    /// The question in words.
    pub fn asked(&self) -> Asked<'_> {
        Asked {
            unknowns: self.unknowns,
            arities: &self.arities,
            equations: self.equations,
            words: &self.words,
        }
    }
}

impl Question {
    /// The room that a run needs. A run without any is refused: for what is wrong with the limits or the question, or else for the room, with the
    /// words needed. So nothing is allocated for a run that would be refused.
    fn room<'a>(
        &self,
        limits: Limits,
        room: &'a mut Room,
    ) -> Result<&'a mut [MaybeUninit<u16>], Refusal> {
        let Limits {
            steps, depth, size, ..
        } = limits;
        match words::run(self.asked(), steps, depth, size, &mut [], &mut []) {
            Err(Refusal {
                cause: Cause::Buffer,
                place,
                ..
            }) => room.lend(place),
            Err(refusal) => Err(refusal),
            Ok(_) => room.lend(0),
        }
    }

    fn list<'a>(&'a self, ran: Ran, words: &'a [u16]) -> List<'a> {
        List {
            end: End::of_number(ran.end)
                .expect("the archive is proved to give an end of the table"),
            visited: ran.visited,
            count: ran.answers as usize,
            unknowns: self.unknowns,
            arities: &self.arities,
            words,
        }
    }
}

/// Are two ground terms equal, with these arities?
///
/// ```
/// use mensorique::{equal, Term};
///
/// let a = Term::constant(0);
/// assert!(equal(&[0], &Term::set([a.clone()]), &Term::set([a.clone(), a]))?);
/// # Ok::<(), mensorique::Refusal>(())
/// ```
pub fn equal(arities: &[u8], left: &Term, right: &Term) -> Result<bool, Refusal> {
    let mut row = Vec::new();
    left.append(0, arities, &mut row)?;
    right.append(0, arities, &mut row)?;
    words::equal(arities, &row)
}

/// Measures a text by lending nothing, then writes it. A text that this machine has no memory for is refused, with [`Cause::Buffer`].
pub(crate) fn written(
    write: impl Fn(&mut [u8]) -> Result<usize, Refusal>,
) -> Result<String, Refusal> {
    let mut text = match write(&mut []) {
        Err(Refusal {
            cause: Cause::Buffer,
            place,
            ..
        }) => {
            let mut text = reserved(What::Text, place)?;
            text.resize(place, 0);
            text
        }
        Err(refusal) => return Err(refusal),
        Ok(_) => Vec::new(),
    };
    let length = write(&mut text)?;
    text.truncate(length);
    Ok(String::from_utf8(text).expect("the text form is ASCII"))
}
