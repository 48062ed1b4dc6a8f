//! What a run lists: answers, and how it ended.
use crate::answer::{Answer, Binding};
use crate::groups::{self, Group};
use crate::question::written;
use crate::refusal::Refusal;
use crate::term::Term;
use crate::words;
use std::fmt;
use std::sync::Arc;

/// How a run ended. Only [`End::Done`] is final: then every answer is listed. After any other end the list is true but need not be whole.
#[derive(Clone, Copy, Debug, PartialEq, Eq, Hash)]
pub enum End {
    /// Every node was visited and every answer held.
    Done = 0,
    /// Another node is due and steps are spent.
    Steps = 20,
    /// The due node is deeper than lent.
    Depth = 21,
    /// The due node is larger than lent.
    Size = 22,
    /// An answer's words don't fit what remains.
    Space = 23,
    /// The due node would need unknown 512.
    Names = 24,
}

impl End {
    /// The end that has a number, if the table has it.
    pub fn of_number(number: u32) -> Option<End> {
        Some(match number {
            0 => End::Done,
            20 => End::Steps,
            21 => End::Depth,
            22 => End::Size,
            23 => End::Space,
            24 => End::Names,
            _ => return None,
        })
    }
}

impl fmt::Display for End {
    fn fmt(&self, f: &mut fmt::Formatter<'_>) -> fmt::Result {
        f.write_str(match self {
            End::Done => "done",
            End::Steps => "steps",
            End::Depth => "depth",
            End::Size => "size",
            End::Space => "space",
            End::Names => "names",
        })
    }
}

/// The answers that a run listed into lent words, in order: [`Question::run_lent`](crate::Question::run_lent) gives it.
#[derive(Clone, Copy, Debug, PartialEq, Eq)]
pub struct List<'a> {
    pub(crate) end: End,
    pub(crate) visited: u64,
    pub(crate) count: usize,
    pub(crate) unknowns: usize,
    pub(crate) arities: &'a Arc<[u8]>,
    pub(crate) words: &'a [u16],
}

impl<'a> List<'a> {
    /// How the run ended.
    pub fn end(&self) -> End {
        self.end
    }

    /// How many nodes were visited.
    pub fn visited(&self) -> u64 {
        self.visited
    }

    /// How many answers are listed.
    pub fn len(&self) -> usize {
        self.count
    }

    /// Whether no answer is listed; only after [`End::Done`] does that mean that there is none.
    pub fn is_empty(&self) -> bool {
        self.count == 0
    }

    /// The words of the list: for each answer its number of bindings, and for each binding the unknown's number and its value's words.
    pub fn words(&self) -> &'a [u16] {
        self.words
    }

    /// The list's text form. Refused where a value nests too deep for a text, or this machine has no memory for it.
    pub fn text(&self) -> Result<String, Refusal> {
        let end = self.end as u64;
        written(|text| {
            words::write_answers(
                self.arities,
                end,
                self.visited,
                self.count,
                self.words,
                text,
            )
        })
    }

    /// The answers, one after the other.
    pub fn iter(&self) -> Iter<'a> {
        Iter {
            left: self.count,
            words: self.words,
            arities: self.arities,
        }
    }

    /// The distinct groups that the answers make of these terms: every answer's values are put in, and answers whose terms are equal by the laws, one by
    /// one, are of one group. [`Group`] says how unknowns are taken that have no value.
    ///
    /// Groups come in the order in which they were first listed, so that more steps, depth, size or space never alter a group, but may list it more
    /// often. Refused are terms that are too large to be compared: with all values put in, a term may have half of [`most::WORDS`](crate::most::WORDS).
    ///
    /// ```
    /// use mensorique::{Limits, Question, Term};
    ///
    /// // {x0,x1} = {f0,f1}: two answers, and one group, {f0,f1}.
    /// let mut question = Question::new(2, [0, 0]);
    /// let places = Term::set([Term::Unknown(0), Term::Unknown(1)]);
    /// let courses = Term::set([Term::constant(0), Term::constant(1)]);
    /// question.equate(&places, &courses)?;
    /// let answers = question.run(Limits::default())?;
    /// let groups = answers.groups(&[places])?;
    /// assert_eq!(groups.len(), 1);
    /// assert_eq!(groups[0].terms, [courses]);
    /// assert_eq!(groups[0].listed, [0, 1]);
    /// // What x0 is makes two.
    /// assert_eq!(answers.groups(&[Term::Unknown(0)])?.len(), 2);
    /// # Ok::<(), mensorique::Refusal>(())
    /// ```
    pub fn groups(&self, terms: &[Term]) -> Result<Vec<Group>, Refusal> {
        groups::distinct(*self, terms)
    }

    /// The list in memory of its own, which holds its words and no more.
    pub fn kept(&self) -> Answers {
        Answers {
            end: self.end,
            visited: self.visited,
            count: self.count,
            unknowns: self.unknowns,
            arities: self.arities.clone(),
            words: self.words.into(),
        }
    }
}

/// The answers that a run listed, in order, in memory of their own: see [`List`], which has the same functions.
#[derive(Clone, Debug, PartialEq, Eq)]
pub struct Answers {
    end: End,
    visited: u64,
    count: usize,
    unknowns: usize,
    arities: Arc<[u8]>,
    words: Box<[u16]>,
}

impl Answers {
    /// The list, borrowed.
    pub fn list(&self) -> List<'_> {
        List {
            end: self.end,
            visited: self.visited,
            count: self.count,
            unknowns: self.unknowns,
            arities: &self.arities,
            words: &self.words,
        }
    }

    /// How the run ended.
    pub fn end(&self) -> End {
        self.end
    }

    /// How many nodes were visited.
    pub fn visited(&self) -> u64 {
        self.visited
    }

    /// How many answers are listed.
    pub fn len(&self) -> usize {
        self.count
    }

    /// Whether no answer is listed; only after [`End::Done`] does that mean that there is none.
    pub fn is_empty(&self) -> bool {
        self.count == 0
    }

    /// The words of the list: see [`List::words`].
    pub fn words(&self) -> &[u16] {
        &self.words
    }

    /// The list's text form: see [`List::text`].
    pub fn text(&self) -> Result<String, Refusal> {
        self.list().text()
    }

    /// The answers, one after the other.
    pub fn iter(&self) -> Iter<'_> {
        self.list().iter()
    }

    /// The distinct groups that the answers make of these terms: see [`List::groups`].
    pub fn groups(&self, terms: &[Term]) -> Result<Vec<Group>, Refusal> {
        self.list().groups(terms)
    }
}

impl<'a> IntoIterator for List<'a> {
    type Item = Answer;
    type IntoIter = Iter<'a>;

    fn into_iter(self) -> Iter<'a> {
        self.iter()
    }
}

impl<'a> IntoIterator for &'a Answers {
    type Item = Answer;
    type IntoIter = Iter<'a>;

    fn into_iter(self) -> Iter<'a> {
        self.iter()
    }
}

/// Goes through the answers; each is made when it is due.
#[derive(Clone, Debug)]
pub struct Iter<'a> {
    left: usize,
    words: &'a [u16],
    arities: &'a [u8],
}

impl Iter<'_> {
    fn take_word(&mut self) -> u16 {
        let word = self.words[0];
        self.words = &self.words[1..];
        word
    }
}

impl Iterator for Iter<'_> {
    type Item = Answer;

    fn next(&mut self) -> Option<Answer> {
        self.left = self.left.checked_sub(1)?;
        let bindings = self.take_word();
        let binding = |_| Binding {
            unknown: self.take_word(),
            value: Term::take(&mut self.words, self.arities),
        };
        Some(Answer::new((0..bindings).map(binding).collect()))
    }

    fn size_hint(&self) -> (usize, Option<usize>) {
        (self.left, Some(self.left))
    }
}

impl ExactSizeIterator for Iter<'_> {}
