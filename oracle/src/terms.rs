//! Terms as trees, how they are written in words, and the specification's numbers: limits, ends and refusals.

use crate::words::check_question;
use std::rc::Rc;

pub const MOST_UNKNOWNS: u64 = 256;
pub const MOST_FUNCTORS: usize = 256;
pub const MOST_ARITY: u64 = 8;
pub const MOST_EQUATIONS: u64 = 64;
pub const MOST_SYMBOLS: usize = 4096;
pub const MOST_NESTING: usize = 200;
pub const MOST_STEPS: u64 = 1_000_000_000;
pub const MOST_DEPTH: u64 = 1024;
pub const MOST_SIZE: u64 = 8192;
/// Unknowns on a path, and so in an answer list, are numbered below this.
pub const NAMES: u64 = 512;

pub const EMPTY: u16 = 0;
pub const WITH: u16 = 1;
pub const UNKNOWN: u16 = 1000;
pub const FUNCTOR: u16 = 2000;

/// A refusal: its number in the specification's table (section 7), and the place.
#[derive(Clone, Copy, Debug, PartialEq, Eq)]
pub struct Refusal {
    pub number: u8,
    pub place: usize,
}

pub fn refuse<R>(number: u8, place: usize) -> Result<R, Refusal> {
    Err(Refusal { number, place })
}

/// A question as it is lent and as it is read: counts, arities and words.
#[derive(Clone, Debug, PartialEq, Eq)]
pub struct Question {
    pub unknowns: u64,
    pub arities: Vec<u8>,
    pub equations: u64,
    pub words: Vec<u16>,
}

pub type Equation = (Term, Term);

impl Question {
    /// The check of lent words, which gives the places where the terms begin.
    pub fn check(&self) -> Result<Vec<usize>, Refusal> {
        check_question(self.unknowns, &self.arities, self.equations, &self.words)
    }

    /// The equations of a good question, left and right.
    pub fn read_equations(&self) -> Vec<Equation> {
        let mut at = 0;
        let mut equations = Vec::new();
        for _ in 0..self.equations {
            let left = Term::read(&self.words, &mut at, &self.arities);
            let right = Term::read(&self.words, &mut at, &self.arities);
            equations.push((left, right));
        }
        equations
    }
}

#[derive(Debug)]
pub enum Shape {
    Unknown(u16),
    Empty,
    With(Term, Term),
    Functor(u16, Vec<Term>),
}

/// A term with its number of symbols. Equal parts may be shared, so the number is kept and not counted again.
#[derive(Clone, Debug)]
pub struct Term(Rc<(Shape, u64)>);

impl Term {
    pub fn unknown(number: u16) -> Term {
        Term(Rc::new((Shape::Unknown(number), 1)))
    }

    pub fn empty() -> Term {
        Term(Rc::new((Shape::Empty, 1)))
    }

    /// `{member|rest}`
    pub fn with(member: Term, rest: Term) -> Term {
        let size = 1 + member.size() + rest.size();
        Term(Rc::new((Shape::With(member, rest), size)))
    }

    pub fn functor(number: u16, arguments: Vec<Term>) -> Term {
        let size = 1 + arguments.iter().map(Term::size).sum::<u64>();
        Term(Rc::new((Shape::Functor(number, arguments), size)))
    }

    /// `{members|rest}`, which is the rest alone if there are no members.
    pub fn set(members: &[Term], rest: Term) -> Term {
        let mut set = rest;
        for member in members.iter().rev() {
            set = Term::with(member.clone(), set);
        }
        set
    }

    pub fn shape(&self) -> &Shape {
        &self.0 .0
    }

    /// The number of symbols.
    pub fn size(&self) -> u64 {
        self.0 .1
    }

    pub fn as_unknown(&self) -> Option<u16> {
        match self.shape() {
            Shape::Unknown(number) => Some(*number),
            _ => None,
        }
    }

    /// The members, in written order, and the kernel that is left when they are stripped.
    pub fn strip(&self) -> (Vec<Term>, Term) {
        let mut members = Vec::new();
        let mut rest = self;
        while let Shape::With(member, further) = rest.shape() {
            members.push(member.clone());
            rest = further;
        }
        (members, rest.clone())
    }

    /// Whether the unknown occurs anywhere in the term.
    pub fn mentions(&self, unknown: u16) -> bool {
        match self.shape() {
            Shape::Unknown(number) => *number == unknown,
            Shape::Empty => false,
            Shape::With(member, rest) => member.mentions(unknown) || rest.mentions(unknown),
            Shape::Functor(_, arguments) => arguments.iter().any(|a| a.mentions(unknown)),
        }
    }

    /// The term with `value` for each occurrence of the unknown.
    pub fn replace(&self, unknown: u16, value: &Term) -> Term {
        match self.shape() {
            Shape::Unknown(number) if *number == unknown => value.clone(),
            Shape::Unknown(_) | Shape::Empty => self.clone(),
            Shape::With(member, rest) => {
                Term::with(member.replace(unknown, value), rest.replace(unknown, value))
            }
            Shape::Functor(number, arguments) => Term::functor(
                *number,
                arguments
                    .iter()
                    .map(|a| a.replace(unknown, value))
                    .collect(),
            ),
        }
    }

    /// Writes the term's prefix words to the end of `words`.
    pub fn write(&self, words: &mut Vec<u16>) {
        match self.shape() {
            Shape::Unknown(number) => words.push(UNKNOWN + number),
            Shape::Empty => words.push(EMPTY),
            Shape::With(member, rest) => {
                words.push(WITH);
                member.write(words);
                rest.write(words);
            }
            Shape::Functor(number, arguments) => {
                words.push(FUNCTOR + number);
                for argument in arguments {
                    argument.write(words);
                }
            }
        }
    }

    pub fn words(&self) -> Vec<u16> {
        let mut words = Vec::new();
        self.write(&mut words);
        words
    }

    /// The term whose words begin at `at`, in words that were found good; `at` moves past it.
    pub fn read(words: &[u16], at: &mut usize, arities: &[u8]) -> Term {
        let word = words[*at];
        *at += 1;
        match word {
            EMPTY => Term::empty(),
            WITH => {
                let member = Term::read(words, at, arities);
                let rest = Term::read(words, at, arities);
                Term::with(member, rest)
            }
            UNKNOWN..FUNCTOR => Term::unknown(word - UNKNOWN),
            _ => {
                let number = word - FUNCTOR;
                let mut arguments = Vec::new();
                for _ in 0..arities[number as usize] {
                    arguments.push(Term::read(words, at, arities));
                }
                Term::functor(number, arguments)
            }
        }
    }
}
