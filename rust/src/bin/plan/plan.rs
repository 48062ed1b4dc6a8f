//! A plan: courses, places, open rests, and equations between groups of them; and terms as a plan writes them.
use crate::loan::Loan;
use crate::reading::{is_word, WORDS};
use mensorique::{Question, Refusal, Term};

pub struct Course {
    pub name: String,
    pub arity: u8,
}

/// An unknown: a place to fill, or an open rest.
pub struct Open {
    pub name: String,
    pub is_rest: bool,
}

pub struct Equation {
    pub label: Option<String>,
    pub left: Term,
    pub right: Term,
}

/// Course k is functor k, and the unknowns are numbered in the order of their declarations.
#[derive(Default)]
pub struct Plan {
    pub courses: Vec<Course>,
    pub open: Vec<Open>,
    pub equations: Vec<Equation>,
    pub loan: Loan,
}

impl Plan {
    pub fn question(&self) -> Result<Question, Refusal> {
        let arities: Vec<u8> = self.courses.iter().map(|course| course.arity).collect();
        let mut question = Question::new(self.open.len(), arities);
        for equation in &self.equations {
            question.equate(&equation.left, &equation.right)?;
        }
        Ok(question)
    }

    /// The name of an unknown. New ones are `more`, `more2`, .., with `_` after `more` where a name of the plan begins so.
    pub fn unknown(&self, i: u16) -> String {
        let number = usize::from(i);
        if let Some(open) = self.open.get(number) {
            return quoted(&open.name);
        }
        let open = self.open.iter().map(|open| &open.name);
        let courses = self.courses.iter().map(|course| &course.name);
        let names: Vec<&String> = open.chain(courses).collect();
        let mut more = "more".to_string();
        while names.iter().any(|name| name.starts_with(&more)) {
            more.push('_');
        }
        let before = number - self.open.len();
        if before > 0 {
            more += &(before + 1).to_string();
        }
        more
    }

    /// A member of a group, or an argument.
    pub fn member(&self, term: &Term) -> String {
        match term {
            Term::Unknown(i) => match self.open.get(usize::from(*i)) {
                Some(open) if open.is_rest => format!("{{| {}}}", self.unknown(*i)),
                _ => self.unknown(*i),
            },
            Term::Empty => "{}".to_string(),
            Term::Functor(k, arguments) => {
                let name = quoted(&self.courses[usize::from(*k)].name);
                match arguments.as_slice() {
                    [] => name,
                    arguments => format!("{name}({})", self.all(arguments)),
                }
            }
            Term::Set(members, tail) => format!("{{{}}}", self.members(members, tail)),
        }
    }

    /// A side of an equation, or a group: without its braces, unless it would then read as another.
    pub fn group(&self, term: &Term) -> String {
        match term {
            Term::Set(members, tail) => {
                let only = members.len() == 1 && **tail == Term::Empty;
                let written = self.members(members, tail);
                // A group whose only member is a group would read as that one.
                match only && written.starts_with('{') {
                    true => format!("{{{written}}}"),
                    false => written,
                }
            }
            Term::Unknown(i) => format!("| {}", self.unknown(*i)),
            term => self.member(term),
        }
    }

    fn members(&self, members: &[Term], tail: &Term) -> String {
        let members = self.all(members);
        match tail {
            Term::Empty => members,
            Term::Unknown(i) => format!("{members} | {}", self.unknown(*i)),
            tail => format!("{members} | {}", self.member(tail)),
        }
    }

    fn all(&self, terms: &[Term]) -> String {
        let terms: Vec<String> = terms.iter().map(|term| self.member(term)).collect();
        terms.join(", ")
    }

    /// The equation as it was asked, with its label.
    pub fn written(&self, equation: &Equation) -> String {
        let label = equation.label.as_ref().map(|label| quoted(label) + ": ");
        let (left, right) = (self.group(&equation.left), self.group(&equation.right));
        format!("{}{left} = {right}", label.unwrap_or_default())
    }
}

/// The name as it can stand in a plan.
pub fn quoted(name: &str) -> String {
    match is_word(name) && !WORDS.contains(&name) {
        true => name.to_string(),
        false => format!("\"{name}\""),
    }
}
