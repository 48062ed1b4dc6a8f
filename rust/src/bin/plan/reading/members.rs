//! Reads the groups of a plan: sides, members, rests.
use super::fault::Fault;
use super::near::nearest;
use super::scan::Kind;
use super::{Meaning, Reader};
use crate::numbers::count;
use crate::terms::nesting;
use mensorique::{most, Term};

impl Reader {
    /// A group without its braces, or with them.
    pub fn side(&mut self) -> Result<Term, Fault> {
        let place = self.due.place;
        let mut side = Vec::new();
        if self.is('{') {
            let first = self.group()?;
            if !self.is(',') && !self.is('|') {
                return Ok(first);
            }
            side.push(first);
        }
        let side = self.members(side)?;
        match nesting(&side) > most::NESTING {
            true => Err(Fault::new(place, self.too_deep())),
            false => Ok(side),
        }
    }

    fn too_deep(&self) -> String {
        format!(
            "expected at most {} groups and brackets within each other",
            most::NESTING
        )
    }

    /// `{algebra, x | rest}`, or `{}`.
    fn group(&mut self) -> Result<Term, Fault> {
        self.enter()?;
        if self.took('}') {
            self.nesting -= 1;
            return Ok(Term::Empty);
        }
        let group = self.members(Vec::new())?;
        if !self.took('}') {
            return Err(self.expected("`,`, `|` or `}`"));
        }
        self.nesting -= 1;
        Ok(group)
    }

    /// Takes an opening bracket.
    fn enter(&mut self) -> Result<(), Fault> {
        if self.nesting == most::NESTING {
            return Err(Fault::new(self.due.place, self.too_deep()));
        }
        self.nesting += 1;
        self.take();
        Ok(())
    }

    /// `algebra, x, lab(y) | rest`, after members that were read already. There may be no members before the bar.
    fn members(&mut self, mut members: Vec<Term>) -> Result<Term, Fault> {
        if members.is_empty() && !self.is('|') {
            members.push(self.member()?);
        }
        while self.took(',') {
            members.push(self.member()?);
        }
        let tail = match self.took('|') {
            true => self.rest()?,
            false => Term::Empty,
        };
        Ok(Term::set_with(members, tail))
    }

    /// What the due name stands for.
    fn meaning(&self, expected: &str) -> Result<Meaning, Fault> {
        let name = match &self.due.kind {
            Kind::Word(name) | Kind::Quoted(name) => name,
            _ => return Err(self.expected(expected)),
        };
        if let Some((meaning, _)) = self.names.get(name) {
            return Ok(*meaning);
        }
        let found = format!("expected {expected}, and {} is not declared", self.due.kind);
        let said = match nearest(name, self.names.keys()) {
            Some(near) => format!("{found}: is it `{near}`?"),
            None => found,
        };
        Err(Fault::new(self.due.place, said))
    }

    /// An open rest, after the bar.
    fn rest(&mut self) -> Result<Term, Fault> {
        let found = match self.meaning("an open rest after `|`")? {
            Meaning::Rest(number) => {
                self.take();
                return Ok(Term::Unknown(number));
            }
            Meaning::Place(_) => "a place",
            Meaning::Course(_) => "a course",
        };
        let said = format!(
            "expected an open rest after `|`, and {} is {found}",
            self.due.kind
        );
        Err(Fault::new(self.due.place, said))
    }

    /// A course, a place or a group.
    fn member(&mut self) -> Result<Term, Fault> {
        let expected = "a course, a place or a group in braces";
        if self.is('{') {
            return self.group();
        }
        let number = match self.meaning(expected)? {
            Meaning::Place(number) => {
                self.take();
                return Ok(Term::Unknown(number));
            }
            Meaning::Rest(_) => {
                let rest = &self.due.kind;
                let said = format!(
                    "expected {expected}, and {rest} is an open rest, which stands after `|`"
                );
                return Err(Fault::new(self.due.place, said));
            }
            Meaning::Course(number) => number,
        };
        let course = self.take().kind;
        let arity = self.plan.courses[usize::from(number)].arity;
        let takes = format!("{course} takes {}", count(arity.into(), "argument"));
        let mut arguments = Vec::new();
        if arity == 0 {
            return match self.is('(') {
                true => Err(self.expected(&format!("no bracket, since {takes}"))),
                false => Ok(Term::constant(number)),
            };
        }
        if !self.is('(') {
            return Err(self.expected(&format!("`(`, since {takes}")));
        }
        self.enter()?;
        loop {
            arguments.push(self.member()?);
            let whole = arguments.len() == usize::from(arity);
            if whole && self.took(')') {
                self.nesting -= 1;
                return Ok(Term::Functor(number, arguments));
            }
            if whole || !self.took(',') {
                let mark = if whole {
                    "`)`"
                } else {
                    "`,` and another argument"
                };
                return Err(self.expected(&format!("{mark}, since {takes}")));
            }
        }
    }
}
