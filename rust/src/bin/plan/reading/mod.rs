//! Reads a plan. docs/PLAN.md has the grammar; each function below reads one line of it.
mod fault;
mod members;
mod near;
mod scan;

pub use fault::{Fault, Place};
pub use scan::is_word;

use crate::loan::Loan;
use crate::plan::{Course, Equation, Open, Plan};
use crate::terms::symbols;
use mensorique::most;
use scan::{scan, Kind, Token};
use std::collections::HashMap;

/// The words that begin a line, and can be no name without quotes.
pub const WORDS: &[&str] = &["courses", "places", "rests", "lend"];

/// What a name stands for.
#[derive(Clone, Copy)]
pub enum Meaning {
    Course(u16),
    Place(u16),
    Rest(u16),
}

pub struct Reader {
    /// The token that is due, and those after it.
    pub due: Token,
    tokens: std::vec::IntoIter<Token>,
    pub plan: Plan,
    pub names: HashMap<String, (Meaning, Place)>,
    labels: HashMap<String, Place>,
    /// Brackets that are open.
    pub nesting: usize,
    /// The words that the equations have so far.
    words: usize,
}

pub fn read(bytes: &[u8]) -> Result<Plan, Fault> {
    let mut tokens = scan(bytes)?.into_iter();
    let mut reader = Reader {
        due: tokens.next().expect("an end"),
        tokens,
        plan: Plan::default(),
        names: HashMap::new(),
        labels: HashMap::new(),
        nesting: 0,
        words: 0,
    };
    while reader.due.kind != Kind::End {
        reader.line()?;
    }
    if reader.plan.equations.is_empty() {
        return Err(reader.expected("an equation between two groups, as `x, y = algebra | rest`"));
    }
    Ok(reader.plan)
}

impl Reader {
    pub fn expected(&self, what: &str) -> Fault {
        let found = &self.due.kind;
        Fault::new(
            self.due.place,
            format!("expected {what}, and found {found}"),
        )
    }

    pub fn is(&self, mark: char) -> bool {
        self.due.kind == Kind::Mark(mark)
    }

    /// The due token; the next one is due then.
    pub fn take(&mut self) -> Token {
        let end = || Token {
            kind: Kind::End,
            place: self.due.place,
        };
        let due = self.tokens.next().unwrap_or_else(end);
        std::mem::replace(&mut self.due, due)
    }

    /// Takes the mark if it is due.
    pub fn took(&mut self, mark: char) -> bool {
        let is = self.is(mark);
        if is {
            self.take();
        }
        is
    }

    /// One line: a declaration, a loan or an equation.
    fn line(&mut self) -> Result<(), Fault> {
        let word = match &self.due.kind {
            Kind::Word(word) => WORDS.iter().copied().find(|known| known == word),
            _ => None,
        };
        match word {
            Some("courses") => self.list("another course", Reader::course)?,
            Some("places") => self.list("another place", |reader| reader.open(false))?,
            Some("rests") => self.list("another open rest", |reader| reader.open(true))?,
            Some(_) => self.list("another loan", Reader::loan)?,
            None => self.equation()?,
        }
        match self.due.kind {
            Kind::LineEnd => {
                self.take();
            }
            Kind::End => {}
            _ => return Err(self.expected("the end of the line")),
        }
        Ok(())
    }

    /// After the line's word: things with commas between.
    fn list(
        &mut self,
        another: &str,
        one: impl Fn(&mut Reader) -> Result<(), Fault>,
    ) -> Result<(), Fault> {
        self.take();
        loop {
            one(self)?;
            if self.took(',') {
                continue;
            }
            return match self.due.kind {
                Kind::LineEnd | Kind::End => Ok(()),
                _ => Err(self.expected(&format!("`,` and {another}, or the end of the line"))),
            };
        }
    }

    /// A name that is declared here, as what.
    fn declared(&mut self, what: &str, meaning: Meaning) -> Result<String, Fault> {
        let place = self.due.place;
        let name = match &self.due.kind {
            Kind::Word(word) if WORDS.contains(&word.as_str()) => {
                return Err(self.expected(&format!("the name of {what} (this one in quotes)")))
            }
            Kind::Word(name) | Kind::Quoted(name) => name.clone(),
            _ => return Err(self.expected(&format!("the name of {what}"))),
        };
        if let Some((_, first)) = self.names.get(&name) {
            let said = format!("expected a new name, and `{name}` is declared at {first}");
            return Err(Fault::new(place, said));
        }
        self.take();
        self.names.insert(name.clone(), (meaning, place));
        Ok(name)
    }

    /// No more than there may be.
    fn room(&self, have: usize, most: usize, what: &str) -> Result<u16, Fault> {
        match u16::try_from(have) {
            Ok(number) if have < most => Ok(number),
            _ => Err(self.expected(&format!("no more than {most} {what}"))),
        }
    }

    /// `algebra`, or `lab(_)`.
    fn course(&mut self) -> Result<(), Fault> {
        let number = self.room(self.plan.courses.len(), most::FUNCTORS, "courses")?;
        let name = self.declared("a course", Meaning::Course(number))?;
        let mut arity = 0;
        if self.took('(') {
            loop {
                if arity == most::ARITY {
                    let most = format!("`)`: a course takes at most {} arguments", most::ARITY);
                    return Err(self.expected(&most));
                }
                if !self.took('_') {
                    return Err(self.expected("`_` for an argument, as in `lab(_)`"));
                }
                arity += 1;
                if self.took(')') {
                    break;
                }
                if !self.took(',') {
                    return Err(self.expected("`,` or `)`"));
                }
            }
        }
        self.plan.courses.push(Course { name, arity });
        Ok(())
    }

    /// A place or an open rest.
    fn open(&mut self, is_rest: bool) -> Result<(), Fault> {
        let number = self.room(self.plan.open.len(), most::UNKNOWNS, "places and rests")?;
        let name = match is_rest {
            true => self.declared("an open rest", Meaning::Rest(number))?,
            false => self.declared("a place", Meaning::Place(number))?,
        };
        self.plan.open.push(Open { name, is_rest });
        Ok(())
    }

    /// `steps 1000`.
    fn loan(&mut self) -> Result<(), Fault> {
        let what = match &self.due.kind {
            Kind::Word(what) if Loan::WORDS.contains(&what.as_str()) => what.clone(),
            _ => return Err(self.expected("steps, depth, size, space or time")),
        };
        self.take();
        let Kind::Word(number) = &self.due.kind else {
            return Err(self.expected(&format!("a number for {what}")));
        };
        let loan = Loan::of(&what, number).map_err(|expected| self.expected(&expected))?;
        self.plan.loan = loan.or(self.plan.loan);
        self.take();
        Ok(())
    }

    /// `monday: x, y = algebra | rest`; the label may be left out.
    fn equation(&mut self) -> Result<(), Fault> {
        let place = self.due.place;
        self.room(self.plan.equations.len(), most::EQUATIONS, "equations")?;
        let next = self.tokens.as_slice().first();
        let is_labelled = next.is_some_and(|token| token.kind == Kind::Mark(':'));
        let label = match &self.due.kind {
            Kind::Word(label) | Kind::Quoted(label) if is_labelled => Some(label.clone()),
            _ => None,
        };
        if let Some(label) = &label {
            if let Some(first) = self.labels.insert(label.clone(), place) {
                let said = format!("expected a new label, and `{label}` stands at {first}");
                return Err(Fault::new(place, said));
            }
            self.take();
            self.take();
        }
        let left = self.side()?;
        if !self.took('=') {
            return Err(self.expected("`,`, `|` or `=`"));
        }
        let right = self.side()?;
        self.words += symbols(&left) + symbols(&right);
        if self.words > most::WORDS {
            let said = format!(
                "expected at most {} symbols in all equations, and with this one there are {}",
                most::WORDS,
                self.words
            );
            return Err(Fault::new(place, said));
        }
        self.plan.equations.push(Equation { label, left, right });
        Ok(())
    }
}
