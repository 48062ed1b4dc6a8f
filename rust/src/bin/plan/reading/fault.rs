//! What is wrong with a plan, and where.
use std::fmt;

/// A place in a plan: line and column, counted from 1; a column is a character.
#[derive(Clone, Copy, Debug, PartialEq, Eq)]
pub struct Place {
    pub line: usize,
    pub column: usize,
}

impl Place {
    pub const START: Place = Place { line: 1, column: 1 };

    /// The place after this character.
    pub fn after(self, character: char) -> Place {
        match character {
            '\n' => Place {
                line: self.line + 1,
                column: 1,
            },
            _ => Place {
                column: self.column + 1,
                ..self
            },
        }
    }
}

impl fmt::Display for Place {
    fn fmt(&self, f: &mut fmt::Formatter<'_>) -> fmt::Result {
        write!(f, "{}:{}", self.line, self.column)
    }
}

/// One line about one place.
#[derive(Debug)]
pub struct Fault {
    pub place: Place,
    pub said: String,
}

impl Fault {
    pub fn new(place: Place, said: impl Into<String>) -> Fault {
        let said = said.into();
        Fault { place, said }
    }
}

impl fmt::Display for Fault {
    fn fmt(&self, f: &mut fmt::Formatter<'_>) -> fmt::Result {
        write!(f, "{}: {}", self.place, self.said)
    }
}
