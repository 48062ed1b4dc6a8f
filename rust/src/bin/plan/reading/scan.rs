//! A plan's text as tokens. Blanks and comments are gone, and so is the end of a line where the line goes on.
use super::fault::{Fault, Place};
use std::fmt;

#[derive(Clone, Debug, PartialEq, Eq)]
pub enum Kind {
    /// A name or a number as it stands.
    Word(String),
    /// A name in quotes.
    Quoted(String),
    /// One of the marks `, | = : ( ) { } _`.
    Mark(char),
    /// The end of a line that does not go on.
    LineEnd,
    /// The end of the plan.
    End,
}

/// What stands there, to be told.
impl fmt::Display for Kind {
    fn fmt(&self, f: &mut fmt::Formatter<'_>) -> fmt::Result {
        match self {
            Kind::Word(word) => write!(f, "`{word}`"),
            Kind::Quoted(name) => write!(f, "`\"{name}\"`"),
            Kind::Mark(mark) => write!(f, "`{mark}`"),
            Kind::LineEnd => f.write_str("the end of the line"),
            Kind::End => f.write_str("the end of the plan"),
        }
    }
}

#[derive(Clone, Debug)]
pub struct Token {
    pub kind: Kind,
    pub place: Place,
}

/// Does a name without quotes begin so, and go on so?
fn begins_word(character: char) -> bool {
    character.is_alphanumeric()
}

fn is_of_word(character: char) -> bool {
    character.is_alphanumeric() || "_-.'".contains(character)
}

/// Can the name stand without quotes?
pub fn is_word(name: &str) -> bool {
    name.starts_with(begins_word) && name.chars().all(is_of_word)
}

/// The tokens of a plan, `End` the last.
pub fn scan(bytes: &[u8]) -> Result<Vec<Token>, Fault> {
    let text = match std::str::from_utf8(bytes) {
        Ok(text) => text,
        Err(error) => {
            let (good, bad) = bytes.split_at(error.valid_up_to());
            let good = String::from_utf8_lossy(good);
            let place = good.chars().fold(Place::START, Place::after);
            let said = format!("expected text in UTF-8, and found the byte {:#04x}", bad[0]);
            return Err(Fault::new(place, said));
        }
    };
    let mut tokens = Vec::new();
    let mut place = Place::START;
    // A byte order mark is no part of the plan.
    let mut rest = text.strip_prefix('\u{feff}').unwrap_or(text);
    while let Some(first) = rest.chars().next() {
        let (kind, length) = match first {
            '\n' => (Some(Kind::LineEnd), first.len_utf8()),
            '#' => (None, rest.find('\n').unwrap_or(rest.len())),
            '"' => {
                let (name, length) = quoted(rest, place)?;
                (Some(name), length)
            }
            first if first.is_whitespace() => (None, first.len_utf8()),
            first if begins_word(first) => {
                let length = rest.find(|c| !is_of_word(c)).unwrap_or(rest.len());
                (Some(Kind::Word(rest[..length].to_string())), length)
            }
            first if ",|=:(){}_".contains(first) => (Some(Kind::Mark(first)), first.len_utf8()),
            first => {
                let said = format!(
                    "expected a name or one of the marks , | = : ( ) {{ }} and found {first:?}: a name with other characters stands in quotes"
                );
                return Err(Fault::new(place, said));
            }
        };
        tokens.extend(kind.map(|kind| Token { kind, place }));
        place = rest[..length].chars().fold(place, Place::after);
        rest = &rest[length..];
    }
    tokens.push(Token {
        kind: Kind::End,
        place,
    });
    Ok(joined(tokens))
}

/// The name in quotes at the start of `rest`, and its length with the quotes.
fn quoted(rest: &str, place: Place) -> Result<(Kind, usize), Fault> {
    let inner = &rest['"'.len_utf8()..];
    let length = inner.find(['"', '\n']).unwrap_or(inner.len());
    let (name, after) = inner.split_at(length);
    if !after.starts_with('"') {
        return Err(Fault::new(place, "expected a closing `\"` in this line"));
    }
    if name.trim().is_empty() || name.contains(char::is_control) {
        return Err(Fault::new(place, "expected a name between the quotes"));
    }
    Ok((
        Kind::Quoted(name.to_string()),
        rest.len() - after.len() + '"'.len_utf8(),
    ))
}

/// Without the ends of lines that go on: inside brackets, after a mark that joins, and before one that can begin no line.
fn joined(tokens: Vec<Token>) -> Vec<Token> {
    let is = |kind: &Kind, marks: &str| matches!(kind, Kind::Mark(mark) if marks.contains(*mark));
    let mut kept: Vec<Token> = Vec::new();
    let mut open = 0usize;
    for token in tokens {
        let goes_on = |before: &Token| before.kind == Kind::LineEnd || is(&before.kind, ",|=:({");
        if token.kind == Kind::LineEnd && (open > 0 || kept.last().map_or(true, goes_on)) {
            continue;
        }
        if is(&token.kind, ",=)}") && kept.last().is_some_and(|k| k.kind == Kind::LineEnd) {
            kept.pop();
        }
        if is(&token.kind, "({") {
            open += 1;
        } else if is(&token.kind, ")}") {
            open = open.saturating_sub(1);
        }
        kept.push(token);
    }
    kept
}
