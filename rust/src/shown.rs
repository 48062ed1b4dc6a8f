//! Terms as they are shown: in the text form, or with names.
use crate::term::Term;
use std::fmt;

/// Names of unknowns and of functors, in the order of their numbers.
///
/// ```
/// use mensorique::{Names, Term};
///
/// let names = Names::new(["x", "rest"], ["algebra", "lab"]);
/// let lab = Term::Functor(1, vec![Term::Unknown(0)]);
/// let group = Term::set_with([Term::constant(0), lab], Term::Unknown(1));
/// assert_eq!(group.shown(&names).to_string(), "{algebra,lab(x)|rest}");
/// // With `#` there are blanks between.
/// assert_eq!(format!("{:#}", group.shown(&names)), "{algebra, lab(x) | rest}");
/// // What has no name is shown as the text form has it.
/// assert_eq!(Term::Unknown(7).shown(&names).to_string(), "x7");
/// ```
#[derive(Clone, Debug, Default, PartialEq, Eq)]
pub struct Names {
    unknowns: Vec<String>,
    functors: Vec<String>,
}

impl Names {
    /// The names of unknowns 0, 1, .. and of functors 0, 1, ..
    pub fn new<U: Into<String>, F: Into<String>>(
        unknowns: impl IntoIterator<Item = U>,
        functors: impl IntoIterator<Item = F>,
    ) -> Names {
        Names {
            unknowns: unknowns.into_iter().map(U::into).collect(),
            functors: functors.into_iter().map(F::into).collect(),
        }
    }

    /// The name of an unknown, if it has one.
    pub fn unknown(&self, i: u16) -> Option<&str> {
        self.unknowns.get(usize::from(i)).map(String::as_str)
    }

    /// The name of a functor, if it has one.
    pub fn functor(&self, k: u16) -> Option<&str> {
        self.functors.get(usize::from(k)).map(String::as_str)
    }
}

/// A term with names, to be printed: [`Term::shown`] gives it.
#[derive(Clone, Copy, Debug)]
pub struct Shown<'a> {
    term: &'a Term,
    names: &'a Names,
}

impl Term {
    /// The term with names, to be printed; `{:#}` puts blanks between. [`Names`] has an example.
    pub fn shown<'a>(&'a self, names: &'a Names) -> Shown<'a> {
        Shown { term: self, names }
    }
}

/// The text form.
impl fmt::Display for Term {
    fn fmt(&self, f: &mut fmt::Formatter<'_>) -> fmt::Result {
        print(self, &Names::default(), (",", "|"), f)
    }
}

impl fmt::Display for Shown<'_> {
    fn fmt(&self, f: &mut fmt::Formatter<'_>) -> fmt::Result {
        let between = match f.alternate() {
            true => (", ", " | "),
            false => (",", "|"),
        };
        print(self.term, self.names, between, f)
    }
}

/// What is still to be printed, the last first.
enum Piece<'a> {
    Term(&'a Term),
    Text(&'static str),
}

/// Prints a term, with this comma and this bar.
fn print(
    term: &Term,
    names: &Names,
    (comma, bar): (&'static str, &'static str),
    f: &mut fmt::Formatter<'_>,
) -> fmt::Result {
    let mut due = vec![Piece::Term(term)];
    while let Some(piece) = due.pop() {
        match piece {
            Piece::Text(text) => f.write_str(text)?,
            Piece::Term(Term::Unknown(i)) => match names.unknown(*i) {
                Some(name) => f.write_str(name)?,
                None => write!(f, "x{i}")?,
            },
            Piece::Term(Term::Empty) => f.write_str("{}")?,
            Piece::Term(Term::Functor(k, arguments)) => {
                match names.functor(*k) {
                    Some(name) => f.write_str(name)?,
                    None => write!(f, "f{k}")?,
                }
                if !arguments.is_empty() {
                    due.push(Piece::Text(")"));
                    due.extend(pieces("(", comma, arguments));
                }
            }
            Piece::Term(Term::Set(members, tail)) => {
                due.push(Piece::Text("}"));
                if **tail != Term::Empty {
                    due.extend([Piece::Term(tail), Piece::Text(bar)]);
                }
                due.extend(pieces("{", comma, members));
            }
        }
    }
    Ok(())
}

/// The opening bracket and the terms with commas between, the last first.
fn pieces<'a>(
    open: &'static str,
    comma: &'static str,
    terms: &'a [Term],
) -> impl Iterator<Item = Piece<'a>> {
    terms.iter().enumerate().rev().flat_map(move |(i, term)| {
        let before = if i == 0 { open } else { comma };
        [Piece::Term(term), Piece::Text(before)]
    })
}
