//! Equations between finite sets.
//!
//! A [`Question`] is a list of equations between [`Term`]s. A run lists every solved form of it in a fixed order, within lent [`Limits`]; only a run
//! that ends as [`End::Done`] has listed all. The work is done by an archive whose functions are proved in Rattle; this crate lends them slices, and its own
//! code is not proved. [`words`] has the same functions over slices alone, without allocation, and
//! [`archive`] as C has them.
//!
//! ```
//! use mensorique::{End, Limits, Names, Question, Term};
//!
//! // {x,y} = {algebra,logic}: x is algebra and y is logic, or the other way round.
//! let names = Names::new(["x", "y"], ["algebra", "logic"]);
//! let mut question = Question::new(2, [0, 0]);
//! let places = Term::set([Term::Unknown(0), Term::Unknown(1)]);
//! let courses = Term::set([Term::constant(0), Term::constant(1)]);
//! question.equate(&places, &courses)?;
//! let answers = question.run(Limits::default())?;
//! assert_eq!(answers.end(), End::Done);
//! let mut lines = Vec::new();
//! for answer in &answers {
//!     let value = answer.filled(&Term::Unknown(0))?;
//!     lines.push(format!("x = {}", value.shown(&names)));
//! }
//! assert_eq!(lines, ["x = algebra", "x = logic"]);
//! # Ok::<(), mensorique::Refusal>(())
//! ```
//!
//! Two answers may say the same of what matters: [`List::groups`] puts those together. A refused call has a [`Refusal`]: its cause, its place, and
//! what was too large. Calls may run at the same time; each run has its own [`Room`].
//!
//! A call into the archive needs at most 1 MiB of stack (`docs/GUIDE.md` has what was measured).
//! Terms are cloned, compared and dropped by recursion; 8,192 levels, more than any run lists, are dropped within the 2 MiB of a spawned thread.
#![warn(missing_docs)]

mod answer;
mod answers;
pub mod archive;
mod culprits;
mod groups;
mod limits;
pub mod most;
mod question;
mod refusal;
mod shown;
mod term;
pub mod words;

pub use answer::{Answer, Binding};
pub use answers::{Answers, End, Iter, List};
pub use groups::{equal_held, Group};
pub use limits::{Limits, Room};
pub use question::{equal, Question};
pub use refusal::{Cause, Culprit, Refusal, What};
pub use shown::{Names, Shown};
pub use term::Term;
