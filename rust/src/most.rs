//! The most that there may be of each thing.

/// Unknowns in a question.
pub const UNKNOWNS: usize = 256;
/// Functors in a question.
pub const FUNCTORS: usize = 256;
/// Arguments of a functor.
pub const ARITY: u8 = 8;
/// Equations in a question.
pub const EQUATIONS: usize = 64;
/// Words in a question's terms together, and in the ground terms lent to one call.
pub const WORDS: usize = 4096;
/// Brackets open at once in a text.
pub const NESTING: usize = 200;
/// Nodes that a run may visit.
pub const STEPS: u64 = 1_000_000_000;
/// How deep a node may be lent to be.
pub const DEPTH: usize = 1024;
/// How many symbols a node may be lent to hold; a term with all values put in has no more either ([`Answer::filled`](crate::Answer::filled)).
pub const SIZE: usize = 8192;
