//! The text form of questions and answer lists: one key=value a line.

pub mod reader;
pub mod writers;
