//! States as flat words, and the replacement of unknowns in them.

use crate::terms::{FUNCTOR, UNKNOWN, WITH};

/// No good word: stands where a second replacement is not wanted.
const NONE: u16 = u16::MAX;

/// Pending equations from `head` on, and the pile: left unknown's word and term, entry after entry.
/// The bindings are the first `bound` words of the solver's own.
#[derive(Default)]
pub struct Row {
    pub pending: Vec<u16>,
    pub head: usize,
    pub pile: Vec<u16>,
    pub next: u16,
    pub depth: u64,
    pub bindings: u16,
    pub bound: usize,
}

impl Row {
    pub fn size(&self) -> usize {
        self.pending.len() - self.head + self.pile.len() + self.bound
    }
}

pub fn is_unknown(word: u16) -> bool {
    (UNKNOWN..FUNCTOR).contains(&word)
}

pub fn term_end(words: &[u16], start: usize, arities: &[u8]) -> usize {
    let mut at = start;
    let mut due = 1;
    while due > 0 {
        due -= 1;
        match words[at] {
            WITH => due += 2,
            word @ FUNCTOR.. => due += usize::from(arities[usize::from(word - FUNCTOR)]),
            _ => {}
        }
        at += 1;
    }
    at
}

/// The replacement of one unknown, or of two at once, by words.
pub struct Swap<'a> {
    pub first: u16,
    pub first_value: &'a [u16],
    pub second: u16,
    pub second_value: &'a [u16],
}

impl<'a> Swap<'a> {
    pub fn one(unknown: u16, value: &'a [u16]) -> Swap<'a> {
        Swap {
            first: unknown,
            first_value: value,
            second: NONE,
            second_value: &[],
        }
    }

    pub fn nothing() -> Swap<'a> {
        Swap::one(NONE, &[])
    }

    /// Whether the words hold an unknown that is to be replaced.
    pub fn touches(&self, words: &[u16]) -> bool {
        words.contains(&self.first) || (self.second != NONE && words.contains(&self.second))
    }

    /// Copies words with their unknowns replaced; false as soon as the copy is longer than `full`.
    pub fn put(&self, from: &[u16], to: &mut Vec<u16>, full: usize) -> bool {
        if self.first == NONE {
            to.extend_from_slice(from);
            return to.len() <= full;
        }
        let mut copied = 0;
        for (at, &word) in from.iter().enumerate() {
            let value = if word == self.first {
                self.first_value
            } else if word == self.second {
                self.second_value
            } else {
                continue;
            };
            to.extend_from_slice(&from[copied..at]);
            to.extend_from_slice(value);
            copied = at + 1;
            if to.len() > full {
                return false;
            }
        }
        to.extend_from_slice(&from[copied..]);
        to.len() <= full
    }

    /// Copies the pile: entries of a replaced unknown go to the end of the pending list, those of the first
    /// unknown before those of the second; the others stay in the pile.
    pub fn put_pile(&self, pile: &[u16], to: &mut Row, arities: &[u8], full: usize) -> bool {
        if pile.is_empty() || !self.touches(pile) {
            to.pile.extend_from_slice(pile);
            return true;
        }
        let entries = || Entries { pile, arities };
        for leaving in [self.first, self.second] {
            for entry in entries().filter(|entry| entry[0] == leaving) {
                if !self.put(entry, &mut to.pending, full) {
                    return false;
                }
            }
        }
        for entry in entries().filter(|e| e[0] != self.first && e[0] != self.second) {
            if !self.put(entry, &mut to.pile, full) {
                return false;
            }
        }
        true
    }
}

/// The entries of a pile.
pub struct Entries<'a> {
    pub pile: &'a [u16],
    pub arities: &'a [u8],
}

impl<'a> Iterator for Entries<'a> {
    type Item = &'a [u16];

    fn next(&mut self) -> Option<&'a [u16]> {
        if self.pile.is_empty() {
            return None;
        }
        let (entry, rest) = self.pile.split_at(term_end(self.pile, 1, self.arities));
        self.pile = rest;
        Some(entry)
    }
}
