//! A state of the search: pending equations in order, the pile of postponed ones, and the bindings in the order made.

use crate::terms::*;

/// A pile entry or a binding: the unknown on the left and the term on the right.
pub type Entry = (u16, Term);

#[derive(Clone, Debug)]
pub struct State {
    pub pending: Vec<Equation>,
    pub pile: Vec<Entry>,
    pub bindings: Vec<Entry>,
    /// The number of the next new unknown.
    pub next: u16,
}

#[derive(Debug)]
pub enum Node {
    Dead,
    Live(State),
}

impl Node {
    /// A dead end has size 0.
    pub fn size(&self) -> u64 {
        match self {
            Node::Dead => 0,
            Node::Live(state) => state.size(),
        }
    }

    /// A dead end has no new unknown.
    pub fn next_unknown(&self) -> u64 {
        match self {
            Node::Dead => 0,
            Node::Live(state) => u64::from(state.next),
        }
    }
}

impl State {
    pub fn root(question: &Question) -> State {
        State {
            pending: question.read_equations(),
            pile: Vec::new(),
            bindings: Vec::new(),
            next: question.unknowns as u16,
        }
    }

    /// The symbols on both sides of everything held, each left unknown counted as one.
    pub fn size(&self) -> u64 {
        let pending: u64 = self.pending.iter().map(|(l, r)| l.size() + r.size()).sum();
        let pile: u64 = self.pile.iter().map(|(_, term)| 1 + term.size()).sum();
        let bindings: u64 = self.bindings.iter().map(|(_, term)| 1 + term.size()).sum();
        pending + pile + bindings
    }

    pub fn is_answer(&self) -> bool {
        self.pending.is_empty() && self.pile.is_empty()
    }

    /// An answer is its number of bindings, then for each the unknown's number and its value.
    pub fn write_answer(&self, words: &mut Vec<u16>) {
        words.push(self.bindings.len() as u16);
        for (unknown, value) in &self.bindings {
            words.push(*unknown);
            value.write(words);
        }
    }

    /// The number of a new unknown.
    pub fn new_unknown(&mut self) -> u16 {
        self.next += 1;
        self.next - 1
    }

    /// Binds the unknown: it is replaced in all pending equations and in the pile; earlier bindings stay as
    /// written; its own pile entries leave for the end of the pending list. Dead if it occurs in the value.
    pub fn bind(mut self, unknown: u16, value: &Term) -> Node {
        if value.mentions(unknown) {
            return Node::Dead;
        }
        for (left, right) in &mut self.pending {
            *left = left.replace(unknown, value);
            *right = right.replace(unknown, value);
        }
        let pile = std::mem::take(&mut self.pile);
        for (left, term) in pile {
            let term = term.replace(unknown, value);
            if left == unknown {
                self.pending.push((value.clone(), term));
            } else {
                self.pile.push((left, term));
            }
        }
        self.bindings.push((unknown, value.clone()));
        Node::Live(self)
    }
}
