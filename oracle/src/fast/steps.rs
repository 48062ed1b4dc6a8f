//! The steps with one child, made in the row's own place: drop, bind, postpone, decompose and join.

use super::rows::{is_unknown, term_end, Entries, Swap};
use super::{Made, Solver};
use crate::terms::{EMPTY, UNKNOWN, WITH};

impl Solver {
    /// The only child of the row's state, in its place.
    pub(super) fn step(&mut self, arities: &[u8]) -> Made {
        let row = &mut self.row;
        if row.head == row.pending.len() {
            return self.join(arities);
        }
        let left = row.head;
        let right = term_end(&row.pending, left, arities);
        let end = term_end(&row.pending, right, arities);
        let (first, second) = (row.pending[left], row.pending[right]);
        if is_unknown(first) {
            if first == second {
                row.head = end;
                return Made::Live;
            }
            return self.solve_for(first, right..end, end, arities);
        }
        if is_unknown(second) {
            return self.solve_for(second, left..right, end, arities);
        }
        if first != second {
            return Made::Dead;
        }
        if first == EMPTY {
            row.head = end;
            return Made::Live;
        }
        self.decompose(left, right, end, arities);
        Made::Live
    }

    /// X = t, with t at `term`: bind, postpone or dead.
    fn solve_for(
        &mut self,
        unknown: u16,
        term: std::ops::Range<usize>,
        end: usize,
        arities: &[u8],
    ) -> Made {
        let row = &mut self.row;
        row.head = end;
        let words = &row.pending[term];
        if !words.contains(&unknown) {
            self.bindings.truncate(row.bound);
            self.bindings.push(unknown - UNKNOWN);
            self.bindings.extend_from_slice(words);
            return self.bind(unknown, arities);
        }
        let mut at = 0;
        while words[at] == WITH {
            let member = at + 1;
            at = term_end(words, member, arities);
            if words[member..at].contains(&unknown) {
                return Made::Dead;
            }
        }
        if words[at] != unknown {
            return Made::Dead;
        }
        row.pile.push(unknown);
        row.pile.extend_from_slice(words);
        Made::Live
    }

    /// Binds the unknown to the value that stands at the end of the bindings.
    fn bind(&mut self, unknown: u16, arities: &[u8]) -> Made {
        let Solver { row, spare, .. } = self;
        let swap = Swap::one(unknown, &self.bindings[row.bound + 1..]);
        let rest = &row.pending[row.head..];
        if swap.touches(rest) || swap.touches(&row.pile) {
            spare.pending.clear();
            spare.pile.clear();
            if !swap.put(rest, &mut spare.pending, self.full)
                || !swap.put_pile(&row.pile, spare, arities, self.full)
            {
                return Made::Full;
            }
            std::mem::swap(&mut row.pending, &mut spare.pending);
            std::mem::swap(&mut row.pile, &mut spare.pile);
            row.head = 0;
        }
        row.bindings += 1;
        row.bound = self.bindings.len();
        Made::Live
    }

    /// The equation of one functor becomes its argument equations.
    fn decompose(&mut self, left: usize, right: usize, end: usize, arities: &[u8]) {
        let row = &mut self.row;
        let words = &mut self.values[0];
        words.clear();
        let (mut these, mut those) = (left + 1, right + 1);
        while these < right {
            let this = term_end(&row.pending, these, arities);
            let that = term_end(&row.pending, those, arities);
            words.extend_from_slice(&row.pending[these..this]);
            words.extend_from_slice(&row.pending[those..that]);
            (these, those) = (this, that);
        }
        row.head = left + 2;
        row.pending[left + 2..end].copy_from_slice(words);
    }

    /// Nothing is pending: the entries of the pile's first unknown become one binding.
    fn join(&mut self, arities: &[u8]) -> Made {
        let row = &mut self.row;
        let unknown = row.pile[0];
        self.bindings.truncate(row.bound);
        self.bindings.push(unknown - UNKNOWN);
        let others = &mut self.spare.pile;
        others.clear();
        let pile = row.pile.as_slice();
        for entry in (Entries { pile, arities }) {
            if entry[0] == unknown {
                // All but the tail, which is the entry's own unknown.
                self.bindings.extend_from_slice(&entry[1..entry.len() - 1]);
            } else {
                others.extend_from_slice(entry);
            }
        }
        if self.bindings[row.bound + 1..].contains(&unknown) {
            return Made::Dead;
        }
        self.bindings.push(UNKNOWN + row.next);
        row.next += 1;
        std::mem::swap(&mut row.pile, &mut self.spare.pile);
        self.bind(unknown, arities)
    }
}
