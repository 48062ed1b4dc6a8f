//! An open split: the state that it was met in, its members and tails, and the next choice of picks.

use super::rows::{is_unknown, term_end, Row, Swap};
use super::{Made, Solver};
use crate::terms::{UNKNOWN, WITH};
use std::ops::Range;

/// A member's words, and whether the tails s and r occur in them.
struct Member {
    words: Range<usize>,
    has_left_tail: bool,
    has_right_tail: bool,
}

#[derive(Default)]
pub struct Choice {
    /// The state without the equation, whose words still stand before the head.
    row: Row,
    left: Vec<Member>,
    right: Vec<Member>,
    left_tail: Range<usize>,
    right_tail: Range<usize>,
    /// A pick is the number of a member on the other side, or that side's length for its tail.
    picks: Vec<u16>,
    pub spent: bool,
}

/// Finds the members of the set at `start` and gives its tail.
fn strip(words: &[u16], start: usize, members: &mut Vec<Member>, arities: &[u8]) -> Range<usize> {
    members.clear();
    let mut at = start;
    while words[at] == WITH {
        let end = term_end(words, at + 1, arities);
        members.push(Member {
            words: at + 1..end,
            has_left_tail: false,
            has_right_tail: false,
        });
        at = end;
    }
    at..term_end(words, at, arities)
}

impl Choice {
    pub fn depth(&self) -> u64 {
        self.row.depth + 1
    }

    /// Takes the row's first equation, a split, apart.
    fn open(&mut self, row: &mut Row, arities: &[u8]) {
        std::mem::swap(&mut self.row, row);
        let words = &self.row.pending;
        self.left_tail = strip(words, self.row.head, &mut self.left, arities);
        self.right_tail = strip(words, self.left_tail.end, &mut self.right, arities);
        let (s, r) = (words[self.left_tail.start], words[self.right_tail.start]);
        for member in self.left.iter_mut().chain(&mut self.right) {
            let words = &words[member.words.clone()];
            member.has_left_tail = is_unknown(s) && words.contains(&s);
            member.has_right_tail = is_unknown(r) && words.contains(&r);
        }
        self.row.head = self.right_tail.end;
        self.picks.clear();
        self.picks.resize(self.left.len() + self.right.len(), 0);
        self.spent = false;
    }

    fn tails(&self) -> (u16, u16) {
        let words = &self.row.pending;
        (words[self.left_tail.start], words[self.right_tail.start])
    }

    fn advance(&mut self) {
        let (s, r) = self.tails();
        let left = self.right.len() as u16 + u16::from(is_unknown(r));
        let right = self.left.len() as u16 + u16::from(is_unknown(s));
        for (place, pick) in self.picks.iter_mut().enumerate().rev() {
            *pick += 1;
            if *pick < if place < self.left.len() { left } else { right } {
                return;
            }
            *pick = 0;
        }
        self.spent = true;
    }

    /// The t's that picked r.
    fn to_right_tail(&self) -> impl Iterator<Item = &Member> {
        let tail = self.right.len() as u16;
        let picked = move |&(_, &pick): &(&Member, &u16)| pick == tail;
        self.left
            .iter()
            .zip(&self.picks)
            .filter(picked)
            .map(|(t, _)| t)
    }

    /// The u's that picked s.
    fn to_left_tail(&self) -> impl Iterator<Item = &Member> {
        let tail = self.left.len() as u16;
        let picks = &self.picks[self.left.len()..];
        let picked = move |&(_, &pick): &(&Member, &u16)| pick == tail;
        self.right.iter().zip(picks).filter(picked).map(|(u, _)| u)
    }

    /// Whether a tail would be bound to a term in which it occurs.
    fn is_dead(&self) -> bool {
        let (s, r) = self.tails();
        let words = &self.row.pending;
        match (is_unknown(s), is_unknown(r)) {
            (false, false) => false,
            (true, false) => {
                words[self.right_tail.clone()].contains(&s)
                    || self.to_left_tail().any(|u| u.has_left_tail)
            }
            (false, true) => {
                words[self.left_tail.clone()].contains(&r)
                    || self.to_right_tail().any(|t| t.has_right_tail)
            }
            (true, true) if s == r => false,
            (true, true) => {
                self.to_left_tail().any(|u| u.has_left_tail)
                    || self.to_right_tail().any(|t| t.has_right_tail)
                    || (self.to_right_tail().any(|t| t.has_left_tail)
                        && self.to_left_tail().any(|u| u.has_right_tail))
            }
        }
    }

    /// The state of this choice: the new equations, the older ones and the pile, with tails replaced.
    fn put(&self, swap: &Swap, row: &mut Row, arities: &[u8], full: usize) -> bool {
        let words = &self.row.pending;
        row.pending.clear();
        row.pile.clear();
        row.head = 0;
        let (left_picks, right_picks) = self.picks.split_at(self.left.len());
        for (t, &pick) in self.left.iter().zip(left_picks) {
            if let Some(u) = self.right.get(usize::from(pick)) {
                if !swap.put(&words[t.words.clone()], &mut row.pending, full)
                    || !swap.put(&words[u.words.clone()], &mut row.pending, full)
                {
                    return false;
                }
            }
        }
        for (u, &pick) in self.right.iter().zip(right_picks) {
            if let Some(t) = self.left.get(usize::from(pick)) {
                if !swap.put(&words[t.words.clone()], &mut row.pending, full)
                    || !swap.put(&words[u.words.clone()], &mut row.pending, full)
                {
                    return false;
                }
            }
        }
        let (s, r) = self.tails();
        if !is_unknown(s) && !is_unknown(r) {
            row.pending
                .extend_from_slice(&words[self.left_tail.clone()]);
            row.pending
                .extend_from_slice(&words[self.right_tail.clone()]);
        }
        swap.put(&words[self.row.head..], &mut row.pending, full)
            && swap.put_pile(&self.row.pile, row, arities, full)
    }
}

impl Solver {
    pub(super) fn open_split(&mut self, arities: &[u8]) {
        if self.open == self.choices.len() {
            self.choices.push(Choice::default());
        }
        self.choices[self.open].open(&mut self.row, arities);
        self.open += 1;
    }

    /// The next child of the innermost open split.
    pub(super) fn pick(&mut self, arities: &[u8]) -> Made {
        let choice = &mut self.choices[self.open - 1];
        let made = if choice.is_dead() {
            Made::Dead
        } else {
            let Solver {
                row,
                bindings,
                values,
                full,
                ..
            } = self;
            child(choice, row, bindings, values, arities, *full)
        };
        choice.advance();
        made
    }
}

fn child(
    choice: &Choice,
    row: &mut Row,
    bindings: &mut Vec<u16>,
    values: &mut [Vec<u16>; 2],
    arities: &[u8],
    full: usize,
) -> Made {
    let from = &choice.row;
    row.next = from.next;
    row.depth = from.depth + 1;
    row.bindings = from.bindings;
    row.bound = from.bound;
    bindings.truncate(from.bound);
    let words = &from.pending;
    let (s, r) = choice.tails();
    let set = |members: &mut dyn Iterator<Item = &Member>, to: &mut Vec<u16>| {
        for member in members {
            to.push(WITH);
            to.extend_from_slice(&words[member.words.clone()]);
        }
    };
    let fits = match (is_unknown(s), is_unknown(r)) {
        (false, false) => choice.put(&Swap::nothing(), row, arities, full),
        (true, true) if s == r => {
            let fits = choice.put(&Swap::nothing(), row, arities, full);
            let start = row.pile.len();
            row.pile.push(s);
            set(&mut choice.to_right_tail(), &mut row.pile);
            set(&mut choice.to_left_tail(), &mut row.pile);
            if row.pile.len() == start + 1 {
                row.pile.truncate(start);
            } else {
                row.pile.push(s);
            }
            fits
        }
        (true, true) => {
            row.next += 1;
            let shared = UNKNOWN + from.next;
            bindings.push(s - UNKNOWN);
            set(&mut choice.to_left_tail(), bindings);
            bindings.push(shared);
            let (first_start, first_end) = (from.bound + 1, bindings.len());
            let [first, second] = values;
            second.clear();
            set(&mut choice.to_right_tail(), second);
            second.push(shared);
            bindings.push(r - UNKNOWN);
            // The value of r with s replaced; then, where s stood, the value of s with r replaced.
            first.clear();
            Swap::one(s, &bindings[first_start..first_end]).put(second, first, usize::MAX);
            bindings.extend_from_slice(first);
            let second_value = &bindings[first_end + 1..];
            first.clear();
            Swap::one(r, second_value).put(&bindings[first_start..first_end], first, usize::MAX);
            let swap = Swap {
                first: s,
                first_value: first,
                second: r,
                second_value,
            };
            row.bindings += 2;
            choice.put(&swap, row, arities, full)
        }
        (left, _) => {
            let bound = if left { s } else { r };
            bindings.push(bound - UNKNOWN);
            if left {
                set(&mut choice.to_left_tail(), bindings);
                bindings.extend_from_slice(&words[choice.right_tail.clone()]);
            } else {
                set(&mut choice.to_right_tail(), bindings);
                bindings.extend_from_slice(&words[choice.left_tail.clone()]);
            }
            row.bindings += 1;
            let swap = Swap::one(bound, &bindings[from.bound + 1..]);
            choice.put(&swap, row, arities, full)
        }
    };
    row.bound = bindings.len();
    if fits {
        Made::Live
    } else {
        Made::Full
    }
}
