//! The children of a state, in order: the step that its first pending equation, or else its pile, calls for.

use super::state::{Node, State};
use crate::terms::*;

/// What the first pending equation calls for. The equation has left the state already.
enum Step {
    Drop,
    Dead,
    Bind(u16, Term),
    Postpone(u16, Term),
    Decompose(Vec<Equation>),
    Split(Split),
}

/// `{t1..tn|s} = {u1..um|r}` with its members and tails.
struct Split {
    left: Vec<Term>,
    left_tail: Term,
    right: Vec<Term>,
    right_tail: Term,
}

/// The children still to come of one state.
pub enum Children {
    /// A step with one child, which is made already.
    One(Option<Node>),
    /// A split: the state without its equation, and the next choice of picks if there is one.
    Choices(State, Box<Picking>),
}

pub struct Picking {
    split: Split,
    picks: Option<Vec<usize>>,
}

impl Children {
    pub fn of(mut state: State) -> Children {
        if state.pending.is_empty() {
            return Children::One(Some(join(state)));
        }
        let (left, right) = state.pending.remove(0);
        let child = match classify(left, right) {
            Step::Drop => Node::Live(state),
            Step::Dead => Node::Dead,
            Step::Bind(unknown, value) => state.bind(unknown, &value),
            Step::Postpone(unknown, term) => {
                state.pile.push((unknown, term));
                Node::Live(state)
            }
            Step::Decompose(equations) => {
                state.pending.splice(0..0, equations);
                Node::Live(state)
            }
            Step::Split(split) => {
                let picks = Some(vec![0; split.left.len() + split.right.len()]);
                return Children::Choices(state, Box::new(Picking { split, picks }));
            }
        };
        Children::One(Some(child))
    }
}

impl Iterator for Children {
    type Item = Node;

    fn next(&mut self) -> Option<Node> {
        match self {
            Children::One(child) => child.take(),
            Children::Choices(state, picking) => {
                let picks = picking.picks.take()?;
                let child = picking.split.child(state.clone(), &picks);
                picking.picks = picking.split.next_picks(picks);
                Some(child)
            }
        }
    }
}

fn classify(left: Term, right: Term) -> Step {
    match (left.shape(), right.shape()) {
        (Shape::Unknown(x), Shape::Unknown(y)) if x == y => Step::Drop,
        (Shape::Empty, Shape::Empty) => Step::Drop,
        (Shape::Unknown(x), _) => solve_for(*x, right),
        (_, Shape::Unknown(y)) => solve_for(*y, left),
        (Shape::Functor(f, these), Shape::Functor(g, those)) if f == g => {
            Step::Decompose(these.iter().cloned().zip(those.iter().cloned()).collect())
        }
        (Shape::With(..), Shape::With(..)) => {
            let (left, left_tail) = left.strip();
            let (right, right_tail) = right.strip();
            Step::Split(Split {
                left,
                left_tail,
                right,
                right_tail,
            })
        }
        _ => Step::Dead,
    }
}

/// X = t: bind if X is absent, postpone if X is only the tail variable, else dead.
fn solve_for(unknown: u16, term: Term) -> Step {
    if !term.mentions(unknown) {
        return Step::Bind(unknown, term);
    }
    let (members, tail) = term.strip();
    if tail.as_unknown() == Some(unknown) && !members.iter().any(|m| m.mentions(unknown)) {
        return Step::Postpone(unknown, term);
    }
    Step::Dead
}

/// Nothing is pending: the entries of the first pile entry's unknown are joined in pile order.
fn join(mut state: State) -> Node {
    let unknown = state.pile[0].0;
    let mut members = Vec::new();
    let pile = std::mem::take(&mut state.pile);
    for (left, term) in pile {
        if left == unknown {
            members.extend(term.strip().0);
        } else {
            state.pile.push((left, term));
        }
    }
    let new = state.new_unknown();
    state.bind(unknown, &Term::set(&members, Term::unknown(new)))
}

impl Split {
    /// How many picks the member at `place` has, t1..tn then u1..um: the other side's members, and its tail if that is an unknown.
    fn radix(&self, place: usize) -> usize {
        if place < self.left.len() {
            self.right.len() + usize::from(self.right_tail.as_unknown().is_some())
        } else {
            self.left.len() + usize::from(self.left_tail.as_unknown().is_some())
        }
    }

    /// The choice after this one, um fastest.
    fn next_picks(&self, mut picks: Vec<usize>) -> Option<Vec<usize>> {
        for place in (0..picks.len()).rev() {
            picks[place] += 1;
            if picks[place] < self.radix(place) {
                return Some(picks);
            }
            picks[place] = 0;
        }
        None
    }

    /// The child of `state` (which has lost the equation) for one choice of picks.
    fn child(&self, mut state: State, picks: &[usize]) -> Node {
        let (left_picks, right_picks) = picks.split_at(self.left.len());
        let mut new = Vec::new();
        // T: the t's that picked r; U: the u's that picked s.
        let mut to_right_tail = Vec::new();
        let mut to_left_tail = Vec::new();
        for (t, &pick) in self.left.iter().zip(left_picks) {
            match self.right.get(pick) {
                Some(u) => new.push((t.clone(), u.clone())),
                None => to_right_tail.push(t.clone()),
            }
        }
        for (u, &pick) in self.right.iter().zip(right_picks) {
            match self.left.get(pick) {
                Some(t) => new.push((t.clone(), u.clone())),
                None => to_left_tail.push(u.clone()),
            }
        }
        let tails = (self.left_tail.as_unknown(), self.right_tail.as_unknown());
        if tails == (None, None) {
            new.push((self.left_tail.clone(), self.right_tail.clone()));
        }
        state.pending.splice(0..0, new);
        match tails {
            (None, None) => Node::Live(state),
            (Some(s), None) => state.bind(s, &Term::set(&to_left_tail, self.right_tail.clone())),
            (None, Some(r)) => state.bind(r, &Term::set(&to_right_tail, self.left_tail.clone())),
            (Some(s), Some(r)) if s != r => {
                let shared = Term::unknown(state.new_unknown());
                let value = Term::set(&to_left_tail, shared.clone());
                match state.bind(s, &value) {
                    Node::Dead => Node::Dead,
                    Node::Live(state) => {
                        let other = Term::set(&to_right_tail, shared).replace(s, &value);
                        state.bind(r, &other)
                    }
                }
            }
            (Some(x), Some(_)) => {
                to_right_tail.append(&mut to_left_tail);
                if !to_right_tail.is_empty() {
                    let term = Term::set(&to_right_tail, self.left_tail.clone());
                    state.pile.push((x, term));
                }
                Node::Live(state)
            }
        }
    }
}
