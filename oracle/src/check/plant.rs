//! Questions with a solution planted in them: ground terms written twice by the laws, then disguised with
//! unknowns whose values were chosen first.

use crate::equality::Values;
use crate::random::{self, Maker, Random};
use crate::terms::*;

struct Disguise<'a> {
    maker: Maker<'a>,
    values: Values,
    planted: Vec<usize>,
}

pub fn question(random: &mut Random) -> Question {
    let arities = random::arities(random);
    let unknowns = random.between(1, 4);
    let maker = Maker::ground(random, &arities);
    let mut disguise = Disguise {
        maker,
        values: Values::default(),
        planted: Vec::new(),
    };
    let mut terms = Vec::new();
    for _ in 0..unknowns {
        let budget = disguise.maker.random.between(1, 5);
        let term = disguise.maker.term(budget);
        disguise.planted.push(disguise.values.of_ground(&term));
        terms.push(term);
    }
    let mut equations = Vec::new();
    for _ in 0..disguise.maker.random.between(1, 3) {
        // One of the values with up to two members more.
        let mut term = disguise.maker.random.pick(&terms).clone();
        for _ in 0..disguise.maker.random.below(3) {
            let member = disguise.maker.random.pick(&terms).clone();
            term = Term::with(member, term);
        }
        let other = disguise.maker.rewritten(&term);
        equations.push((disguise.term(&term), disguise.term(&other)));
    }
    random::question(unknowns as u16, &arities, &equations)
}

impl Disguise<'_> {
    fn percent(&mut self, share: usize) -> bool {
        self.maker.random.percent(share)
    }

    /// A term that has the same value where the unknowns have theirs.
    fn term(&mut self, term: &Term) -> Term {
        let value = self.values.of_ground(term);
        let same = self.planted.iter().position(|&planted| planted == value);
        if let (Some(unknown), true) = (same, self.percent(50)) {
            return Term::unknown(unknown as u16);
        }
        let (members, kernel) = term.strip();
        let mut kernel = match kernel.shape() {
            Shape::Functor(number, arguments) => {
                let arguments = arguments.iter().map(|a| self.term(a)).collect();
                Term::functor(*number, arguments)
            }
            _ => kernel.clone(),
        };
        let whole = self.values.value(value).clone();
        let start = self.maker.random.below(self.planted.len());
        let mut covered = Vec::new();
        for turn in 0..self.planted.len() {
            let unknown = (start + turn) % self.planted.len();
            let part = self.values.value(self.planted[unknown]);
            if part.kernel == whole.kernel && part.members.is_subset(&whole.members) {
                covered.extend(part.members.iter().copied());
                kernel = Term::unknown(unknown as u16);
                break;
            }
        }
        let mut kept = Vec::new();
        for member in &members {
            let number = self.values.of_ground(member);
            if !covered.contains(&number) || self.percent(30) {
                kept.push(self.term(member));
            }
        }
        Term::set(&kept, kernel)
    }
}
