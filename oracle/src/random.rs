//! A small generator of random numbers, and random terms and questions made with it. A seed repeats exactly.

use crate::terms::*;

pub struct Random(u64);

impl Random {
    /// Seeds are mixed, so that those of neighbours begin at unrelated places of the one long sequence.
    pub fn new(seed: u64) -> Random {
        Random(mix(seed))
    }

    /// The next number of the sequence known as SplitMix64.
    pub fn draw(&mut self) -> u64 {
        self.0 = self.0.wrapping_add(0x9e37_79b9_7f4a_7c15);
        mix(self.0)
    }

    /// A number below `bound`, which is at least 1.
    pub fn below(&mut self, bound: usize) -> usize {
        (self.draw() % bound as u64) as usize
    }

    pub fn between(&mut self, least: usize, most: usize) -> usize {
        least + self.below(most - least + 1)
    }

    /// True so many times in a hundred.
    pub fn percent(&mut self, share: usize) -> bool {
        self.below(100) < share
    }

    pub fn pick<'a, T>(&mut self, list: &'a [T]) -> &'a T {
        &list[self.below(list.len())]
    }

    pub fn shuffle<T>(&mut self, list: &mut [T]) {
        for last in (1..list.len()).rev() {
            list.swap(last, self.below(last + 1));
        }
    }
}

/// SplitMix64's finaliser.
fn mix(number: u64) -> u64 {
    let mut mixed = number;
    mixed = (mixed ^ (mixed >> 30)).wrapping_mul(0xbf58_476d_1ce4_e5b9);
    mixed = (mixed ^ (mixed >> 27)).wrapping_mul(0x94d0_49bb_1331_11eb);
    mixed ^ (mixed >> 31)
}

/// Random arities: mostly three constants, a functor of one argument and one of two.
pub fn arities(random: &mut Random) -> Vec<u8> {
    match random.below(10) {
        0 => vec![],
        1..=5 => vec![0, 0, 0, 1, 2],
        6..=8 => (0..random.between(1, 5))
            .map(|_| random.below(4) as u8)
            .collect(),
        _ => (0..random.between(1, 9))
            .map(|_| random.below(9) as u8)
            .collect(),
    }
}

/// What random terms are made of.
pub struct Maker<'a> {
    pub random: &'a mut Random,
    pub unknowns: u16,
    pub arities: &'a [u8],
}

impl<'a> Maker<'a> {
    pub fn new(random: &'a mut Random, unknowns: u16, arities: &'a [u8]) -> Maker<'a> {
        Maker {
            random,
            unknowns,
            arities,
        }
    }

    /// A maker of ground terms.
    pub fn ground(random: &'a mut Random, arities: &'a [u8]) -> Maker<'a> {
        Maker::new(random, 0, arities)
    }

    /// A term of about `budget` symbols.
    pub fn term(&mut self, budget: usize) -> Term {
        if budget <= 1 {
            return self.atom();
        }
        match self.random.below(10) {
            0..=5 => {
                let count = self.random.between(1, 3.min(budget));
                let members: Vec<Term> = (0..count).map(|_| self.part(budget, count + 1)).collect();
                let tail = self.tail(budget / 3);
                Term::set(&members, tail)
            }
            6..=7 => self.functor(budget),
            _ => self.atom(),
        }
    }

    fn part(&mut self, budget: usize, parts: usize) -> Term {
        let share = (budget - 1) / parts;
        let budget = self.random.between(0, share + 1).min(budget - 1);
        self.term(budget)
    }

    fn atom(&mut self) -> Term {
        let choice = self.random.below(10);
        if choice < 5 && self.unknowns > 0 {
            return Term::unknown(self.random.below(usize::from(self.unknowns)) as u16);
        }
        let constants: Vec<usize> = (0..self.arities.len())
            .filter(|&k| self.arities[k] == 0)
            .collect();
        if choice == 9 || constants.is_empty() {
            return Term::empty();
        }
        Term::functor(*self.random.pick(&constants) as u16, vec![])
    }

    /// What may stand after `|`, or nothing: no member adding.
    fn tail(&mut self, budget: usize) -> Term {
        match self.random.below(20) {
            0..=8 if self.unknowns > 0 => {
                Term::unknown(self.random.below(usize::from(self.unknowns)) as u16)
            }
            9..=10 => self.functor(budget),
            _ => Term::empty(),
        }
    }

    fn functor(&mut self, budget: usize) -> Term {
        if self.arities.is_empty() {
            return self.atom();
        }
        let number = self.random.below(self.arities.len());
        let arity = usize::from(self.arities[number]);
        let arguments = (0..arity)
            .map(|_| self.part(budget.max(1), arity))
            .collect();
        Term::functor(number as u16, arguments)
    }

    /// The term written otherwise by the laws: members in another order, some of them repeated.
    pub fn rewritten(&mut self, term: &Term) -> Term {
        let (members, kernel) = term.strip();
        let mut others = Vec::new();
        for member in &members {
            for _ in 0..if self.random.percent(20) { 2 } else { 1 } {
                others.push(self.rewritten(member));
            }
        }
        self.random.shuffle(&mut others);
        let kernel = match kernel.shape() {
            Shape::Functor(number, arguments) => {
                let arguments = arguments.iter().map(|a| self.rewritten(a)).collect();
                Term::functor(*number, arguments)
            }
            _ => kernel,
        };
        Term::set(&others, kernel)
    }
}

/// A question of these equations.
pub fn question(unknowns: u16, arities: &[u8], equations: &[Equation]) -> Question {
    let mut words = Vec::new();
    for (left, right) in equations {
        left.write(&mut words);
        right.write(&mut words);
    }
    Question {
        unknowns: u64::from(unknowns),
        arities: arities.to_vec(),
        equations: equations.len() as u64,
        words,
    }
}

/// A small random question, its terms of at most about `budget` symbols.
pub fn small_question(random: &mut Random, budget: usize) -> Question {
    let arities = arities(random);
    let unknowns = *random.pick(&[0, 1, 1, 2, 2, 2, 3, 3, 4, 5]);
    let count = *random.pick(&[0, 1, 1, 1, 1, 2, 2, 2, 3, 4]);
    let mut equations = Vec::new();
    for _ in 0..count {
        let mut maker = Maker::new(random, unknowns, &arities);
        let left = maker.term(budget);
        let right = maker.term(budget);
        equations.push((left, right));
    }
    question(unknowns, &arities, &equations)
}

/// A question of the shapes that postpone, join and split: tails that are shared, different or their own.
pub fn rich_question(random: &mut Random) -> Question {
    let arities = [0, 0, 0, 1, 2];
    let unknowns = random.between(2, 4) as u16;
    let mut equations = Vec::new();
    for _ in 0..random.between(1, 4) {
        let first = Term::unknown(random.below(usize::from(unknowns)) as u16);
        let second = Term::unknown(random.below(usize::from(unknowns)) as u16);
        let mut maker = Maker::new(random, unknowns, &arities);
        let mut members = || -> Vec<Term> {
            let count = *maker.random.pick(&[1, 1, 1, 2]);
            (0..count)
                .map(|_| {
                    let budget = *maker.random.pick(&[1, 1, 1, 2, 3]);
                    maker.term(budget)
                })
                .collect()
        };
        let (these, those) = (members(), members());
        let mut equation = match random.below(6) {
            0..=1 => (first.clone(), Term::set(&these, first)),
            2..=3 => (Term::set(&these, first), Term::set(&those, second)),
            4 => (Term::set(&these, first), Term::set(&those, Term::empty())),
            _ => (first, Term::set(&these, second)),
        };
        if random.percent(30) {
            equation = (equation.1, equation.0);
        }
        equations.push(equation);
    }
    question(unknowns, &arities, &equations)
}
