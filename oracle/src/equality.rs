//! Equality of ground terms by the laws, and whether ground values solve a question.
//! Each value gets a number: strip the members; what is left is the kernel. Two terms get one number exactly
//! if their kernels are both empty or one functor with equal arguments, and each member of either is one of the other's.

use crate::terms::*;
use crate::words::*;
use std::collections::{BTreeSet, HashMap};

/// What is left of a term when its members are stripped, arguments by their numbers.
#[derive(Clone, Debug, PartialEq, Eq, Hash)]
pub enum Kernel {
    Empty,
    Functor(u16, Vec<usize>),
}

#[derive(Clone, Debug, PartialEq, Eq, Hash)]
pub struct Value {
    pub kernel: Kernel,
    pub members: BTreeSet<usize>,
}

/// All values met so far, each once.
#[derive(Default)]
pub struct Values {
    list: Vec<Value>,
    numbers: HashMap<Value, usize>,
}

impl Values {
    pub fn number(&mut self, value: Value) -> usize {
        if let Some(&number) = self.numbers.get(&value) {
            return number;
        }
        let number = self.list.len();
        self.list.push(value.clone());
        self.numbers.insert(value, number);
        number
    }

    pub fn value(&self, number: usize) -> &Value {
        &self.list[number]
    }

    /// The value of a term where unknown `i` stands for the value `given(i)`.
    pub fn of(&mut self, term: &Term, given: &dyn Fn(u16) -> usize) -> usize {
        let (members, kernel) = term.strip();
        let mut value = match kernel.shape() {
            Shape::Unknown(unknown) => self.value(given(*unknown)).clone(),
            Shape::Functor(number, arguments) => {
                let arguments = arguments.iter().map(|a| self.of(a, given)).collect();
                Value {
                    kernel: Kernel::Functor(*number, arguments),
                    members: BTreeSet::new(),
                }
            }
            Shape::Empty | Shape::With(..) => Value {
                kernel: Kernel::Empty,
                members: BTreeSet::new(),
            },
        };
        for member in &members {
            let member = self.of(member, given);
            value.members.insert(member);
        }
        self.number(value)
    }

    pub fn of_ground(&mut self, term: &Term) -> usize {
        self.of(term, &|_| unreachable!("a ground term"))
    }
}

/// Whether the two ground terms of a row are equal.
pub fn equal(arities: &[u8], row: &[u16]) -> Result<bool, Refusal> {
    check_arities(arities)?;
    check_row(arities, row, 2)?;
    let mut values = Values::default();
    let numbers = read_row(&mut values, arities, row, 2);
    Ok(numbers[0] == numbers[1])
}

/// Whether the ground values of a row, one for each unknown in order, solve the question.
pub fn solves(question: &Question, row: &[u16]) -> Result<bool, Refusal> {
    question.check()?;
    check_row(&question.arities, row, question.unknowns)?;
    let mut values = Values::default();
    let given = read_row(&mut values, &question.arities, row, question.unknowns);
    Ok(hold(&mut values, &question.read_equations(), &given))
}

/// Whether all equations hold where unknown `i` stands for the value `given[i]`.
pub fn hold(values: &mut Values, equations: &[Equation], given: &[usize]) -> bool {
    equations.iter().all(|(left, right)| {
        let left = values.of(left, &|i| given[usize::from(i)]);
        let right = values.of(right, &|i| given[usize::from(i)]);
        left == right
    })
}

fn read_row(values: &mut Values, arities: &[u8], row: &[u16], count: u64) -> Vec<usize> {
    let mut at = 0;
    (0..count)
        .map(|_| values.of_ground(&Term::read(row, &mut at, arities)))
        .collect()
}
