//! Cases around the limits: 4,094 to 4,098 symbols, nesting 199 to 201, arities and counts.

use super::texts::{damage, line, text_of};
use super::{asked_line, runs};
use crate::cases::{hex, joined};
use crate::random::{question, Maker, Random};
use crate::search::Loan;
use crate::terms::*;

/// A set of exactly `size` symbols, with little nesting. Its tail is x0 or the empty set.
fn long_term(random: &mut Random, size: usize) -> Term {
    let mut term = if random.percent(50) {
        Term::empty()
    } else {
        Term::unknown(0)
    };
    let mut left = size - 1;
    while left >= 2 {
        if left >= 4 && random.percent(30) {
            term = Term::with(Term::with(Term::empty(), Term::unknown(0)), term);
            left -= 4;
        } else {
            let atom = if random.percent(80) {
                Term::empty()
            } else {
                Term::unknown(0)
            };
            term = Term::with(atom, term);
            left -= 2;
        }
    }
    if left == 1 {
        term = Term::functor(0, vec![term]);
    }
    term
}

fn ground(term: &Term) -> Vec<u16> {
    term.replace(0, &Term::empty()).words()
}

/// Questions and rows whose symbols are about as many as there may be.
pub fn many_symbols(random: &mut Random) -> String {
    let total = random.between(4094, 4098);
    let first = *random.pick(&[1, 2, 5, total / 2, total - 1]);
    let left = long_term(random, first);
    let right = long_term(random, total - first);
    let mut asked = question(1, &[1], &[(left.clone(), right.clone())]);
    let last = asked.words.len() - 1;
    match random.below(8) {
        0..=1 => {
            let mut text = text_of(&asked);
            if random.percent(40) {
                text.truncate(text.len() - random.below(8));
                damage(random, &mut text);
            }
            line(&text)
        }
        2 => {
            let loan = Loan {
                steps: 20,
                depth: 10,
                size: random.between(4094, 4098) as u64,
                space: 10,
            };
            runs::line(&loan, &text_of(&asked))
        }
        3..=4 => {
            if random.percent(40) {
                asked.words[random.between(last - 5, last)] = *random.pick(&[7, 1001, 2001, 65535]);
            }
            let capacity = *random.pick(&[0, 10_000, 30_000]);
            asked_line("writeq", &asked, capacity)
        }
        5..=6 => {
            let mut row = ground(&left);
            row.extend(ground(&right));
            if random.percent(40) {
                let last = row.len() - 1;
                row[random.between(last - 5, last)] = *random.pick(&[1, 7, 1000, 2001, 65535]);
            }
            format!("equal\t1\t{}", joined(&row))
        }
        _ => {
            let row = ground(&long_term(random, total));
            format!("values\t1\t1\t1\t1000,1,0,1000\t{}", joined(&row))
        }
    }
}

/// A term nested `depth` deep, of one kind of bracket or of several.
fn nested(random: &mut Random, depth: usize) -> Term {
    let mut term = random
        .pick(&[Term::empty(), Term::unknown(0), Term::functor(0, vec![])])
        .clone();
    let kind = random.below(6);
    for _ in 0..depth {
        let kind = if kind == 5 { random.below(5) } else { kind };
        term = match kind {
            0 => Term::with(term, Term::empty()),
            1 => Term::functor(1, vec![term]),
            2 => Term::with(Term::unknown(0), Term::functor(1, vec![term])),
            3 => Term::with(Term::empty(), Term::with(term, Term::unknown(0))),
            _ => Term::functor(2, vec![Term::empty(), term]),
        };
        if kind == 2 && random.percent(50) {
            // A tail nests twice: once in its set, once by itself.
            term = Term::with(term, Term::empty());
        }
    }
    term
}

pub fn deep_nesting(random: &mut Random) -> String {
    let depth = *random.pick(&[99, 100, 101, 198, 199, 199, 200, 200, 200, 201, 201, 202]);
    let arities = [0, 1, 2];
    let deep = nested(random, depth);
    let asked = question(1, &arities, &[(deep.clone(), Term::unknown(0))]);
    let mut list = vec![1, 0];
    deep.write(&mut list);
    let mut row = ground(&deep);
    match random.below(9) {
        0..=3 => {
            let mut text = text_of(&asked);
            match random.below(4) {
                0 => text.truncate(random.between(text.len() / 3, text.len())),
                1 => damage(random, &mut text),
                _ => {}
            }
            line(&text)
        }
        4 => asked_line("writeq", &asked, random.below(3000)),
        5 => format!(
            "writel\t0,1,2\t0\t3\t1\t{}\t{}",
            joined(&list),
            random.below(3000)
        ),
        6 => {
            row.extend_from_within(..);
            format!("equal\t0,1,2\t{}", joined(&row))
        }
        7 => asked_line("values", &asked, joined(&row)),
        _ => {
            let loan = Loan {
                steps: 50,
                depth: 20,
                size: random.between(300, 900) as u64,
                space: 2000,
            };
            runs::line(&loan, &text_of(&asked))
        }
    }
}

/// Counts, arities and numbers at and above their limits.
pub fn counts(random: &mut Random) -> String {
    const NUMBERS: [u64; 16] = [
        0,
        1,
        8,
        9,
        63,
        64,
        65,
        255,
        256,
        257,
        511,
        512,
        65_535,
        65_536,
        1 << 32,
        u64::MAX,
    ];
    let unknowns = *random.pick(&NUMBERS);
    let equations = *random.pick(&NUMBERS);
    let functors = *random.pick(&[0, 1, 2, 2, 2, 255, 256, 257, 258]);
    let most = *random.pick(&[0, 1, 8, 9]);
    let arities: Vec<u8> = (0..functors)
        .map(|_| random.between(0, most) as u8)
        .collect();
    let mut asked = Question {
        unknowns: if random.percent(50) { 3 } else { unknowns },
        arities,
        equations: if random.percent(50) { 1 } else { equations },
        words: vec![],
    };
    if random.percent(60) {
        let mut maker = Maker::new(random, asked.unknowns.min(256) as u16, &asked.arities);
        for _ in 0..2 * asked.equations.min(65) {
            let term = maker.term(2);
            term.write(&mut asked.words);
        }
    }
    match random.below(8) {
        0..=2 => line(&text_of(&asked)),
        3 => {
            let mut text = String::from_utf8(text_of(&asked)).unwrap_or_default();
            let names = [
                "x255", "x256", "f255", "f256", "x64536", "f63536", "x99999", "x100000", "f00",
            ];
            let old = *random.pick(&["x0", "f0", "{}", "=1", "=3"]);
            text = text.replacen(old, random.pick::<&str>(&names), 1);
            line(text.as_bytes())
        }
        4 => {
            let header = format!(
                "edition={}\nunknowns={}\n",
                random.pick(&["1", "2", "0", "01", "", "10", "1000000", "1 "]),
                random.pick(&["0", "00", "", "256", "257", "0256", "99999", "100000", "-1", "1x"])
            );
            let key = random.pick(&[
                "arities=\n",
                "arities=0\n",
                "arities=,0\n",
                "arities=0,\n",
                "arities",
                "",
            ]);
            format!("text\t{}", hex(format!("{header}{key}").as_bytes()))
        }
        5..=6 => asked_line("writeq", &asked, random.below(700)),
        _ => {
            let row = vec![0; asked.unknowns.min(300) as usize];
            asked_line("values", &asked, joined(&row))
        }
    }
}
