//! Random cases of the test driver by seed: good ones, damaged ones, and ones around every limit.

mod large;
mod lending;
mod limits;
mod runs;
mod tables;
mod texts;

use crate::cases::joined;
use crate::random::Random;
use crate::terms::Question;
use std::fmt::Display;

/// `count` cases, one a line, without their results.
pub fn cases(seed: u64, count: u64) -> impl Iterator<Item = String> {
    let mut random = Random::new(seed);
    (0..count).map(move |_| case(&mut random))
}

/// A case of a kind that begins with the question's fields U A E W, and its last field.
fn asked_line(kind: &str, asked: &Question, last: impl Display) -> String {
    let (arities, words) = (joined(&asked.arities), joined(&asked.words));
    let (unknowns, equations) = (asked.unknowns, asked.equations);
    format!("{kind}\t{unknowns}\t{arities}\t{equations}\t{words}\t{last}")
}

fn case(random: &mut Random) -> String {
    match random.below(1000) {
        0..=5 => limits::many_symbols(random),
        6..=39 => limits::deep_nesting(random),
        40..=99 => limits::counts(random),
        100..=149 => texts::good(random),
        150..=249 => texts::damaged(random),
        250..=299 => lending::read(random),
        300..=519 => runs::case(random),
        520..=589 => lending::run_words(random),
        590..=619 => large::case(random),
        620..=719 => tables::write_question(random),
        720..=819 => tables::write_answers(random),
        820..=909 => tables::equal(random),
        _ => tables::values(random),
    }
}
