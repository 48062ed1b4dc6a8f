//! The other entries on large inputs: the median time of a call. The oracle's result is compared first.

use crate::inputs::{deep_question, flat_question, pairs, solutions, ARITIES};
use crate::{median, timed};
use component::calls;
use oracle::cases::{Entries, Oracle};
use oracle::terms::{Question, Term, MOST_SYMBOLS};
use oracle::text::writers::AnswerList;
use std::fmt::Debug;
use std::hint::black_box;
use std::time::{Duration, Instant};

/// Calls are repeated for so long, and at least thrice.
const LONG: Duration = Duration::from_millis(300);

/// The median time of a call that has to give this.
fn time<T: PartialEq + Debug>(name: &str, wanted: T, mut call: impl FnMut() -> T) -> Duration {
    assert_eq!(call(), wanted, "{name}: the oracle gives the second");
    let start = Instant::now();
    let mut times = Vec::new();
    while times.len() < 3 || start.elapsed() < LONG {
        times.push(timed(|| {
            black_box(call());
        }));
    }
    median(times)
}

fn line(name: &str, time: Duration, bytes: Option<usize>) {
    let rate = bytes.map_or(String::new(), |bytes| {
        format!("{:.0} MB/s", bytes as f64 / time.as_secs_f64() / 1e6)
    });
    println!("| {name} | {time:.1?} | {rate} |");
}

pub fn measure() {
    println!("Median time of a call.\n");
    println!("| call | time | text |");
    println!("|---|--:|--:|");
    for (name, asked) in [
        ("flat", flat_question()),
        ("nested 200 deep", deep_question()),
    ] {
        texts(name, &asked);
    }
    lists();
    for (name, left, right) in pairs() {
        let row = [left.words(), right.words()].concat();
        let name = format!("`equal`: {name}, {} symbols", row.len());
        let wanted = Oracle.equal(&ARITIES, &row);
        assert!(wanted.is_ok(), "{name}: no good row");
        let time = time(&name, wanted, || calls::equal(&ARITIES, black_box(&row)));
        line(&name, time, None);
    }
    for (name, asked, values) in solutions() {
        let row: Vec<u16> = values.iter().flat_map(Term::words).collect();
        let name = format!("`solves`: {name}, values of {} symbols", row.len());
        let wanted = Oracle.solves(&asked, &row);
        assert!(wanted.is_ok(), "{name}: no good values");
        let time = time(&name, wanted, || calls::solves(black_box(&asked), &row));
        line(&name, time, None);
    }
}

/// Reading and writing one question.
fn texts(name: &str, asked: &Question) {
    let text = Oracle
        .write_question(asked, usize::MAX)
        .expect("a good question");
    let large = format!(
        "{name}, {} symbols, {} bytes",
        asked.words.len(),
        text.len()
    );
    let (mut arities, mut words) = (vec![0; 256], vec![0; MOST_SYMBOLS]);
    let reading = time(&large, Ok(asked.words.len()), || {
        calls::read_question(black_box(&text), &mut arities, &mut words).map(|counts| counts.used)
    });
    assert!(
        words[..asked.words.len()] == asked.words,
        "{large}: other words are read"
    );
    line(
        &format!("`read_question`: {large}"),
        reading,
        Some(text.len()),
    );
    let mut written = vec![0; 32_768];
    let writing = time(&large, Ok(text.len()), || {
        calls::write_question(black_box(asked), &mut written)
    });
    assert!(
        written[..text.len()] == text,
        "{large}: another text is written"
    );
    line(
        &format!("`write_question`: {large}"),
        writing,
        Some(text.len()),
    );
}

/// Writing a list of answers, 4,096 words together.
fn lists() {
    let answer = [2, 0, 1, 2000, 1001, 1, 2001, 1002];
    let list = AnswerList {
        arities: vec![0, 1],
        end: 0,
        visited: 100_000,
        answers: (MOST_SYMBOLS / answer.len()) as u64,
        words: answer.repeat(MOST_SYMBOLS / answer.len()),
    };
    let text = Oracle
        .write_answers(&list, usize::MAX)
        .expect("an answer list");
    let mut written = vec![0; 1 << 17];
    let name = format!(
        "`write_answers`: {} words, {} bytes",
        list.words.len(),
        text.len()
    );
    let time = time(&name, Ok(text.len()), || {
        calls::write_answers(black_box(&list), &mut written)
    });
    assert!(
        written[..text.len()] == text,
        "{name}: another text is written"
    );
    line(&name, time, Some(text.len()));
}
