//! The protocol of the test driver: one case a line, fields separated by TAB, without its result; one result a line.

use crate::equality;
use crate::search::{self, Loan, Outcome};
use crate::terms::*;
use crate::text::writers::AnswerList;
use crate::text::{reader, writers};
use std::io::{BufRead, Write};

/// What cases are put to: the oracle, or whatever else has these entries.
pub trait Entries {
    fn read_question(&mut self, text: &[u8]) -> Result<Question, Refusal>;
    /// Reads into buffers of so many arities and words.
    fn read_into(&mut self, text: &[u8], arities: usize, words: usize)
        -> Result<Question, Refusal>;
    fn check_limits(&mut self, loan: &Loan) -> Result<(), Refusal>;
    /// A run of a good question within the limits.
    fn run(&mut self, question: &Question, loan: &Loan) -> Result<Outcome, Refusal>;
    /// A run of any words, in room of so many words.
    fn run_in(&mut self, question: &Question, loan: &Loan, room: usize)
        -> Result<Outcome, Refusal>;
    fn write_question(&mut self, question: &Question, capacity: usize) -> Result<Vec<u8>, Refusal>;
    fn write_answers(&mut self, list: &AnswerList, capacity: usize) -> Result<Vec<u8>, Refusal>;
    fn equal(&mut self, arities: &[u8], row: &[u16]) -> Result<bool, Refusal>;
    fn solves(&mut self, question: &Question, row: &[u16]) -> Result<bool, Refusal>;
}

pub struct Oracle;

impl Entries for Oracle {
    fn read_question(&mut self, text: &[u8]) -> Result<Question, Refusal> {
        reader::read(text)
    }

    fn read_into(
        &mut self,
        text: &[u8],
        arities: usize,
        words: usize,
    ) -> Result<Question, Refusal> {
        reader::read_into(text, arities, words)
    }

    fn check_limits(&mut self, loan: &Loan) -> Result<(), Refusal> {
        search::check_limits(loan)
    }

    fn run(&mut self, question: &Question, loan: &Loan) -> Result<Outcome, Refusal> {
        Ok(search::search(question, loan))
    }

    fn run_in(
        &mut self,
        question: &Question,
        loan: &Loan,
        room: usize,
    ) -> Result<Outcome, Refusal> {
        search::run(question, loan, room)
    }

    fn write_question(&mut self, question: &Question, capacity: usize) -> Result<Vec<u8>, Refusal> {
        writers::write_question(question, capacity)
    }

    fn write_answers(&mut self, list: &AnswerList, capacity: usize) -> Result<Vec<u8>, Refusal> {
        writers::write_answers(list, capacity)
    }

    fn equal(&mut self, arities: &[u8], row: &[u16]) -> Result<bool, Refusal> {
        equality::equal(arities, row)
    }

    fn solves(&mut self, question: &Question, row: &[u16]) -> Result<bool, Refusal> {
        equality::solves(question, row)
    }
}

/// One result a line, until a malformed case.
pub fn answer_all(
    entries: &mut impl Entries,
    input: impl BufRead,
    output: &mut impl Write,
) -> Result<(), String> {
    for (index, line) in input.split(b'\n').enumerate() {
        let line = line.map_err(|cause| cause.to_string())?;
        let outcome = match std::str::from_utf8(&line) {
            Ok(case) => result(entries, case),
            Err(_) => Err("the line is no text".to_string()),
        };
        match outcome {
            Ok(result) => writeln!(output, "{result}").map_err(|cause| cause.to_string())?,
            Err(cause) => {
                output.flush().map_err(|cause| cause.to_string())?;
                return Err(format!("line {}: malformed case: {cause}", index + 1));
            }
        }
    }
    output.flush().map_err(|cause| cause.to_string())
}

/// The result of a case, or what is malformed in it.
pub fn result(entries: &mut impl Entries, case: &str) -> Result<String, String> {
    let fields: Vec<&str> = case.split('\t').collect();
    let due = match fields[0] {
        "text" => 2,
        "equal" => 3,
        "read" => 4,
        "run" | "writeq" | "values" => 6,
        "writel" => 7,
        "runw" => 10,
        kind => return Err(format!("no kind of case: {kind:?}")),
    };
    if fields.len() != due {
        return Err(format!(
            "{} has {due} fields, here are {}",
            fields[0],
            fields.len()
        ));
    }
    let given = match fields[0] {
        "text" => entries.read_question(&bytes(fields[1])?).map(ok_question),
        "read" => entries
            .read_into(&bytes(fields[1])?, number(fields[2])?, number(fields[3])?)
            .map(ok_question),
        "run" => run_case(entries, &fields)?.map(ended),
        "runw" => entries
            .run_in(
                &question(&fields)?,
                &loan(&fields[5..])?,
                number(fields[9])?,
            )
            .map(ended),
        "writeq" => entries
            .write_question(&question(&fields)?, number(fields[5])?)
            .map(ok_bytes),
        "writel" => {
            let list = AnswerList {
                arities: numbers(fields[1])?,
                end: number(fields[2])?,
                visited: number(fields[3])?,
                answers: number(fields[4])?,
                words: numbers(fields[5])?,
            };
            entries
                .write_answers(&list, number(fields[6])?)
                .map(ok_bytes)
        }
        "equal" => entries
            .equal(&numbers(fields[1])?, &numbers(fields[2])?)
            .map(|same| if same { "equal" } else { "differ" }.to_string()),
        _ => entries
            .solves(&question(&fields)?, &numbers(fields[5])?)
            .map(|yes| if yes { "yes" } else { "no" }.to_string()),
    };
    Ok(given.unwrap_or_else(|Refusal { number, place }| format!("refused {number} {place}")))
}

fn ok_question(q: Question) -> String {
    let (arities, words) = (joined(&q.arities), joined(&q.words));
    format!("ok {}|{arities}|{}|{words}", q.unknowns, q.equations)
}

/// The limits are tested before the text is read.
fn run_case(
    entries: &mut impl Entries,
    fields: &[&str],
) -> Result<Result<Outcome, Refusal>, String> {
    let loan = loan(&fields[1..])?;
    let text = bytes(fields[5])?;
    Ok(entries
        .check_limits(&loan)
        .and_then(|()| entries.read_question(&text))
        .and_then(|question| entries.run(&question, &loan)))
}

/// END VISITED ANSWERS W
fn ended(outcome: Outcome) -> String {
    let words = match outcome.words.as_slice() {
        [] => "-".to_string(),
        words => joined(words),
    };
    format!(
        "{} {} {} {words}",
        outcome.end, outcome.visited, outcome.answers
    )
}

/// The fields STEPS DEPTH SIZE SPACE.
fn loan(fields: &[&str]) -> Result<Loan, String> {
    Ok(Loan {
        steps: number(fields[0])?,
        depth: number(fields[1])?,
        size: number(fields[2])?,
        space: number(fields[3])?,
    })
}

/// The fields U A E W that a `writeq`, a `values` and a `runw` begin with.
fn question(fields: &[&str]) -> Result<Question, String> {
    Ok(Question {
        unknowns: number(fields[1])?,
        arities: numbers(fields[2])?,
        equations: number(fields[3])?,
        words: numbers(fields[4])?,
    })
}

fn number<N: std::str::FromStr>(field: &str) -> Result<N, String> {
    match field.parse() {
        Ok(number) if field.bytes().all(|b| b.is_ascii_digit()) => Ok(number),
        _ => Err(format!("no such number: {field:?}")),
    }
}

fn numbers<N: std::str::FromStr>(field: &str) -> Result<Vec<N>, String> {
    if field.is_empty() {
        return Ok(Vec::new());
    }
    field.split(',').map(number).collect()
}

fn bytes(field: &str) -> Result<Vec<u8>, String> {
    let digits: Option<Vec<u32>> = field.chars().map(|c| c.to_digit(16)).collect();
    match digits {
        Some(digits) if digits.len() % 2 == 0 => Ok(digits
            .chunks(2)
            .map(|pair| (16 * pair[0] + pair[1]) as u8)
            .collect()),
        _ => Err(format!("no bytes in hex: {field:?}")),
    }
}

fn ok_bytes(text: Vec<u8>) -> String {
    format!("ok {}", hex(&text))
}

pub fn hex(bytes: &[u8]) -> String {
    bytes.iter().map(|byte| format!("{byte:02x}")).collect()
}

pub fn joined<N: ToString>(numbers: &[N]) -> String {
    let numbers: Vec<String> = numbers.iter().map(N::to_string).collect();
    numbers.join(",")
}
