//! The writers of questions and answer lists. They test 3, 8, 6, then 7, and write nothing if they refuse.

use crate::cases::joined;
use crate::search::Outcome;
use crate::terms::*;
use crate::words::*;

/// The ends of a run: the number in the specification's table (6.2) and the word in the text.
pub const ENDS: [(u64, &str); 6] = [
    (0, "done"),
    (20, "steps"),
    (21, "depth"),
    (24, "names"),
    (22, "size"),
    (23, "space"),
];

/// A question's text, for a buffer of `capacity` bytes.
pub fn write_question(question: &Question, capacity: usize) -> Result<Vec<u8>, Refusal> {
    let starts = question.check()?;
    for &start in &starts {
        check_nesting(&question.words, start, 0, &question.arities)?;
    }
    let mut text = head(question);
    for (index, &start) in starts.iter().enumerate() {
        text.push_str(if index % 2 == 0 { "left=" } else { "right=" });
        write_term(&question.words, start, &question.arities, &mut text);
        text.push('\n');
    }
    fit(text, capacity)
}

/// The lines before a question's terms.
pub fn head(question: &Question) -> String {
    format!(
        "edition=1\nunknowns={}\narities={}\nequations={}\n",
        question.unknowns,
        joined(&question.arities),
        question.equations
    )
}

/// An answer list as it is lent to its writer.
#[derive(Clone, Debug)]
pub struct AnswerList {
    pub arities: Vec<u8>,
    pub end: u64,
    pub visited: u64,
    pub answers: u64,
    pub words: Vec<u16>,
}

impl AnswerList {
    /// What a run over these arities listed.
    pub fn of(arities: Vec<u8>, outcome: Outcome) -> AnswerList {
        AnswerList {
            arities,
            end: outcome.end,
            visited: outcome.visited,
            answers: outcome.answers,
            words: outcome.words,
        }
    }
}

/// An answer list's text, for a buffer of `capacity` bytes.
pub fn write_answers(list: &AnswerList, capacity: usize) -> Result<Vec<u8>, Refusal> {
    check_arities(&list.arities)?;
    let Some((_, end)) = ENDS.iter().find(|(number, _)| *number == list.end) else {
        return refuse(3, 0);
    };
    if list.visited > MOST_STEPS {
        return refuse(3, 0);
    }
    let answers = check_answers(&list.arities, list.answers, &list.words)?;
    for &(_, start) in answers.iter().flatten() {
        check_nesting(&list.words, start, 0, &list.arities)?;
    }
    let mut text = format!(
        "edition=1\nend={end}\nvisited={}\nanswers={}\n",
        list.visited, list.answers
    );
    for bindings in &answers {
        text.push_str(&format!("bindings={}\n", bindings.len()));
        for &(unknown, start) in bindings {
            text.push_str(&format!("unknown={unknown}\nvalue="));
            write_term(&list.words, start, &list.arities, &mut text);
            text.push('\n');
        }
    }
    fit(text, capacity)
}

fn fit(text: String, capacity: usize) -> Result<Vec<u8>, Refusal> {
    if text.len() > capacity {
        return refuse(7, text.len());
    }
    Ok(text.into_bytes())
}

/// Writes the good term at `at` and gives the place after it.
pub fn write_term(words: &[u16], at: usize, arities: &[u8], text: &mut String) -> usize {
    match words[at] {
        EMPTY => {
            text.push_str("{}");
            at + 1
        }
        WITH => {
            let mut separator = '{';
            let mut rest = at;
            while words[rest] == WITH {
                text.push(separator);
                rest = write_term(words, rest + 1, arities, text);
                separator = ',';
            }
            if words[rest] == EMPTY {
                rest += 1;
            } else {
                text.push('|');
                rest = write_term(words, rest, arities, text);
            }
            text.push('}');
            rest
        }
        word @ UNKNOWN..FUNCTOR => {
            text.push_str(&format!("x{}", word - UNKNOWN));
            at + 1
        }
        word => {
            let number = word - FUNCTOR;
            text.push_str(&format!("f{number}"));
            let arity = arities[usize::from(number)];
            let mut end = at + 1;
            for argument in 0..arity {
                text.push(if argument == 0 { '(' } else { ',' });
                end = write_term(words, end, arities, text);
            }
            if arity > 0 {
                text.push(')');
            }
            end
        }
    }
}
