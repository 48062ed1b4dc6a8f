//! The vectors and the corpus of the repository's oracle, through the archive: one case a line, its fields and its result with tabs between.
use mensorique::words::{self, Asked};
use mensorique::Refusal;
use std::fs;
use std::path::Path;

/// No text or list in the files is longer, and no `runw` that is granted needs more room, so larger ones behave the same.
const MOST_LENT: usize = 1 << 17;
const MOST_ROOM: usize = 1 << 20;

fn numbers<N: std::str::FromStr>(field: &str) -> Vec<N>
where
    N::Err: std::fmt::Debug,
{
    let all = field.split(',').filter(|number| !number.is_empty());
    all.map(|number| number.parse().unwrap()).collect()
}

fn bytes(hex: &str) -> Vec<u8> {
    let digit = |i: usize| hex.as_bytes()[i] as char;
    let byte = |i| 16 * digit(i).to_digit(16).unwrap() + digit(i + 1).to_digit(16).unwrap();
    (0..hex.len()).step_by(2).map(|i| byte(i) as u8).collect()
}

fn joined<N: ToString>(numbers: &[N]) -> String {
    let numbers: Vec<String> = numbers.iter().map(N::to_string).collect();
    numbers.join(",")
}

/// A question as read into buffers of these lengths, with its arities and words.
fn read_into(
    hex: &str,
    arities: usize,
    words: usize,
) -> Result<(words::Counts, Vec<u8>, Vec<u16>), Refusal> {
    let mut arities = vec![7; arities.min(MOST_LENT)];
    let mut words = vec![7; words.min(MOST_LENT)];
    let given = words::read_question(&bytes(hex), &mut arities, &mut words);
    let (functors, used) = given.map_or((0, 0), |counts| (counts.functors, counts.words));
    assert!(arities[functors..].iter().all(|&arity| arity == 7));
    assert!(words[used..].iter().all(|&word| word == 7));
    arities.truncate(functors);
    words.truncate(used);
    given.map(|counts| (counts, arities, words))
}

fn read_case(hex: &str, arities: usize, words: usize) -> Result<String, Refusal> {
    let (counts, arities, words) = read_into(hex, arities, words)?;
    let (arities, words) = (joined(&arities), joined(&words));
    Ok(format!(
        "ok {}|{arities}|{}|{words}",
        counts.unknowns, counts.equations
    ))
}

/// The limits are tested before the text is read.
fn run_case(fields: &[&str]) -> Result<String, Refusal> {
    let lent = |i: usize| fields[i].parse::<usize>().unwrap();
    let (steps, depth, size) = (fields[1].parse().unwrap(), lent(2), lent(3));
    let mut room = vec![7; words::room_words(depth, size)];
    let none = Asked {
        unknowns: 0,
        arities: &[],
        equations: 0,
        words: &[],
    };
    words::run(none, steps, depth, size, &mut [], &mut room)?;
    let (counts, arities, words) = read_into(fields[5], 256, 4096)?;
    let asked = Asked {
        unknowns: counts.unknowns,
        arities: &arities,
        equations: counts.equations,
        words: &words,
    };
    listed(asked, steps, depth, size, lent(4), &mut room)
}

/// A run in this room, and what it listed.
fn listed(
    asked: Asked<'_>,
    steps: u64,
    depth: usize,
    size: usize,
    space: usize,
    room: &mut [u16],
) -> Result<String, Refusal> {
    let mut answers = vec![7; space.min(MOST_LENT)];
    let given = words::run(asked, steps, depth, size, &mut answers, room);
    let used = given.map_or(0, |ran| ran.words);
    assert!(answers[used..].iter().all(|&word| word == 7));
    let ran = given?;
    let listed = match &answers[..ran.words] {
        [] => "-".to_string(),
        words => joined(words),
    };
    Ok(format!(
        "{} {} {} {listed}",
        ran.end, ran.visited, ran.answers
    ))
}

fn written(
    capacity: &str,
    write: impl Fn(&mut [u8]) -> Result<usize, Refusal>,
) -> Result<String, Refusal> {
    let mut text = vec![7; capacity.parse::<usize>().unwrap().min(MOST_LENT)];
    let given = write(&mut text);
    assert!(text[given.unwrap_or(0)..].iter().all(|&byte| byte == 7));
    let length = given?;
    let hex = text[..length].iter().map(|byte| format!("{byte:02x}"));
    Ok(format!("ok {}", hex.collect::<String>()))
}

fn result(fields: &[&str]) -> Result<String, Refusal> {
    let said = |yes: bool, words: [&str; 2]| words[usize::from(!yes)].to_string();
    let number = |i: usize| fields[i].parse::<u64>().unwrap();
    match fields[0] {
        "text" => read_case(fields[1], 256, 4096),
        "read" => read_case(fields[1], number(2) as usize, number(3) as usize),
        "run" => run_case(fields),
        "equal" => words::equal(&numbers(fields[1]), &numbers(fields[2]))
            .map(|yes| said(yes, ["equal", "differ"])),
        "writel" => {
            let (arities, list) = (numbers(fields[1]), numbers(fields[5]));
            let (end, visited, answers) = (number(2), number(3), number(4) as usize);
            written(fields[6], |text| {
                words::write_answers(&arities, end, visited, answers, &list, text)
            })
        }
        kind => {
            let (arities, words) = (numbers(fields[2]), numbers(fields[4]));
            let asked = Asked {
                unknowns: number(1) as usize,
                arities: &arities,
                equations: number(3) as usize,
                words: &words,
            };
            match kind {
                "writeq" => written(fields[5], |text| words::write_question(asked, text)),
                "runw" => {
                    let (depth, size) = (number(6) as usize, number(7) as usize);
                    let mut room = vec![7; (number(9) as usize).min(MOST_ROOM)];
                    let space = number(8) as usize;
                    let given = listed(asked, number(5), depth, size, space, &mut room);
                    assert!(given.is_ok() || room.iter().all(|&word| word == 7));
                    given
                }
                "values" => {
                    words::solves(asked, &numbers(fields[5])).map(|yes| said(yes, ["yes", "no"]))
                }
                other => panic!("no kind of case: {other}"),
            }
        }
    }
}

#[test]
fn every_case_gives_its_result() {
    let oracle = Path::new(env!("CARGO_MANIFEST_DIR")).join("../oracle");
    let vectors = ["equal", "run", "text", "values", "writel", "writeq"];
    let files = vectors.map(|name| format!("tests/vectors/{name}.tsv"));
    let corpus = ["corpus/edges.tsv", "corpus/generated.tsv"].map(String::from);
    for file in files.into_iter().chain(corpus) {
        let lines = fs::read_to_string(oracle.join(&file)).unwrap();
        for (i, line) in lines.lines().enumerate() {
            let fields: Vec<&str> = line.split('\t').collect();
            let (expected, given) = fields.split_last().unwrap();
            let got = result(given).unwrap_or_else(|refusal| {
                format!("refused {} {}", refusal.cause as u32, refusal.place)
            });
            assert_eq!(got, *expected, "{file}, line {}", i + 1);
        }
    }
}
