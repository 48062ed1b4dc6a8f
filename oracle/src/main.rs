//! The command line: `oracle cases | solve | generate SEED COUNT | check SEED COUNT | edges`.

use oracle::cases::{self, Oracle};
use std::io::{Read, Write};
use std::process::ExitCode;

const USAGE: &str = "usage: oracle cases | solve | generate SEED COUNT | check SEED COUNT | edges";

fn main() -> ExitCode {
    oracle::on_deep_stack(|| match command() {
        Ok(()) => ExitCode::SUCCESS,
        Err(cause) => {
            eprintln!("oracle: {cause}");
            ExitCode::from(2)
        }
    })
}

fn command() -> Result<(), String> {
    let words: Vec<String> = std::env::args().skip(1).collect();
    let words: Vec<&str> = words.iter().map(String::as_str).collect();
    match words[..] {
        ["cases"] => run_cases(),
        ["solve"] => solve(),
        ["generate", seed, count] => {
            print_lines(oracle::generate::cases(number(seed)?, number(count)?))
        }
        ["check", seed, count] => check(number(seed)?, number(count)?),
        ["edges"] => {
            let edges = oracle::edges::edges().into_iter();
            print_lines(edges.map(|edge| format!("{}\t{}", edge.case, edge.result)))
        }
        _ => Err(USAGE.to_string()),
    }
}

fn number(word: &str) -> Result<u64, String> {
    word.parse().map_err(|_| USAGE.to_string())
}

fn print_lines(lines: impl Iterator<Item = String>) -> Result<(), String> {
    let mut output = std::io::BufWriter::new(std::io::stdout().lock());
    for line in lines {
        writeln!(output, "{line}").map_err(|cause| cause.to_string())?;
    }
    output.flush().map_err(|cause| cause.to_string())
}

/// Trials of promises 2 and 3 (`docs/PROMISES.md`), and of the fast search against the plain one.
fn check(seed: u64, count: u64) -> Result<(), String> {
    let tally = oracle::check::check(seed, count)?;
    println!("{tally:#?}");
    Ok(())
}

fn run_cases() -> Result<(), String> {
    let mut output = std::io::BufWriter::new(std::io::stdout().lock());
    cases::answer_all(&mut Oracle, std::io::stdin().lock(), &mut output)
}

fn solve() -> Result<(), String> {
    let mut text = Vec::new();
    std::io::stdin()
        .lock()
        .take(oracle::solve::MOST_BYTES as u64)
        .read_to_end(&mut text)
        .map_err(|cause| cause.to_string())?;
    std::io::stdout()
        .write_all(&oracle::solve::solve(&text))
        .map_err(|cause| cause.to_string())
}
