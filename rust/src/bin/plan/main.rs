//! `plan`: a plan in names, asked and answered. docs/PLAN.md says how a plan is written and what is printed.
mod ask;
mod flags;
mod interrupt;
mod loan;
mod numbers;
mod plan;
mod reading;
mod report;
mod terms;

use crate::flags::{Flags, Show};
use crate::report::{Outcome, Report};
use mensorique::Question;
use std::fs::{self, File};
use std::io::{self, IsTerminal, Read, Write};

/// The statuses.
const FINISHED: u8 = 0;
const NOT_WRITTEN: u8 = 1;
const NOT_GOOD: u8 = 2;
const NOT_FINISHED: u8 = 3;

/// The most bytes that a plan has.
const BYTES: u64 = 1_048_576;

/// A status other than that of a run, and one line about it.
struct Failed {
    status: u8,
    said: String,
}

fn not_good(said: impl Into<String>) -> Failed {
    let said = said.into();
    Failed {
        status: NOT_GOOD,
        said,
    }
}

fn not_written(what: &str, error: &io::Error) -> Failed {
    Failed {
        status: NOT_WRITTEN,
        said: format!("{what} cannot be written: {error}"),
    }
}

fn main() {
    let status = run().unwrap_or_else(|failed| {
        // Nobody is told where standard error is closed.
        let _ = writeln!(io::stderr(), "plan: {}", failed.said);
        failed.status
    });
    // A run that was left alone ends here too.
    std::process::exit(status.into())
}

fn run() -> Result<u8, Failed> {
    let flags = flags::flags(std::env::args_os().skip(1)).map_err(not_good)?;
    match flags.show {
        Show::Help => return print(flags::HELP),
        Show::Version => return print(&format!("plan {}\n", env!("CARGO_PKG_VERSION"))),
        _ => {}
    }
    let (name, bytes) = input(&flags)?;
    let fault = |fault| not_good(format!("{name}:{fault}"));
    let plan = reading::read(&bytes).map_err(fault)?;
    let refused = |refusal: mensorique::Refusal| not_good(format!("{name}: {refusal}"));
    let question = plan.question().map_err(refused)?;
    match flags.show {
        Show::Text => return print(&question.text().map_err(refused)?),
        Show::Words => return print(&words(&question)),
        _ => {}
    }
    interrupt::listen();
    let loan = flags.loan.or(plan.loan);
    let asked = ask::ask(&question, loan.limits(), loan.time, !flags.quiet);
    let (answers, why) = asked.map_err(refused)?;
    let outcome = Outcome { answers, why, loan };
    let too_large = |refusal| {
        let why = "a group with all values put in is too large to be compared";
        not_good(format!("{name}: {why}: {refusal}"))
    };
    let report = Report::new(&plan, &outcome, flags.ways).map_err(too_large)?;
    print(&report.table())?;
    if let Some(file) = &flags.html {
        let page = report.page(&title(&flags));
        let written = fs::write(file, page);
        written.map_err(|error| not_written(&file.display().to_string(), &error))?;
    }
    Ok(match report.is_final {
        true => FINISHED,
        false => NOT_FINISHED,
    })
}

/// The plan's bytes, and the name that faults are told with.
fn input(flags: &Flags) -> Result<(String, Vec<u8>), Failed> {
    let file = flags.file.as_ref().filter(|file| file.as_os_str() != "-");
    let name = file.map_or("standard input".to_string(), |file| {
        file.display().to_string()
    });
    let mut bytes = Vec::new();
    let read = match file {
        Some(file) => {
            File::open(file).and_then(|file| file.take(BYTES + 1).read_to_end(&mut bytes))
        }
        None => {
            let input = io::stdin();
            if input.is_terminal() {
                let _ = writeln!(io::stderr(), "plan: reads a plan from standard input");
            }
            input.lock().take(BYTES + 1).read_to_end(&mut bytes)
        }
    };
    match read {
        Err(error) => Err(not_good(format!("{name} cannot be read: {error}"))),
        Ok(_) if bytes.len() as u64 > BYTES => {
            Err(not_good(format!("{name} has more than {BYTES} bytes")))
        }
        Ok(_) => Ok((name, bytes)),
    }
}

/// What a page is called: its plan's name.
fn title(flags: &Flags) -> String {
    let name = flags.file.as_ref().and_then(|file| file.file_stem());
    name.map_or("plan".to_string(), |name| {
        name.to_string_lossy().into_owned()
    })
}

/// The question as the component takes it: counts, arities and words.
fn words(question: &Question) -> String {
    let asked = question.asked();
    let joined = |numbers: Vec<String>| numbers.join(",");
    format!(
        "unknowns={}\narities={}\nequations={}\nwords={}\n",
        asked.unknowns,
        joined(asked.arities.iter().map(u8::to_string).collect()),
        asked.equations,
        joined(asked.words.iter().map(u16::to_string).collect())
    )
}

fn print(text: &str) -> Result<u8, Failed> {
    let mut output = io::stdout().lock();
    let written = output
        .write_all(text.as_bytes())
        .and_then(|()| output.flush());
    match written {
        Ok(()) => Ok(FINISHED),
        Err(error) => Err(not_written("standard output", &error)),
    }
}
