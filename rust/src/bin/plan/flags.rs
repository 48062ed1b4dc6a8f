//! The command line.
use crate::loan::Loan;
use std::ffi::OsString;
use std::path::PathBuf;

/// What `--help` prints.
pub const HELP: &str = include_str!("help.txt");

/// How many ways are shown for each group, where no flag says otherwise.
const WAYS: usize = 8;

#[derive(Clone, Copy, PartialEq, Eq)]
pub enum Show {
    Table,
    Text,
    Words,
    Help,
    Version,
}

pub struct Flags {
    pub show: Show,
    pub loan: Loan,
    pub ways: usize,
    pub html: Option<PathBuf>,
    pub quiet: bool,
    /// Standard input where there is none.
    pub file: Option<PathBuf>,
}

/// The flags, or one line about what is wrong with them.
pub fn flags(arguments: impl Iterator<Item = OsString>) -> Result<Flags, String> {
    let mut flags = Flags {
        show: Show::Table,
        loan: Loan::default(),
        ways: WAYS,
        html: None,
        quiet: false,
        file: None,
    };
    let mut arguments = arguments.fuse();
    let mut only_files = false;
    while let Some(argument) = arguments.next() {
        let text = argument.to_string_lossy().into_owned();
        if only_files || !text.starts_with('-') || text == "-" {
            if flags.file.is_some() {
                return Err(format!(
                    "one plan is asked at a time, and {text} is another"
                ));
            }
            flags.file = Some(argument.into());
            continue;
        }
        // `--steps 10` or `--steps=10`
        let (flag, mut joined) = match text.split_once('=') {
            Some((flag, value)) => (flag, Some(OsString::from(value))),
            None => (text.as_str(), None),
        };
        let mut value = || {
            let value = joined.take().or_else(|| arguments.next());
            value.ok_or_else(|| format!("{flag} lacks its value: plan --help"))
        };
        match flag {
            "--" if text == "--" => only_files = true,
            "--steps" | "--depth" | "--size" | "--space" | "--time" => {
                let value = value()?.to_string_lossy().into_owned();
                let loan = Loan::of(&flag["--".len()..], &value);
                let expected = |what| format!("{flag} takes {what}, not {value}");
                flags.loan = loan.map_err(expected)?.or(flags.loan);
            }
            "--ways" => {
                let value = value()?.to_string_lossy().into_owned();
                let ways = value.parse();
                flags.ways = ways.map_err(|_| format!("{flag} takes a number, not {value}"))?;
            }
            "--html" => flags.html = Some(value()?.into()),
            "--quiet" => flags.quiet = true,
            "--text" => flags.show = Show::Text,
            "--words" => flags.show = Show::Words,
            "--help" | "-h" => flags.show = Show::Help,
            "--version" => flags.show = Show::Version,
            _ => return Err(format!("there is no flag {flag}: plan --help")),
        }
        if joined.is_some() {
            return Err(format!("{flag} takes no value: plan --help"));
        }
    }
    if flags.html.is_some() && matches!(flags.show, Show::Text | Show::Words) {
        return Err("--text and --words ask nothing, so that there is no page for --html".into());
    }
    Ok(flags)
}
