//! What a plan or a flag lends to a run.
use mensorique::{most, Limits};
use std::time::Duration;

/// What it does not say stays as it is without.
#[derive(Clone, Copy, Default)]
pub struct Loan {
    pub steps: Option<u64>,
    pub depth: Option<usize>,
    pub size: Option<usize>,
    pub space: Option<usize>,
    pub time: Option<Duration>,
}

/// What is lent where neither the plan nor a flag says otherwise; of depth and size it is the most that there is.
const STEPS: u64 = 100_000_000;
const SPACE: usize = 16_777_216;

impl Loan {
    pub const WORDS: &'static [&'static str] = &["steps", "depth", "size", "space", "time"];

    /// So much of one of these, or what would have been expected.
    pub fn of(what: &str, number: &str) -> Result<Loan, String> {
        let none = Loan::default();
        let steps = || at_most(number, most::STEPS, what);
        let count = |most| at_most(number, most as u64, what).map(|count| count as usize);
        Ok(match what {
            "steps" => Loan {
                steps: Some(steps()?),
                ..none
            },
            "depth" => Loan {
                depth: Some(count(most::DEPTH)?),
                ..none
            },
            "size" => Loan {
                size: Some(count(most::SIZE)?),
                ..none
            },
            "space" => Loan {
                space: Some(count(usize::MAX)?),
                ..none
            },
            _ => Loan {
                time: Some(seconds(number)?),
                ..none
            },
        })
    }

    /// This loan, or the other's where it says nothing.
    pub fn or(self, other: Loan) -> Loan {
        Loan {
            steps: self.steps.or(other.steps),
            depth: self.depth.or(other.depth),
            size: self.size.or(other.size),
            space: self.space.or(other.space),
            time: self.time.or(other.time),
        }
    }

    pub fn limits(&self) -> Limits {
        Limits {
            steps: self.steps.unwrap_or(STEPS),
            depth: self.depth.unwrap_or(most::DEPTH),
            size: self.size.unwrap_or(most::SIZE),
            answer_words: self.space.unwrap_or(SPACE),
        }
    }
}

fn at_most(number: &str, most: u64, what: &str) -> Result<u64, String> {
    let digits = !number.is_empty() && number.bytes().all(|byte| byte.is_ascii_digit());
    match number.parse() {
        Ok(count) if digits && count <= most => Ok(count),
        _ => Err(format!("a number for {what}, at most {most}")),
    }
}

fn seconds(number: &str) -> Result<Duration, String> {
    let plain = number
        .bytes()
        .all(|byte| byte.is_ascii_digit() || byte == b'.');
    let seconds = number.parse().ok().filter(|_| plain);
    seconds
        .and_then(|seconds| Duration::try_from_secs_f64(seconds).ok())
        .ok_or_else(|| "a number of seconds, as 10 or 0.5".to_string())
}
