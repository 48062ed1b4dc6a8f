//! Asks in runs of more and more steps, so that there is something to show whenever the asking stops. What was listed with fewer steps begins what is listed with
//! more, so that the last list is the one that a single run would have given.
use crate::interrupt::interrupted;
use crate::numbers::grouped;
use mensorique::{Answers, End, Limits, Question, Refusal, Room};
use std::io::Write;
use std::sync::mpsc::{self, RecvTimeoutError, Sender};
use std::thread;
use std::time::{Duration, Instant};

/// The first run has at most so many steps; each has twice as many as the one before.
const FIRST: u64 = 65_536;
/// Runs are told of once the asking has taken this long, in milliseconds.
const QUIET: u64 = 1_000;
/// How often the clock and the signals are looked at, in milliseconds.
const GLANCE: u64 = 50;
/// Of the time that is left, one part in so many is not planned for.
const SPARE: u64 = 8;

/// Why the asking stopped.
pub enum Why {
    /// A run ended so, and not for want of steps where more may be lent.
    End(End),
    /// The time is over, or too little is left of it to get further.
    Time,
    Interrupted,
}

/// A run that was refused tells why; a list is that of the last run.
type Told = Result<(Answers, Duration), Refusal>;

/// The last list, and why there is no longer one. There is none where not even the first run came to its end.
pub fn ask(
    question: &Question,
    limits: Limits,
    time: Option<Duration>,
    progress: bool,
) -> Result<(Option<Answers>, Why), Refusal> {
    let began = Instant::now();
    let deadline = time.and_then(|time| began.checked_add(time));
    let (told, news) = mpsc::channel();
    let question = question.clone();
    // A run cannot be stopped, but it can be left alone: it ends with the program.
    thread::spawn(move || runs(&question, limits, deadline, &told));
    let mut last = None;
    loop {
        match news.recv_timeout(Duration::from_millis(GLANCE)) {
            Ok(run) => {
                let (answers, took) = run?;
                let (end, visited) = (answers.end(), answers.visited());
                if end != End::Steps || visited == limits.steps {
                    return Ok((Some(answers), Why::End(end)));
                }
                if progress && began.elapsed() >= Duration::from_millis(QUIET) {
                    tell(&answers, took);
                }
                last = Some(answers);
            }
            Err(RecvTimeoutError::Timeout) => {}
            // No further run is worth its while.
            Err(RecvTimeoutError::Disconnected) => return Ok((last, Why::Time)),
        }
        if interrupted() {
            return Ok((last, Why::Interrupted));
        }
        if deadline.is_some_and(|deadline| Instant::now() >= deadline) {
            return Ok((last, Why::Time));
        }
    }
}

/// Runs with more and more steps, up to those that are lent; the answers of each are sent.
fn runs(question: &Question, limits: Limits, deadline: Option<Instant>, told: &Sender<Told>) {
    let mut room = Room::default();
    // The steps lent are halved so often before the first run, and once less before each next one: all runs together visit less than twice as many nodes.
    let mut halvings = 0;
    while limits.steps >> halvings > FIRST {
        halvings += 1;
    }
    let mut steps = limits.steps >> halvings;
    loop {
        let began = Instant::now();
        let run = question.run_in(Limits { steps, ..limits }, &mut room);
        let took = began.elapsed();
        let goes_on = matches!(&run, Ok(answers) if answers.end() == End::Steps);
        let sent = told.send(run.map(|answers| (answers, took)));
        if sent.is_err() || !goes_on || halvings == 0 {
            return;
        }
        halvings -= 1;
        let left = deadline.map(|deadline| deadline.saturating_duration_since(Instant::now()));
        let twice = limits.steps >> halvings;
        let next = left.map_or(twice, |left| twice.min(possible(steps, took, left)));
        if next <= steps {
            return;
        }
        steps = next;
    }
}

/// The steps that there is time for at the speed of a run.
fn possible(steps: u64, took: Duration, left: Duration) -> u64 {
    let possible = steps as f64 * left.as_secs_f64() / took.as_secs_f64();
    let possible = possible as u64;
    possible - possible / SPARE
}

/// One line of progress.
fn tell(answers: &Answers, took: Duration) {
    let speed = answers.visited() as f64 / took.as_secs_f64();
    // Nobody is told where standard error is closed.
    let _ = writeln!(
        std::io::stderr(),
        "plan: {} nodes in {:.1} s, {} a second; answers so far: {}",
        grouped(answers.visited()),
        took.as_secs_f64(),
        grouped(speed as u64),
        grouped(answers.len() as u64)
    );
}
