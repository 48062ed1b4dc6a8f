//! What a question costs: so many places a side against as many courses, with and without tails, asked with the most steps that there are. Prints the rows of the
//! table in docs/GUIDE.md. An argument says how many members a side are tried, 5 where there is none; 6 takes minutes.
//!     cargo run --release --offline --example costs
use mensorique::{Limits, Question, Refusal, Room, Term};
use std::time::{Duration, SystemTime};

const TAILS: [&str; 4] = ["none", "one", "different", "the same"];

/// The processor time of this thread, where the system tells it, so that other work does not lengthen it; else the time of day.
fn now() -> Duration {
    let told = std::fs::read_to_string("/proc/thread-self/schedstat").ok();
    let nanoseconds = told.and_then(|told| told.split(' ').next()?.parse().ok());
    let since = || SystemTime::now().duration_since(SystemTime::UNIX_EPOCH);
    nanoseconds.map_or_else(|| since().unwrap_or_default(), Duration::from_nanos)
}

fn grouped(number: usize) -> String {
    let digits = number.to_string();
    let mut text = String::new();
    for (i, digit) in digits.chars().enumerate() {
        if i > 0 && (digits.len() - i) % 3 == 0 {
            text.push(',');
        }
        text.push(digit);
    }
    text
}

fn row(members: u16, tails: &str, room: &mut Room) -> Result<String, Refusal> {
    let (first, second) = (Term::Unknown(members), Term::Unknown(members + 1));
    let (left, right) = match tails {
        "none" => (Term::Empty, Term::Empty),
        "one" => (first, Term::Empty),
        "different" => (first, second),
        _ => (first.clone(), first),
    };
    let group = Term::set_with((0..members).map(Term::Unknown), left);
    let courses = Term::set_with((0..members).map(Term::constant), right);
    let mut question = Question::new(usize::from(members) + 2, vec![0; members.into()]);
    question.equate(&group, &courses)?;
    // Space for every answer.
    let limits = Limits {
        answer_words: 1 << 30,
        ..Limits::MOST
    };
    let began = now();
    let answers = question.run_in(limits, room)?;
    let took = now().saturating_sub(began).as_secs_f64();
    let seconds = match took {
        _ if took < 0.001 => "< 0.001".to_string(),
        _ if took < 10.0 => format!("{took:.3}"),
        _ => format!("{took:.0}"),
    };
    Ok(format!(
        "| {members} | {tails} | {} | {} | {seconds} | {} | {} |",
        answers.end(),
        grouped(answers.visited() as usize),
        grouped(answers.len()),
        grouped(answers.groups(&[group])?.len())
    ))
}

fn main() -> Result<(), Refusal> {
    let most = std::env::args().nth(1).map(|most| most.parse::<u16>());
    let Ok(most) = most.unwrap_or(Ok(5)) else {
        eprintln!("costs: the argument is how many members a side are tried");
        std::process::exit(2);
    };
    println!("| members a side | tails | end | nodes | seconds | answers | distinct groups |");
    println!("|--:|---|---|--:|--:|--:|--:|");
    let mut room = Room::default();
    for members in 1..=most {
        for tails in TAILS {
            println!("{}", row(members, tails, &mut room)?);
        }
    }
    Ok(())
}
