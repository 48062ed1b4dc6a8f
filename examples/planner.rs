//! The question of `planner.c`, asked from Rust:
//!     {algebra,x0,lab(x1)} = {geometry,lab(logic)|x2}
use mensorique::{Answer, End, Limits, Names, Question, Refusal, Room, Term};

const PLACES: [&str; 3] = ["x0", "x1", "x2"];
const COURSES: [&str; 4] = ["algebra", "geometry", "logic", "lab"];
const ARITIES: [u8; 4] = [0, 0, 0, 1];

fn course(k: u16) -> Term {
    Term::constant(k)
}

fn lab(of: Term) -> Term {
    Term::Functor(3, vec![of])
}

/// What an answer makes of each unknown, and of the group.
fn line(answer: &Answer, group: &Term, names: &Names) -> Result<String, Refusal> {
    let mut line = String::new();
    for (i, place) in (0..).zip(PLACES) {
        let value = answer.filled(&Term::Unknown(i))?;
        line += &format!(" {place}={}", value.shown(names));
    }
    let group = answer.filled(group)?;
    Ok(format!("{line} group={}", group.shown(names)))
}

fn main() -> Result<(), Refusal> {
    let left = Term::set([course(0), Term::Unknown(0), lab(Term::Unknown(1))]);
    let right = Term::set_with([course(1), lab(course(2))], Term::Unknown(2));
    let names = Names::new(PLACES, COURSES);
    println!("asked: {} = {}", left.shown(&names), right.shown(&names));
    let mut question = Question::new(PLACES.len(), ARITIES);
    question.equate(&left, &right)?;

    // Few steps first, then more: what was listed stays as it was, and only `done` is final.
    let mut room = Room::default();
    for steps in [500, 50_000, 5_000_000] {
        let limits = Limits {
            steps,
            depth: 32,
            size: 128,
            answer_words: 1024,
        };
        let answers = question.run_in(limits, &mut room)?;
        println!(
            "steps {steps}: {}, visited {}, answers {}",
            answers.end(),
            answers.visited(),
            answers.len()
        );
        for (i, answer) in answers.iter().enumerate() {
            println!("{}:{}", i + 1, line(&answer, &left, &names)?);
        }
        if answers.end() == End::Done {
            println!("these are all");
            return Ok(());
        }
        println!("there may be more");
        if answers.end() != End::Steps {
            break;
        }
    }
    Ok(())
}
