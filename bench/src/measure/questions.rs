//! The questions whose runs are measured: sets of three, four and five members a side, without tails and with them, nested ones, and many small ones.

use oracle::random::{rich_question, small_question, Random};
use oracle::search::Loan;
use oracle::terms::Question;
use oracle::text::reader::read;

pub struct Trial {
    pub name: String,
    pub questions: Vec<Question>,
    pub loan: Loan,
}

/// The loan of the program `solve`, with more steps, and space for every answer.
const LOAN: Loan = Loan {
    steps: 1_000_000,
    depth: 96,
    size: 256,
    space: 1 << 22,
};

/// Functors f0 to f5 are constants, f6 has one argument.
fn asked(unknowns: usize, equations: &[(String, String)]) -> Question {
    let mut text = format!(
        "edition=1\nunknowns={unknowns}\narities=0,0,0,0,0,0,1\nequations={}\n",
        equations.len()
    );
    for (left, right) in equations {
        text.push_str(&format!("left={left}\nright={right}\n"));
    }
    read(text.as_bytes()).expect("a good question")
}

/// letter0,letter1,.. with `count` names
fn names(letter: char, count: usize) -> String {
    let names: Vec<String> = (0..count).map(|i| format!("{letter}{i}")).collect();
    names.join(",")
}

fn trial(name: String, question: Question) -> Trial {
    Trial {
        name,
        questions: vec![question],
        loan: LOAN,
    }
}

pub fn trials() -> Vec<Trial> {
    let mut trials = Vec::new();
    for members in 3..=5 {
        let (these, those) = (names('x', members), names('f', members));
        let (s, r) = (members, members + 1);
        for (tails, left, right) in [
            ("no tails", String::new(), String::new()),
            ("one tail", format!("|x{s}"), String::new()),
            ("different tails", format!("|x{s}"), format!("|x{r}")),
            ("the same tail", format!("|x{s}"), format!("|x{s}")),
        ] {
            let equation = (format!("{{{these}{left}}}"), format!("{{{those}{right}}}"));
            let question = asked(members + 2, &[equation]);
            trials.push(trial(
                format!("{members} members a side, {tails}"),
                question,
            ));
        }
    }
    for (name, left, right) in [
        (
            "sets of sets",
            "{{x0,x1},{x2,x3},{x4}}",
            "{{f0,f1},{f2,f3},{f4}}",
        ),
        (
            "sets of sets with tails",
            "{{x0|x1},{x2|x3}|x4}",
            "{{f0,f1|x5},{f2}|x5}",
        ),
        (
            "sets inside functors",
            "{f6({x0,x1|x2}),f6({x3|x2})}",
            "{f6({f0,f1}),f6({f2,f3|x4})}",
        ),
    ] {
        let equation = (left.to_string(), right.to_string());
        trials.push(trial(format!("nested: {name}"), asked(6, &[equation])));
    }
    let chain: Vec<(String, String)> = (0..40)
        .map(|i| (format!("x{i}"), format!("{{f0|x{}}}", i + 1)))
        .collect();
    trials.push(trial(
        "40 bindings on one path".to_string(),
        asked(41, &chain),
    ));
    let mut random = Random::new(1);
    trials.push(Trial {
        name: "2,000 small questions".to_string(),
        questions: (0..2000)
            .map(|i| match i % 2 {
                0 => small_question(&mut random, 8),
                _ => rich_question(&mut random),
            })
            .collect(),
        loan: Loan {
            steps: 1500,
            ..LOAN
        },
    });
    trials
}
