//! Runs, at the specimens of the specification and at the edges.
use mensorique::words::{self, Asked};
use mensorique::{Cause, End, Limits, Question, Refusal, Room, Term};

fn a() -> Term {
    Term::constant(0)
}

fn b() -> Term {
    Term::constant(1)
}

fn x(i: u16) -> Term {
    Term::Unknown(i)
}

fn asked(unknowns: usize, left: Term, right: Term) -> Question {
    let mut question = Question::new(unknowns, [0, 0, 0, 1]);
    question.equate(&left, &right).unwrap();
    question
}

/// The answers as text, `x0=..` for each binding, and the visited number of a done run.
fn listed(question: &Question) -> (Vec<String>, u64) {
    let answers = question.run(Limits::default()).unwrap();
    assert_eq!(answers.end(), End::Done);
    let text = |answer: mensorique::Answer| {
        answer
            .iter()
            .map(|b| format!("x{}={}", b.unknown, b.value))
            .collect::<Vec<_>>()
            .join(" ")
    };
    let lines: Vec<String> = answers.iter().map(text).collect();
    assert_eq!(lines.len(), answers.len());
    (lines, answers.visited())
}

#[test]
fn specimens() {
    let with = |member: Term, tail: Term| Term::set_with([member], tail);
    assert_eq!(
        listed(&asked(1, x(0), with(a(), x(0)))),
        (vec!["x0={f0|x1}".into()], 3)
    );
    assert_eq!(
        listed(&asked(1, with(a(), x(0)), with(b(), x(0)))),
        (vec!["x0={f0,f1|x1}".into()], 9)
    );
    assert_eq!(listed(&asked(1, x(0), Term::set([x(0)]))), (vec![], 2));
    assert_eq!(
        listed(&asked(1, x(0), Term::Functor(3, vec![x(0)]))),
        (vec![], 2)
    );
    assert_eq!(listed(&Question::new(1, [0])), (vec!["".into()], 1));
    let pairs = listed(&asked(2, Term::set([x(0), x(1)]), Term::set([a(), b()]))).0;
    assert_eq!(pairs, ["x0=f0 x1=f1", "x0=f1 x1=f0"]);
}

#[test]
fn a_list_has_its_text() {
    let answers = asked(1, x(0), Term::set_with([a()], x(0)))
        .run(Limits::default())
        .unwrap();
    assert_eq!(answers.words(), [1, 0, 1, 2000, 1001]);
    let text = "edition=1\nend=done\nvisited=3\nanswers=1\nbindings=1\nunknown=0\nvalue={f0|x1}\n";
    assert_eq!(answers.text().unwrap(), text);
}

/// One less of steps, depth, size or words, and the end says which.
#[test]
fn ends_tell_what_was_short() {
    let question = asked(1, x(0), Term::set_with([a()], x(0)));
    let enough = Limits {
        steps: 3,
        depth: 2,
        size: 4,
        answer_words: 5,
    };
    assert_eq!(question.run(enough).unwrap().end(), End::Done);
    for (limits, end, visited) in [
        (Limits { steps: 2, ..enough }, End::Steps, 2),
        (Limits { depth: 1, ..enough }, End::Depth, 2),
        (Limits { size: 3, ..enough }, End::Size, 0),
        (
            Limits {
                answer_words: 4,
                ..enough
            },
            End::Space,
            3,
        ),
    ] {
        let answers = question.run(limits).unwrap();
        assert_eq!(
            (answers.end(), answers.visited(), answers.len()),
            (end, visited, 0)
        );
    }
}

/// What was listed with fewer steps begins what is listed with more, and a room that was used before changes nothing.
#[test]
fn more_lent_alters_nothing() {
    let question = asked(
        3,
        Term::set([a(), x(0), x(1)]),
        Term::set_with([b(), a()], x(2)),
    );
    let mut room = Room::default();
    let all = question.run_in(Limits::default(), &mut room).unwrap();
    assert_eq!(all.end(), End::Done);
    for steps in 0..all.visited() {
        let some = question
            .run_in(
                Limits {
                    steps,
                    ..Limits::default()
                },
                &mut room,
            )
            .unwrap();
        assert_eq!((some.end(), some.visited()), (End::Steps, steps));
        assert!(all.words().starts_with(some.words()));
    }
}

#[test]
fn runs_are_refused() {
    let question = asked(1, x(0), a());
    let short = |cause, place| {
        Err(Refusal {
            cause,
            place,
            culprit: None,
        })
    };
    let (mut answers, mut room) = ([7; 8], [7; 10 * 10 - 1]);
    let bad = Asked {
        words: &[1000, 65535],
        ..question.asked()
    };
    assert_eq!(
        words::run(question.asked(), 9, 2, 2, &mut answers, &mut room),
        short(Cause::Buffer, 100)
    );
    assert_eq!(
        words::run(question.asked(), 9, 2, 2, &mut [], &mut []),
        short(Cause::Buffer, 100)
    );
    assert_eq!(
        words::run(bad, 9, 2, 2, &mut answers, &mut room),
        short(Cause::Words, 1)
    );
    assert_eq!((answers, room), ([7; 8], [7; 99]));
}

/// Each thread has its own room.
#[test]
fn runs_go_on_side_by_side() {
    let question = asked(
        3,
        Term::set([a(), x(0), x(1)]),
        Term::set([b(), Term::constant(2), x(2)]),
    );
    let alone = question.run(Limits::default()).unwrap();
    std::thread::scope(|scope| {
        let runs: Vec<_> = (0..4)
            .map(|_| scope.spawn(|| question.run(Limits::default()).unwrap()))
            .collect();
        for run in runs {
            assert_eq!(run.join().unwrap(), alone);
        }
    });
}

/// The deepest value that a size of 8,192 lets through: it is read, printed and dropped within the stack of a spawned thread.
#[test]
fn deep_values_come_back() {
    let chain = |end: Term, levels| (0..levels).fold(end, |term, _| Term::Functor(3, vec![term]));
    let mut question = Question::new(2, [0, 0, 0, 1]);
    question.equate(&x(1), &chain(x(0), 2000)).unwrap();
    question.equate(&x(0), &chain(a(), 2000)).unwrap();
    let answers = question
        .run(Limits {
            size: 8192,
            answer_words: 8192,
            ..Limits::default()
        })
        .unwrap();
    assert_eq!((answers.end(), answers.len()), (End::Done, 1));
    let answer = answers.iter().next().unwrap();
    assert_eq!(answer[0].value.to_string().len(), 2000 * 4 + 2);
}
