//! The loans that `docs/GUIDE.md` tells: just enough for its questions, and one less of any is not.
use mensorique::{End, Limits, Question, Term};
use std::fs;
use std::path::Path;

fn course(k: u16) -> Term {
    Term::constant(k)
}

fn lab(of: Term) -> Term {
    Term::Functor(3, vec![of])
}

fn place(i: u16) -> Term {
    Term::Unknown(i)
}

fn just_enough(question: &Question, steps: u64, depth: usize, size: usize, answer_words: usize) {
    let lent = Limits {
        steps,
        depth,
        size,
        answer_words,
    };
    let less = |end: End| match end {
        End::Steps => Limits {
            steps: steps - 1,
            ..lent
        },
        End::Depth => Limits {
            depth: depth - 1,
            ..lent
        },
        End::Size => Limits {
            size: size - 1,
            ..lent
        },
        _ => Limits {
            answer_words: answer_words - 1,
            ..lent
        },
    };
    let all = question.run(lent).unwrap();
    assert_eq!((all.end(), all.visited()), (End::Done, steps));
    assert_eq!(all.words().len(), answer_words);
    for end in [End::Steps, End::Depth, End::Size, End::Space] {
        let some = question.run(less(end)).unwrap();
        assert_eq!(some.end(), end);
        assert!(all.words().starts_with(some.words()));
    }
}

#[test]
fn the_planners() {
    let mut question = Question::new(3, [0, 0, 0, 1]);
    let left = Term::set([course(0), place(0), lab(place(1))]);
    let right = Term::set_with([course(1), lab(course(2))], place(2));
    question.equate(&left, &right).unwrap();
    just_enough(&question, 611, 7, 19, 46);
}

#[test]
fn places_and_courses() {
    let same = |n: u16| {
        let mut question = Question::new(n.into(), vec![0; n.into()]);
        let (places, courses) = ((0..n).map(place), (0..n).map(course));
        question
            .equate(&Term::set(places), &Term::set(courses))
            .unwrap();
        question
    };
    just_enough(&same(2), 75, 6, 10, 10);
    just_enough(&same(3), 3_949, 8, 14, 42);
    just_enough(&same(4), 413_081, 10, 18, 216);
}

#[test]
fn places_and_a_rest() {
    let mut question = Question::new(4, [0, 0, 0]);
    let left = Term::set_with((0..3).map(place), place(3));
    question
        .equate(&left, &Term::set((0..3).map(course)))
        .unwrap();
    just_enough(&question, 9_154, 7, 14, 2_106);
}

#[test]
fn three_equations() {
    let mut question = Question::new(6, [0; 6]);
    for i in [0, 2, 4] {
        let places = Term::set([place(i), place(i + 1)]);
        let courses = Term::set([course(i), course(i + 1)]);
        question.equate(&places, &courses).unwrap();
    }
    just_enough(&question, 519, 18, 30, 104);
}

/// The rows of the guide's table of costs, but for those that take long.
#[test]
fn the_guides_costs() {
    let guide = Path::new(env!("CARGO_MANIFEST_DIR")).join("../docs/GUIDE.md");
    let guide = fs::read_to_string(guide).unwrap();
    let rows = guide
        .lines()
        .skip_while(|line| !line.starts_with("| members a side"));
    let mut held = Vec::new();
    for row in rows.skip(2).take_while(|line| line.starts_with('|')) {
        let cells: Vec<&str> = row.split('|').map(str::trim).collect();
        let number = |cell: usize| cells[cell].replace(',', "").parse::<u64>().unwrap();
        let (n, nodes, answers, groups) = (number(1) as u16, number(4), number(6), number(7));
        held.push((n, cells[2]));
        if nodes > 20_000 {
            continue;
        }
        let (left, right) = match cells[2] {
            "none" => (Term::Empty, Term::Empty),
            "one" => (place(n), Term::Empty),
            "different" => (place(n), place(n + 1)),
            "the same" => (place(n), place(n)),
            other => panic!("tails {other:?}"),
        };
        let mut question = Question::new(usize::from(n) + 2, vec![0; n.into()]);
        let group = Term::set_with((0..n).map(place), left);
        let courses = Term::set_with((0..n).map(course), right);
        question.equate(&group, &courses).unwrap();
        let limits = Limits {
            answer_words: 100_000,
            ..Limits::MOST
        };
        let run = question.run(limits).unwrap();
        assert_eq!(
            (run.end().to_string().as_str(), run.visited()),
            (cells[3], nodes)
        );
        assert_eq!(run.len() as u64, answers);
        assert_eq!(run.groups(&[group]).unwrap().len() as u64, groups);
    }
    let all =
        (1..=6).flat_map(|n| ["none", "one", "different", "the same"].map(|tails| (n, tails)));
    assert!(held.into_iter().eq(all));
}
