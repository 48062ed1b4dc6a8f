//! No number makes the crate panic, and what is too large is named.
use mensorique::words::{self, Asked};
use mensorique::{Cause, Culprit, Limits, Question, Refusal, Room, Term, What};

const NUMBERS: [usize; 12] = [
    0,
    1,
    8,
    64,
    1024,
    1025,
    8192,
    8193,
    1 << 31,
    (1 << 63) - 1,
    usize::MAX - 1,
    usize::MAX,
];

fn question() -> Question {
    let mut question = Question::new(1, [0]);
    let more = Term::set_with([Term::constant(0)], Term::Unknown(0));
    question.equate(&Term::Unknown(0), &more).unwrap();
    question
}

/// What was too large, and what is said of it.
fn culprit<T: std::fmt::Debug>(result: Result<T, Refusal>) -> (What, u64, String) {
    let refusal = result.expect_err("a refusal");
    let Culprit { what, given } = refusal.culprit.expect("a culprit");
    (what, given, refusal.to_string())
}

/// A run is granted, or refused for a limit above its bound, or for words that no machine has.
#[test]
fn a_run_takes_any_limits() {
    let question = question();
    let mut room = Room::default();
    for steps in NUMBERS {
        for depth in NUMBERS {
            for size in NUMBERS {
                for answer_words in NUMBERS {
                    let limits = Limits {
                        steps: steps as u64,
                        depth,
                        size,
                        answer_words,
                    };
                    let above = steps > 1_000_000_000 || depth > 1024 || size > 8192;
                    match question.run_in(limits, &mut room) {
                        Ok(answers) => assert!(!above && answers.words().len() <= answer_words),
                        Err(refusal) if above => assert_eq!(refusal.cause, Cause::Limit),
                        Err(refusal) => {
                            assert_eq!(refusal.cause, Cause::Buffer);
                            let what = refusal.culprit.unwrap().what;
                            assert_eq!(what, What::AnswerWords);
                        }
                    }
                }
            }
        }
    }
}

/// More words than a machine can have: refused, and nothing else happens.
#[test]
fn words_that_cannot_be_had_are_refused() {
    let limits = Limits {
        answer_words: usize::MAX,
        ..Limits::MOST
    };
    let words = 1_000_000_000 * 8193;
    let given = question().run(limits);
    match given {
        // 16 TB may be had where the system gives memory that it hasn't got.
        Ok(answers) => assert_eq!(answers.len(), 1),
        refused => assert_eq!(
            culprit(refused),
            (
                What::AnswerWords,
                words,
                format!("words for answers: this machine has no memory for {words}")
            )
        ),
    }
}

#[test]
fn run_limits_are_named() {
    let run = |steps, depth, size| {
        question().run(Limits {
            steps,
            depth,
            size,
            ..Limits::default()
        })
    };
    let said = "steps: 1000000001 is above the limit 1000000000".to_string();
    assert_eq!(
        culprit(run(1_000_000_001, 2000, 9000)),
        (What::Steps, 1_000_000_001, said)
    );
    let said = "depth: 1025 is above the limit 1024".to_string();
    assert_eq!(culprit(run(9, 1025, 9000)), (What::Depth, 1025, said));
    let said = "size: 8193 is above the limit 8192".to_string();
    assert_eq!(culprit(run(9, 9, 8193)), (What::Size, 8193, said));
}

#[test]
fn counts_of_a_question_are_named() {
    let named = |question: &Question| {
        let (what, given, said) = culprit(question.run(Limits::default()));
        assert_eq!(culprit(question.text()), (what, given, said.clone()));
        assert_eq!(culprit(question.solves(&[])), (what, given, said.clone()));
        (what, given, said)
    };
    let said = "unknowns: 257 is above the limit 256".to_string();
    assert_eq!(
        named(&Question::new(257, vec![9; 257])),
        (What::Unknowns, 257, said)
    );
    let said = "functors: 257 is above the limit 256".to_string();
    assert_eq!(
        named(&Question::new(256, vec![9; 257])),
        (What::Functors, 257, said)
    );
    let said = "arity: 9 is above the limit 8".to_string();
    assert_eq!(named(&Question::new(0, [8, 9])), (What::Arity, 9, said));
    let mut question = Question::new(0, []);
    for _ in 0..65 {
        question.equate(&Term::Empty, &Term::Empty).unwrap();
    }
    let said = "equations: 65 is above the limit 64".to_string();
    assert_eq!(named(&question), (What::Equations, 65, said));
    let mut question = Question::new(0, []);
    let large = Term::set(vec![Term::Empty; 2048]);
    question.equate(&large, &Term::Empty).unwrap();
    let said = "words: 4098 is above the limit 4096".to_string();
    assert_eq!(named(&question), (What::Words, 4098, said));
}

#[test]
fn ground_terms_are_named() {
    let large = Term::set(vec![Term::Empty; 2048]);
    let (what, given, _) = culprit(mensorique::equal(&[], &large, &Term::Empty));
    assert_eq!((what, given), (What::Words, 4098));
    let (what, given, _) = culprit(words::equal(&[9], &[0, 0]));
    assert_eq!((what, given), (What::Arity, 9));
    let (what, given, _) = culprit(question().solves(&[large]));
    assert_eq!((what, given), (What::Words, 4097));
}

#[test]
fn lists_are_named() {
    let list = |end, visited, arities: &[u8]| {
        culprit(words::write_answers(arities, end, visited, 0, &[], &mut []))
    };
    let said = "end: there is no 19".to_string();
    assert_eq!(list(19, 0, &[]), (What::End, 19, said));
    let said = format!("end: there is no {}", u64::MAX);
    assert_eq!(list(u64::MAX, 0, &[]), (What::End, u64::MAX, said));
    let said = "visited: 1000000001 is above the limit 1000000000".to_string();
    assert_eq!(
        list(0, 1_000_000_001, &[]),
        (What::Visited, 1_000_000_001, said)
    );
    assert_eq!(list(0, 0, &[9]).0, What::Arity);
    assert_eq!(list(0, 0, &[0; 257]).0, What::Functors);
}

#[test]
fn numbers_of_a_text_are_named() {
    let read = |lines: &str| {
        let (what, given, _) = culprit(Question::read(lines));
        (what, given)
    };
    assert_eq!(read("edition=2\n"), (What::Edition, 2));
    let head = "edition=1\nunknowns=";
    assert_eq!(read(&format!("{head}257\n")), (What::Unknowns, 257));
    let many = "9".repeat(30);
    assert_eq!(read(&format!("{head}{many}\n")), (What::Unknowns, u64::MAX));
    let head = format!("{head}9\narities=");
    assert_eq!(read(&format!("{head}0,9\n")), (What::Arity, 9));
    let zeros = "0,".repeat(256);
    assert_eq!(read(&format!("{head}{zeros}9\n")), (What::Functors, 257));
    let head = format!("{head}0,1\nequations=");
    assert_eq!(read(&format!("{head}65\n")), (What::Equations, 65));
    let head = format!("{head}1\nleft=");
    assert_eq!(read(&format!("{head}x123456\n")), (What::Unknowns, 123_456));
    assert_eq!(
        read(&format!("{head}f1(f123456)\n")),
        (What::Functors, 123_456)
    );
    let members = "f0,".repeat(2048);
    assert_eq!(
        read(&format!("{head}{{{members}f0}}\n")),
        (What::Words, 4097)
    );
}

/// The words' functions take any numbers too.
#[test]
fn words_take_any_numbers() {
    for unknowns in NUMBERS {
        for equations in NUMBERS {
            let asked = Asked {
                unknowns,
                arities: &[0],
                equations,
                words: &[1000, 1, 2000, 1000],
            };
            let fits = (1..=256).contains(&unknowns) && equations == 1;
            let run = words::run(asked, 9, 9, 9, &mut [0; 9], &mut [0; 17 * 17]);
            assert_eq!(run.is_ok(), fits);
            assert_eq!(words::solves(asked, &[0]).is_ok(), fits && unknowns == 1);
            for answers in NUMBERS {
                let list = words::write_answers(&[0], 0, 0, answers, &[], &mut [0; 99]);
                assert_eq!(list.is_ok(), answers == 0);
            }
        }
    }
}
