//! Reading, writing and the two tests, at the specimens of the specification and at the edges.
use mensorique::words::{self, Asked};
use mensorique::{equal, Cause, Question, Refusal, Term};

const TEXT: &str = "edition=1\nunknowns=1\narities=0\nequations=1\nleft=x0\nright={f0|x0}\n";

fn a() -> Term {
    Term::constant(0)
}

fn b() -> Term {
    Term::constant(1)
}

fn c() -> Term {
    Term::constant(2)
}

fn refused<T: std::fmt::Debug>(result: Result<T, Refusal>) -> (u32, usize) {
    let refusal = result.expect_err("a refusal");
    (refusal.cause as u32, refusal.place)
}

#[test]
fn built_and_read_questions_agree() {
    let mut built = Question::new(1, [0]);
    built
        .equate(&Term::Unknown(0), &Term::set_with([a()], Term::Unknown(0)))
        .unwrap();
    assert_eq!(built, Question::read(TEXT).unwrap());
    assert_eq!(built.text().unwrap(), TEXT);
    assert_eq!(built.asked().words, [1000, 1, 2000, 1000]);
}

#[test]
fn sets_are_equal_by_the_laws() {
    let arities = [0, 0, 0, 1];
    let is = |left: Term, right: Term| equal(&arities, &left, &right).unwrap();
    assert!(is(Term::set([a()]), Term::set([a(), a()])));
    assert!(is(Term::set([a(), b()]), Term::set([b(), a()])));
    assert!(!is(Term::set([Term::set([a()]), a()]), Term::set([a()])));
    assert!(!is(
        Term::set([a(), Term::set([b()]), c()]),
        Term::set([Term::set([a(), b()]), c()])
    ));
    assert!(!is(Term::set_with([a()], b()), Term::set([a()])));
}

#[test]
fn values_solve_or_do_not() {
    let question = Question::read(TEXT).unwrap();
    assert!(question.solves(&[Term::set([a()])]).unwrap());
    assert!(!question.solves(&[Term::Empty]).unwrap());
}

#[test]
fn a_set_is_written_one_way() {
    assert_eq!(Term::set([]), Term::Empty);
    assert_eq!(Term::set_with([], b()), b());
    assert_eq!(
        Term::set_with([a()], Term::set_with([b()], c())),
        Term::set_with([a(), b()], c())
    );
    assert_eq!(
        Term::set_with([a(), Term::Functor(3, vec![Term::Empty])], Term::Unknown(7)).to_string(),
        "{f0,f3({})|x7}"
    );
}

/// Without the builder's own test f0(x) = f0(x,x,x) would give the words of another question.
#[test]
fn the_builder_refuses_what_words_could_not_show() {
    let mut question = Question::new(1, [2]);
    let of = |n| Term::Functor(0, vec![Term::Unknown(0); n]);
    assert_eq!(refused(question.equate(&of(1), &of(3))), (5, 0));
    assert_eq!(refused(question.equate(&of(2), &Term::Unknown(1))), (4, 3));
    assert_eq!(
        refused(question.equate(&Term::Unknown(1000), &Term::Empty)),
        (4, 0)
    );
    assert_eq!(
        refused(question.equate(&Term::Empty, &Term::constant(65535))),
        (4, 1)
    );
    assert_eq!(question, Question::new(1, [2]));
}

#[test]
fn bad_texts_are_refused() {
    assert_eq!(refused(Question::read("")), (1, 0));
    assert_eq!(refused(Question::read("edition=2\n")), (3, 8));
    assert_eq!(refused(Question::read("edition=1\nunknowns=\n")), (2, 19));
    let lines = "edition=1\nunknowns=0\narities=\nequations=1\nleft=";
    assert_eq!(
        refused(Question::read(lines.to_string() + &"{".repeat(202))),
        (6, lines.len() + 200)
    );
}

#[test]
fn counts_above_their_limits_are_refused() {
    assert_eq!(refused(Question::new(257, []).text()), (3, 0));
    assert_eq!(refused(Question::new(0, vec![0; 257]).text()), (3, 0));
    assert_eq!(refused(Question::new(0, [9]).text()), (3, 0));
    assert_eq!(refused(Question::new(usize::MAX, []).solves(&[])), (3, 0));
    let mut question = Question::new(0, []);
    for _ in 0..65 {
        question.equate(&Term::Empty, &Term::Empty).unwrap();
    }
    assert_eq!(refused(question.text()), (3, 0));
}

#[test]
fn ground_terms_have_no_unknowns() {
    assert_eq!(refused(equal(&[], &Term::Unknown(0), &Term::Empty)), (4, 0));
    assert_eq!(refused(words::equal(&[], &[1000, 0])), (8, 0));
    assert_eq!(refused(words::equal(&[], &[])), (8, 0));
    assert_eq!(refused(words::equal(&[], &[0; 4097])), (3, 4096));
}

/// A refusal leaves what was lent as it was.
#[test]
fn short_buffers_are_untouched() {
    let (mut arities, mut read) = ([7; 1], [7; 3]);
    assert_eq!(
        refused(words::read_question(
            TEXT.as_bytes(),
            &mut arities,
            &mut read
        )),
        (7, 4)
    );
    assert_eq!((arities, read), ([7; 1], [7; 3]));
    assert_eq!(
        refused(words::read_question(TEXT.as_bytes(), &mut [], &mut read)),
        (7, 1)
    );
    let mut text = [7; 64];
    let asked = Asked {
        unknowns: 1,
        arities: &[0],
        equations: 1,
        words: &[1000, 1, 2000, 1000],
    };
    assert_eq!(refused(words::write_question(asked, &mut text)), (7, 65));
    assert_eq!(
        refused(words::write_answers(
            &[0],
            0,
            3,
            1,
            &[1, 0, 1, 2000, 1001],
            &mut text
        )),
        (7, 74)
    );
    assert_eq!(text, [7; 64]);
    let mut longer = [7; 66];
    assert_eq!(words::write_question(asked, &mut longer), Ok(65));
    assert_eq!((&longer[..65], longer[65]), (TEXT.as_bytes(), 7));
}

#[test]
fn lists_are_written() {
    let mut text = [0; 100];
    let length = words::write_answers(&[0], 0, 3, 1, &[1, 0, 1, 2000, 1001], &mut text).unwrap();
    assert_eq!(
        &text[..length],
        b"edition=1\nend=done\nvisited=3\nanswers=1\nbindings=1\nunknown=0\nvalue={f0|x1}\n"
    );
    assert_eq!(
        refused(words::write_answers(&[0], 19, 3, 0, &[], &mut text)),
        (3, 0)
    );
    assert_eq!(
        refused(words::write_answers(
            &[0],
            0,
            1_000_000_001,
            0,
            &[],
            &mut text
        )),
        (3, 0)
    );
    assert_eq!(
        refused(words::write_answers(&[0], 0, 3, usize::MAX, &[], &mut text)),
        (8, 0)
    );
}

#[test]
fn room_is_told() {
    assert_eq!(words::room_words(96, 256), 104 * 264);
    assert_eq!(words::room_words(1025, 256), 0);
    assert_eq!(words::room_words(96, usize::MAX), 0);
}

#[test]
fn refusals_say_what_and_where() {
    let refusal = Refusal {
        cause: Cause::Buffer,
        place: 65,
        culprit: None,
    };
    assert_eq!(refusal.to_string(), "a buffer is too small: 65 are needed");
    let _: &dyn std::error::Error = &refusal;
}

/// The deepest terms that are taken come back, within the stack of a spawned thread: both sides a functor chain of 2,047 levels, then values of
/// that depth below a question's terms of the same depth.
#[test]
fn deep_terms_come_back() {
    let chain = |end: Term, levels| (0..levels).fold(end, |term, _| Term::Functor(1, vec![term]));
    assert!(equal(&[0, 1], &chain(a(), 2047), &chain(a(), 2047)).unwrap());
    let mut question = Question::new(2, [0, 1]);
    question
        .equate(
            &chain(Term::Unknown(0), 2047),
            &chain(Term::Unknown(1), 2047),
        )
        .unwrap();
    assert!(question
        .solves(&[chain(a(), 2047), chain(a(), 2047)])
        .unwrap());
}
