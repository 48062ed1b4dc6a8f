//! What the crate asks of memory: kept answers keep their words alone, room and words for answers are not cleared, lent words are used as they are, and a text that
//! no memory holds is refused.
use mensorique::{Cause, End, Limits, Question, Refusal, Room, Term, What};
use std::alloc::{GlobalAlloc, Layout, System};
use std::cell::Cell;

/// The system's memory, counted for each thread, which may be told that there is little at one go.
struct Counted;

thread_local! {
    static HELD: Cell<isize> = const { Cell::new(0) };
    static CALLS: Cell<usize> = const { Cell::new(0) };
    static MOST: Cell<usize> = const { Cell::new(usize::MAX) };
}

fn count(bytes: isize) {
    let _ = HELD.try_with(|held| held.set(held.get() + bytes));
    let _ = CALLS.try_with(|calls| calls.set(calls.get() + usize::from(bytes > 0)));
}

unsafe impl GlobalAlloc for Counted {
    unsafe fn alloc(&self, layout: Layout) -> *mut u8 {
        if MOST
            .try_with(|most| layout.size() > most.get())
            .unwrap_or(false)
        {
            return std::ptr::null_mut();
        }
        count(layout.size() as isize);
        unsafe { System.alloc(layout) }
    }

    unsafe fn dealloc(&self, at: *mut u8, layout: Layout) {
        count(-(layout.size() as isize));
        unsafe { System.dealloc(at, layout) }
    }
}

#[global_allocator]
static COUNTED: Counted = Counted;

/// What is held after `make` that was not held before, in bytes, and how often memory was asked for.
fn cost<T>(make: impl FnOnce() -> T) -> (T, isize, usize) {
    let (held, calls) = (HELD.get(), CALLS.get());
    let made = make();
    (made, HELD.get() - held, CALLS.get() - calls)
}

/// x0 = {f0|x0}: an answer of five words.
fn question() -> Question {
    let mut question = Question::new(1, [0]);
    let more = Term::set_with([Term::constant(0)], Term::Unknown(0));
    question.equate(&Term::Unknown(0), &more).unwrap();
    question
}

#[test]
fn kept_answers_keep_their_words() {
    let question = question();
    let (kept, bytes, _) = cost(|| {
        let runs = (0..10_000).map(|_| question.run(Limits::default()).unwrap());
        runs.collect::<Vec<_>>()
    });
    assert!(kept.iter().all(|answers| answers.words().len() == 5));
    assert!(bytes < 1_500_000, "{bytes} bytes");
}

/// The pages of memory that this process has touched, in bytes; no number where the system does not tell.
fn resident() -> Option<isize> {
    let told = std::fs::read_to_string("/proc/self/status").ok()?;
    let line = told.lines().find(|line| line.starts_with("RssAnon:"))?;
    let kilobytes: isize = line.split_whitespace().nth(1)?.parse().ok()?;
    Some(1024 * kilobytes)
}

/// Room of 16,924,800 bytes for the most of all limits, and 200,000,000 bytes for answers: only what the run uses is touched.
#[test]
fn what_is_lent_is_not_touched() {
    let question = question();
    let limits = Limits {
        answer_words: 100_000_000,
        ..Limits::MOST
    };
    let mut room = Room::default();
    question.run(Limits::default()).unwrap();
    let before = resident();
    let answers = question.run_in(limits, &mut room).unwrap();
    let after = resident();
    assert_eq!((answers.end(), answers.words().len()), (End::Done, 5));
    if let (Some(before), Some(after)) = (before, after) {
        assert!(after - before < 8_000_000, "{} bytes", after - before);
    }
}

#[test]
fn lent_words_are_used_as_they_are() {
    let question = question();
    let (mut room, mut words) = (Room::default(), vec![7; 9]);
    let limits = Limits::default();
    question.run_lent(limits, &mut room, &mut words).unwrap();
    let (list, bytes, calls) = cost(|| question.run_lent(limits, &mut room, &mut words).unwrap());
    assert_eq!((bytes, calls), (0, 0));
    assert_eq!((list.end(), list.len()), (End::Done, 1));
    assert_eq!(list.words(), [1, 0, 1, 2000, 1001]);
    let kept = list.kept();
    assert_eq!(kept, question.run(limits).unwrap());
    assert_eq!(kept.list(), list);
    assert_eq!(words[5..], [7; 4]);
}

/// The lesser of the lent words and the limit counts.
#[test]
fn lent_words_are_a_limit() {
    let question = question();
    let mut room = Room::default();
    let mut end = |answer_words, lent| {
        let limits = Limits {
            answer_words,
            ..Limits::default()
        };
        let mut words = vec![7; lent];
        let list = question.run_lent(limits, &mut room, &mut words)?;
        Ok::<End, Refusal>(list.end())
    };
    assert_eq!(end(5, 5), Ok(End::Done));
    assert_eq!(end(usize::MAX, 5), Ok(End::Done));
    assert_eq!(end(usize::MAX, 4), Ok(End::Space));
    assert_eq!(end(4, 5), Ok(End::Space));
    assert_eq!(end(0, 0), Ok(End::Space));
}

/// A list never needs more words than its steps and its size allow, so that a larger number of words asks for no more memory.
#[test]
fn no_more_is_asked_for_than_can_be_listed() {
    let question = question();
    let lent = |answer_words, steps, size| Limits {
        answer_words,
        steps,
        size,
        ..Limits::default()
    };
    // Three nodes of four symbols: at most 15 words.
    let answers = question.run(lent(usize::MAX, 3, 4)).unwrap();
    assert_eq!((answers.end(), answers.words().len()), (End::Done, 5));
    let none = question.run(lent(usize::MAX, 0, 4)).unwrap();
    assert_eq!((none.end(), none.words().len()), (End::Steps, 0));
}

/// Where memory for a text cannot be had, the refusal tells how long it is; with so much it is written.
#[test]
fn a_text_that_no_memory_holds_is_refused() {
    let question = question();
    let answers = question.run(Limits::default()).unwrap();
    let (asked, listed) = (question.text().unwrap(), answers.text().unwrap());
    type Write<'a> = &'a dyn Fn() -> Result<String, Refusal>;
    let within = |most, write: Write| {
        MOST.set(most);
        let given = write();
        MOST.set(usize::MAX);
        given
    };
    let texts: [(_, Write); 2] = [(asked, &|| question.text()), (listed, &|| answers.text())];
    for (text, write) in texts {
        let length = text.len();
        assert_eq!(within(length, write).unwrap(), text);
        let refusal = within(length - 1, write).unwrap_err();
        assert_eq!((refusal.cause, refusal.place), (Cause::Buffer, length));
        assert_eq!(refusal.culprit.unwrap().what, What::Text);
        let said = format!("bytes of text: this machine has no memory for {length}");
        assert_eq!(refusal.to_string(), said);
    }
}
