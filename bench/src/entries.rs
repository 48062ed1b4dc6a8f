//! The component as the protocol of cases wants it. Each call also looks at the lent buffers: what was not to be written is as it was, and a buffer
//! one short is refused with what is needed.

use crate::calls;
use oracle::cases::Entries;
use oracle::search::{room_needed, Loan, Outcome};
use oracle::terms::{Question, Refusal, MOST_FUNCTORS, MOST_SYMBOLS};
use oracle::text::writers::AnswerList;

/// Lent buffers are filled with these before a call.
const BYTE: u8 = 0xa5;
const WORD: u16 = 0xa5a5;

/// A case may lend more answer words than a machine has; no run of a case fills so many.
const MOST_SPACE: usize = 1 << 22;

/// A `runw` may lend more room than a machine has; none that is granted needs so much.
const MOST_ROOM: usize = 1 << 20;

/// Keeps the room from run to run, so that each finds what another left there.
#[derive(Default)]
pub struct Component {
    room: Vec<u16>,
}

fn left_alone<T: PartialEq>(buffer: &[T], fill: T) {
    assert!(
        buffer.iter().all(|held| *held == fill),
        "a word is written that was to be left alone"
    );
}

fn refused<T>(given: Result<T, Refusal>, number: u8, place: usize) {
    assert_eq!(
        given.err(),
        Some(Refusal { number, place }),
        "the refusal that is owed"
    );
}

impl Component {
    /// A word too many is refused before the room is looked at, and then a room one short; nothing is written.
    fn refused_runs(&mut self, question: &Question, loan: &Loan) {
        let mut longer = question.clone();
        longer.words.push(0);
        let number = if longer.words.len() > MOST_SYMBOLS {
            3
        } else {
            8
        };
        refused(listed(&longer, loan, &mut []), number, question.words.len());
        let needed = room_needed(loan);
        let room = &mut self.room[..needed - 1];
        // The larger rooms are not looked at: it would take longer than the runs.
        let before = room[..room.len().min(MOST_SYMBOLS)].to_vec();
        refused(listed(question, loan, room), 7, needed);
        assert!(
            room.starts_with(&before),
            "a refused run writes to the room"
        );
    }
}

/// A run in this room, and the words that it listed.
fn listed(question: &Question, loan: &Loan, room: &mut [u16]) -> Result<Outcome, Refusal> {
    let mut words = vec![WORD; loan.space.min(MOST_SPACE)];
    let given = calls::run(question, loan, &mut words, room);
    let used = given.as_ref().map_or(0, |ran| ran.used);
    left_alone(&words[used..], WORD);
    words.truncate(used);
    given.map(|ran| Outcome {
        end: ran.end,
        visited: ran.visited,
        answers: ran.answers,
        words,
    })
}

/// Reads into buffers of these lengths, or of twice what any question needs.
fn read(text: &[u8], arities: usize, words: usize) -> Result<Question, Refusal> {
    let mut arities = vec![BYTE; arities.min(2 * MOST_FUNCTORS)];
    let mut words = vec![WORD; words.min(2 * MOST_SYMBOLS)];
    let given = calls::read_question(text, &mut arities, &mut words);
    let (functors, used) = given
        .as_ref()
        .map_or((0, 0), |read| (read.functors, read.used));
    left_alone(&arities[functors..], BYTE);
    left_alone(&words[used..], WORD);
    arities.truncate(functors);
    words.truncate(used);
    given.map(|read| Question {
        unknowns: read.unknowns as u64,
        arities,
        equations: read.equations as u64,
        words,
    })
}

/// A text that is written to a buffer of `capacity` bytes, or of as many as the text of so many words never has.
fn written(
    words: usize,
    capacity: usize,
    write: impl FnOnce(&mut [u8]) -> Result<usize, Refusal>,
) -> Result<Vec<u8>, Refusal> {
    let mut text = vec![BYTE; capacity.min(1024 + 18 * words)];
    let given = write(&mut text);
    let length = given.unwrap_or(0);
    left_alone(&text[length..], BYTE);
    text.truncate(length);
    given.map(|_| text)
}

impl Entries for Component {
    fn read_question(&mut self, text: &[u8]) -> Result<Question, Refusal> {
        let question = read(text, MOST_FUNCTORS, MOST_SYMBOLS)?;
        let (functors, used) = (question.arities.len(), question.words.len());
        if let Some(short) = functors.checked_sub(1) {
            refused(read(text, short, 0), 7, functors);
        }
        if let Some(short) = used.checked_sub(1) {
            refused(read(text, functors, short), 7, used);
        }
        Ok(question)
    }

    fn read_into(
        &mut self,
        text: &[u8],
        arities: usize,
        words: usize,
    ) -> Result<Question, Refusal> {
        read(text, arities, words)
    }

    /// The limits are tested first: a question without equations and no room show it.
    fn check_limits(&mut self, loan: &Loan) -> Result<(), Refusal> {
        let question = Question {
            unknowns: 0,
            arities: Vec::new(),
            equations: 0,
            words: Vec::new(),
        };
        match calls::run(&question, loan, &mut [], &mut []) {
            Err(refusal) if refusal.number == 3 => Err(refusal),
            given => {
                refused(given, 7, room_needed(loan));
                Ok(())
            }
        }
    }

    fn run(&mut self, question: &Question, loan: &Loan) -> Result<Outcome, Refusal> {
        let needed = calls::room_words(loan);
        assert_eq!(needed, room_needed(loan));
        if self.room.len() < needed {
            self.room.resize(needed, WORD);
        }
        self.refused_runs(question, loan);
        listed(question, loan, &mut self.room[..needed])
    }

    fn run_in(
        &mut self,
        question: &Question,
        loan: &Loan,
        room: usize,
    ) -> Result<Outcome, Refusal> {
        let lent = room.min(MOST_ROOM);
        if self.room.len() < lent {
            self.room.resize(lent, WORD);
        }
        let before = self.room[..lent].to_vec();
        let given = listed(question, loan, &mut self.room[..lent]);
        if given.is_err() {
            assert!(
                self.room[..lent] == before,
                "a refused run writes to the room"
            );
        }
        given
    }

    fn write_question(&mut self, question: &Question, capacity: usize) -> Result<Vec<u8>, Refusal> {
        let write = |text: &mut [u8]| calls::write_question(question, text);
        written(question.words.len(), capacity, write)
    }

    fn write_answers(&mut self, list: &AnswerList, capacity: usize) -> Result<Vec<u8>, Refusal> {
        let write = |text: &mut [u8]| calls::write_answers(list, text);
        written(list.words.len(), capacity, write)
    }

    fn equal(&mut self, arities: &[u8], row: &[u16]) -> Result<bool, Refusal> {
        calls::equal(arities, row)
    }

    fn solves(&mut self, question: &Question, row: &[u16]) -> Result<bool, Refusal> {
        calls::solves(question, row)
    }
}
