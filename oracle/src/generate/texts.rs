//! Cases of the reader: good texts, and texts damaged by one to three edits.

use crate::cases::hex;
use crate::random::{small_question, Random};
use crate::terms::*;
use crate::text::writers::{head, write_term};

/// A question's text, whatever its counts and its nesting are.
pub fn text_of(question: &Question) -> Vec<u8> {
    let mut text = head(question);
    let mut at = 0;
    let mut key = ["left=", "right="].iter().cycle();
    while at < question.words.len() {
        text.push_str(key.next().unwrap_or(&""));
        at = write_term(&question.words, at, &question.arities, &mut text);
        text.push('\n');
    }
    text.into_bytes()
}

pub fn line(text: &[u8]) -> String {
    format!("text\t{}", hex(text))
}

/// A good text; a few are cut short, some of them to nothing.
pub fn good(random: &mut Random) -> String {
    let budget = random.between(1, 16);
    let mut text = text_of(&small_question(random, budget));
    if random.percent(5) {
        let kept = random.below(text.len()) * random.below(2);
        text.truncate(kept);
    }
    line(&text)
}

pub fn damaged(random: &mut Random) -> String {
    let budget = random.between(1, 12);
    let mut text = text_of(&small_question(random, budget));
    if random.percent(50) {
        misname(random, &mut text);
    } else {
        damage(random, &mut text);
    }
    line(&text)
}

/// Makes one name or one bracket of a term another, so that names are undeclared and counts of arguments wrong.
fn misname(random: &mut Random, text: &mut Vec<u8>) {
    const NAMES: [&str; 14] = [
        "x0",
        "x1",
        "x4",
        "x9",
        "x255",
        "x99999",
        "f0",
        "f1",
        "f3",
        "f4",
        "f9",
        "f255",
        "f3(x0)",
        "f4(x0,{})",
    ];
    const MARKS: [&str; 8] = [",", ")", "(", "}", "|", ",x0", ",{}", ""];
    let start = text.windows(5).position(|key| key == b"left=").unwrap_or(0);
    let names: Vec<usize> = (start + 5..text.len())
        .filter(|&at| matches!(text[at], b'x' | b'f') && text[at - 1] != b'e')
        .collect();
    let marks: Vec<usize> = (start..text.len())
        .filter(|&at| matches!(text[at], b',' | b'(' | b')' | b'}' | b'|'))
        .collect();
    if !names.is_empty() && (marks.is_empty() || random.percent(60)) {
        let at = *random.pick(&names);
        let digits = text[at + 1..]
            .iter()
            .take_while(|b| b.is_ascii_digit())
            .count();
        text.splice(at..=at + digits, random.pick(&NAMES).bytes());
    } else if !marks.is_empty() {
        let at = *random.pick(&marks);
        text.splice(at..=at, random.pick(&MARKS).bytes());
    }
}

/// One to three edits: a byte changed, put in, left out or doubled, or the text cut short.
pub fn damage(random: &mut Random, text: &mut Vec<u8>) {
    const LIKELY: &[u8] = b"0123456789xf{}(),|=\n\r le";
    const PIECES: [&str; 12] = [
        "00", "x", "f", "{}", "{", "()", "(x0)", "|x0", ",", "257", "100000", "\n",
    ];
    for _ in 0..random.between(1, 3) {
        // Most edits fall on the equations; the header is the longer part.
        let from = if random.percent(70) {
            text.len() / 2
        } else {
            0
        };
        let at = random.between(from.min(text.len()), text.len());
        let byte = if random.percent(90) {
            *random.pick(LIKELY)
        } else {
            random.below(256) as u8
        };
        match random.below(8) {
            0..=2 if at < text.len() => text[at] = byte,
            3 => text.insert(at, byte),
            4 if at < text.len() => {
                text.remove(at);
            }
            5 => {
                let piece = *random.pick(&PIECES);
                text.splice(at..at, piece.bytes());
            }
            6 if at < text.len() => text.insert(at, text[at]),
            _ if random.percent(30) => text.truncate(at),
            _ => text.push(byte),
        }
    }
}
