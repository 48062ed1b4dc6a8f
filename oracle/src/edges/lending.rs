//! The edges of what is lent: buffers that a question is read into, and the room of a run, tested after everything else.

use super::{add, words, Edge};
use crate::cases::hex;

const MOST: &str = "18446744073709551615";

pub fn edges(edges: &mut Vec<Edge>) {
    buffers(edges);
    faults_before_buffers(edges);
    room(edges);
    limits_before_all(edges);
    question_before_room(edges);
}

fn read(edges: &mut Vec<Edge>, why: &'static str, text: &str, lent: &str, result: &str) {
    let (text, lent) = (hex(text.as_bytes()), lent.replace(' ', "\t"));
    add(edges, why, format!("read\t{text}\t{lent}"), result);
}

fn buffers(edges: &mut Vec<Edge>) {
    let text = "edition=1\nunknowns=1\narities=0,1\nequations=1\nleft=x0\nright={f0|x0}\n";
    let good = "ok 1|0,1|1|1000,1,2000,1000";
    let beyond = format!("{MOST} {MOST}");
    for (why, lent, result) in [
        ("both suffice", "2 4", good),
        ("more than is needed", "3 5", good),
        ("more than there can be", &beyond, good),
        ("one arity short", "1 4", "refused 7 2"),
        ("no arities", "0 4", "refused 7 2"),
        ("one word short", "2 3", "refused 7 4"),
        ("no words", "2 0", "refused 7 4"),
        ("both are short: the arities' is told", "1 3", "refused 7 2"),
        ("both are empty: the arities' is told", "0 0", "refused 7 2"),
    ] {
        read(edges, why, text, lent, result);
    }
    let nothing = "edition=1\nunknowns=0\narities=\nequations=0\n";
    read(edges, "nothing is needed", nothing, "0 0", "ok 0||0|");
    let functors = "edition=1\nunknowns=0\narities=0,8\nequations=0\n";
    let why = "arities alone are needed";
    read(edges, why, functors, "2 0", "ok 0|0,8|0|");
    read(edges, why, functors, "1 9", "refused 7 2");
    let empty = "edition=1\nunknowns=0\narities=\nequations=1\nleft={}\nright={}\n";
    let why = "words alone are needed";
    read(edges, why, empty, "0 2", "ok 0||1|0,0");
    read(edges, why, empty, "9 1", "refused 7 2");
    // As many as there can be: {} = {{},{}, ..} has 1 + 2 * 2047 + 1 symbols.
    let arities = vec!["0"; 256].join(",");
    let members = vec!["{}"; 2047].join(",");
    let equation = format!("left={{}}\nright={{{members}}}\n");
    let full = format!("edition=1\nunknowns=256\narities={arities}\nequations=1\n{equation}");
    let why = "256 arities and 4,096 words";
    read(edges, why, &full, "255 4096", "refused 7 256");
    read(edges, why, &full, "256 4095", "refused 7 4096");
}

/// 7 comes last: nothing is lent, and the text's own fault is told.
fn faults_before_buffers(edges: &mut Vec<Edge>) {
    let header = "edition=1\nunknowns=1\narities=0,1\nequations=1\n";
    let open = "{".repeat(200);
    for (number, fault) in [
        (1, "left=^"),
        (1, "left=x0\nright={f0|x0}^"),
        (2, "left=x^\n"),
        (3, "left=x^100000\n"),
        (4, "left=^x1\n"),
        (5, "left=f1^\n"),
        (6, &format!("left={open}^{{")),
    ] {
        let marked = format!("{header}{fault}");
        let place = marked.find('^').unwrap_or(marked.len());
        let text = marked.replacen('^', "", 1);
        let result = format!("refused {number} {place}");
        read(edges, "a text's fault before 7", &text, "0 0", &result);
    }
}

/// A run of words: U A E W, then STEPS DEPTH SIZE SPACE ROOM.
fn run(edges: &mut Vec<Edge>, why: &'static str, asked: &str, lent: &str, result: &str) {
    let fields = format!("{asked} {lent}").replace(' ', "\t");
    add(edges, why, format!("runw\t{fields}"), result);
}

/// x0 = {f0|x0}
const TAIL: &str = "1 0 1 1000,1,2000,1000";

/// Nothing is asked.
const NOTHING: &str = "0  0 ";

fn room(edges: &mut Vec<Edge>) {
    let listed = "0 3 1 1,0,1,2000,1001";
    let beyond = format!("3 2 4 5 {MOST}");
    let endless = format!("3 2 4 {MOST} 120");
    for (why, lent, result) in [
        ("just enough of all", "3 2 4 5 120", listed),
        ("more room than is needed", "3 2 4 5 121", listed),
        ("more room than there can be", &beyond, listed),
        ("more answer words than there can be", &endless, listed),
        ("room one word short", "3 2 4 5 119", "refused 7 120"),
        ("no room", "3 2 4 5 0", "refused 7 120"),
        ("steps short, in the same room", "2 2 4 5 120", "20 2 0 -"),
        ("depth short, in less room", "3 1 4 5 108", "21 2 0 -"),
        ("size short, in less room", "3 2 3 5 110", "22 0 0 -"),
        ("space short, in the same room", "3 2 4 4 120", "23 3 0 -"),
        ("room for the lesser depth", "3 2 4 5 108", "refused 7 120"),
        ("room for the lesser size", "3 2 4 5 110", "refused 7 120"),
    ] {
        run(edges, why, TAIL, lent, result);
    }
    for (why, lent, result) in [
        ("the least room of all", "1 0 0 1 64", "0 1 1 0"),
        ("the least room of all", "1 0 0 1 63", "refused 7 64"),
        ("room though no step is lent", "0 0 0 0 64", "20 0 0 -"),
        ("no step, and no room", "0 0 0 0 0", "refused 7 64"),
        ("no answer word", "1 0 0 0 64", "23 1 0 -"),
        ("the deepest run", "1 1024 0 1 8256", "0 1 1 0"),
        ("the deepest run", "1 1024 0 1 8255", "refused 7 8256"),
        ("the widest run", "1 0 8192 1 65600", "0 1 1 0"),
        ("the widest run", "1 0 8192 1 65599", "refused 7 65600"),
        (
            "the most of both",
            "1000000000 1024 8192 0 8462399",
            "refused 7 8462400",
        ),
    ] {
        run(edges, why, NOTHING, lent, result);
    }
}

/// Limits come first: the question is bad, and there is no room.
fn limits_before_all(edges: &mut Vec<Edge>) {
    for limits in [
        "1000000001 0 0",
        "0 1025 0",
        "0 0 8193",
        &format!("{MOST} 0 0"),
        &format!("0 {MOST} 0"),
        &format!("0 0 {MOST}"),
        "4294967296 0 0",
        "0 4294967296 0",
        "0 0 4294967296",
        // (depth + 8) * (size + 8) is 0 in 64 bits.
        "0 18446744073709551608 0",
    ] {
        let why = "a limit before the question and the room";
        run(
            edges,
            why,
            "1 0 1 7",
            &format!("{limits} 0 0"),
            "refused 3 0",
        );
    }
    let why = "a limit before the question's own 3";
    let long = format!("1 0 1 {}", words(&[(0, 4097)]));
    run(edges, why, &long, "0 1025 0 0 0", "refused 3 0");
}

/// The question comes next: there is no room.
fn question_before_room(edges: &mut Vec<Edge>) {
    let functors = format!("1 {} 0 ", words(&[(0, 257)]));
    for asked in [
        "257 0 0 ",
        &format!("{MOST} 0 0 "),
        "4294967297 0 0 ",
        "1 9 0 ",
        &functors,
        "1 0 65 ",
        &format!("1 0 {MOST} "),
        "1 0 9223372036854775808 ",
        "257 0 1 7",
    ] {
        let why = "counts and arities before words and room";
        run(edges, why, asked, "9 2 4 5 0", "refused 3 0");
    }
    let why = "the 4,097th word before the room";
    let long = format!("1 0 1 {}", words(&[(7, 1), (0, 4096)]));
    run(edges, why, &long, "9 2 4 5 0", "refused 3 4096");
    for (why, asked, place) in [
        ("words stop", "1 0 1 1000,1,2000", 3),
        ("no words", "1 0 1 ", 0),
        ("a word that stands for nothing", "1 0 1 1000,999", 1),
        ("an unknown that is not declared", "1 0 1 1001,0", 0),
        ("a functor that is not declared", "1 0 1 0,2001", 1),
        ("words are left over", "1 0 1 1000,1,2000,1000,0", 4),
        ("words though nothing is asked", "1 0 0 0", 0),
    ] {
        let result = format!("refused 8 {place}");
        run(edges, why, asked, "9 2 4 5 0", &result);
    }
    let why = "a bad question in room enough";
    run(edges, why, "1 0 1 0", "9 2 4 5 120", "refused 8 1");
}
