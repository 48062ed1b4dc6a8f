//! The writers' edges: 3, 8, 6, then 7, with their places.

use super::{add, words, Edge};
use crate::cases::hex;

const MOST: &str = "18446744073709551615";

pub fn edges(edges: &mut Vec<Edge>) {
    questions(edges);
    question_nesting(edges);
    answer_heads(edges);
    answer_words(edges);
}

fn question(edges: &mut Vec<Edge>, why: &'static str, fields: &str, result: &str) {
    add(
        edges,
        why,
        format!("writeq\t{}", fields.replace(' ', "\t")),
        result,
    );
}

fn questions(edges: &mut Vec<Edge>) {
    let text = "edition=1\nunknowns=1\narities=0,1\nequations=1\nleft=x0\nright={f0,{}|f1(x0)}\n";
    let written = format!("ok {}", hex(text.as_bytes()));
    let why = "a capacity that suffices, and one short";
    for (capacity, result) in [
        (74, &written[..]),
        (75, &written),
        (73, "refused 7 74"),
        (0, "refused 7 74"),
    ] {
        let fields = format!("1 0,1 1 1000,1,2000,1,0,2001,1000 {capacity}");
        question(edges, why, &fields, result);
    }
    let text = "edition=1\nunknowns=0\narities=\nequations=0\n";
    let written = format!("ok {}", hex(text.as_bytes()));
    question(edges, "nothing at all is asked", "0  0  42", &written);
    question(edges, "nothing at all is asked", "0  0  41", "refused 7 42");
    for fields in [
        "257  0  0".to_string(),
        format!("{MOST}  0  0"),
        "4294967296  0  0".to_string(),
        "0 9 0  0".to_string(),
        "0 0,0,255 0  0".to_string(),
        format!("0 {} 0  0", words(&[(0, 257)])),
        "0  65  0".to_string(),
        format!("0  {MOST}  0"),
        "0  9223372036854775808  0".to_string(),
        "0  65 7,7 0".to_string(),
    ] {
        question(
            edges,
            "counts and arities come first",
            &fields,
            "refused 3 0",
        );
    }
    let full = format!("256 {} 0  0", words(&[(8, 256)]));
    question(edges, "counts at their limits", &full, "refused 7 555");
    for (fields, place) in [
        ("1 0 1 2,0 9", 0),
        ("1 0 1 999,0 9", 0),
        ("1 0 1 0,1001 9", 1),
        ("1 0 1 1,1000,1256,0 9", 2),
        ("1 0 1 0,1999 9", 1),
        ("1 0 1 2001,0 9", 0),
        ("1 0 1 0,2256 9", 1),
        ("1 0 1 65535,0 9", 0),
        ("1 0 1 0,64536 9", 1),
        ("1 0 1  9", 0),
        ("1 0 1 0 9", 1),
        ("1 0 1 0,1,0 9", 3),
        ("1 0 1 0,1 9", 2),
        ("1 1 1 0,2000 9", 2),
        ("1 0 1 0,0,0 9", 2),
        ("1 0 0 0 9", 0),
        ("1 0 64 0,0 9", 2),
        ("1 0 1 0,0,65535 9", 2),
        ("1 0 1 7,7,7 9", 0),
    ] {
        let why = "the first word that cannot stand there, or the length";
        question(edges, why, fields, &format!("refused 8 {place}"));
    }
    let why = "the 4,097th symbol has its own word's place, whatever stands before";
    for (runs, result) in [
        ([(1, 1), (0, 4096)], "refused 3 4096"),
        ([(7, 1), (0, 4097)], "refused 3 4096"),
        ([(7, 1), (0, 4095)], "refused 8 0"),
        ([(0, 2), (9, 4094)], "refused 8 2"),
    ] {
        question(edges, why, &format!("0  1 {} 0", words(&runs)), result);
    }
}

fn question_nesting(edges: &mut Vec<Edge>) {
    let sets = |depth| words(&[(1, depth), (0, depth + 1)]);
    let functors = |depth| words(&[(2001, depth), (1000, 1)]);
    let why = "6 is told at the word that the 201st bracket would write";
    for (terms, result) in [
        (format!("{},0", sets(200)), "refused 7 462"),
        (format!("{},0", sets(201)), "refused 6 200"),
        (format!("0,{}", sets(201)), "refused 6 201"),
        (format!("0,{}", functors(200)), "refused 7 862"),
        (format!("0,{}", functors(201)), "refused 6 201"),
        (format!("{},0", functors(201)), "refused 6 200"),
        (format!("1,0,{},0", functors(199)), "refused 7 863"),
        (format!("1,0,{},0", functors(200)), "refused 6 201"),
        (format!("1,0,1,0,{},0", sets(200)), "refused 7 468"),
        (format!("1,0,1,{},0,0", sets(200)), "refused 6 202"),
        (
            format!("{},0", words(&[(1, 201), (2000, 1), (0, 201)])),
            "refused 6 200",
        ),
        (format!("{},7", sets(201)), "refused 8 403"),
        (sets(201), "refused 8 403"),
        (format!("{},0,0", sets(201)), "refused 8 404"),
    ] {
        question(edges, why, &format!("1 0,1 1 {terms} 0"), result);
    }
}

fn answers(edges: &mut Vec<Edge>, why: &'static str, fields: &str, result: &str) {
    add(
        edges,
        why,
        format!("writel\t{}", fields.replace(' ', "\t")),
        result,
    );
}

fn answer_heads(edges: &mut Vec<Edge>) {
    for (number, name) in [
        (0, "done"),
        (20, "steps"),
        (21, "depth"),
        (24, "names"),
        (22, "size"),
        (23, "space"),
    ] {
        let text = format!("edition=1\nend={name}\nvisited=7\nanswers=0\n");
        let written = format!("ok {}", hex(text.as_bytes()));
        answers(
            edges,
            "each end has its name",
            &format!(" {number} 7 0  99"),
            &written,
        );
    }
    for end in ["1", "19", "25", "256", "65556", "4294967316", MOST] {
        let why = "an end that the table has not";
        answers(edges, why, &format!(" {end} 7 0  99"), "refused 3 0");
    }
    let why = "the visited number";
    answers(edges, why, " 0 1000000000 0  0", "refused 7 48");
    answers(edges, why, " 0 1000000001 0  0", "refused 3 0");
    answers(edges, why, &format!(" 0 {MOST} 0  0"), "refused 3 0");
    let why = "3 precedes 8, and arities are tested too";
    answers(edges, why, "9 0 7 0 7 0", "refused 3 0");
    answers(
        edges,
        why,
        &format!("{} 0 7 0 7 0", words(&[(0, 257)])),
        "refused 3 0",
    );
    answers(edges, why, "8 1 7 0 7 0", "refused 3 0");
}

fn answer_words(edges: &mut Vec<Edge>) {
    let text = "edition=1\nend=done\nvisited=3\nanswers=2\nbindings=1\nunknown=0\nvalue={f0|x1}\nbindings=0\n";
    let written = format!("ok {}", hex(text.as_bytes()));
    let list = "0 0 3 2 1,0,1,2000,1001,0";
    for (capacity, result) in [
        (85, &written[..]),
        (84, "refused 7 85"),
        (0, "refused 7 85"),
    ] {
        let why = "a capacity that suffices, and one short";
        answers(edges, why, &format!("{list} {capacity}"), result);
    }
    for (fields, place) in [
        ("0 0 3 1  9", 0),
        ("0 0 3 1 1 9", 1),
        ("0 0 3 1 1,512,0 9", 1),
        ("0 0 3 1 1,1000,0 9", 1),
        ("0 0 3 1 1,0 9", 2),
        ("0 0 3 1 1,0,1512 9", 2),
        ("0 0 3 1 1,0,2001 9", 2),
        ("0 0 3 1 1,0,999 9", 2),
        ("0 0 3 1 1,0,1,0 9", 4),
        ("0 0 3 1 65535,0,0 9", 3),
        ("0 0 3 1 0,0 9", 1),
        ("0 0 3 0 0 9", 0),
        ("0 0 3 2 0 9", 1),
        ("0 0 3 18446744073709551615 0,0,0 9", 3),
        ("0 0 3 4294967296  9", 0),
        ("0 0 3 1 0,65535 9", 1),
    ] {
        let why = "the first word that cannot stand there, or the length";
        answers(edges, why, fields, &format!("refused 8 {place}"));
    }
    let why = "unknowns run to 511 and may repeat; the layout alone is tested";
    answers(
        edges,
        why,
        " 0 3 1 2,511,1511,511,1,1511,1511 0",
        "refused 7 103",
    );
    let why = "the number of words has no bound";
    answers(
        edges,
        why,
        &format!(" 0 3 5000 {} 0", words(&[(0, 5000)])),
        "refused 7 55042",
    );
    let deep = words(&[(1, 200), (0, 201)]);
    let why = "6 comes after 8 and before 7; places count from the list's start";
    answers(
        edges,
        why,
        &format!("0 0 3 2 0,1,5,{deep} 0"),
        "refused 7 480",
    );
    let deep = words(&[(1, 201), (0, 202)]);
    answers(
        edges,
        why,
        &format!("0 0 3 2 0,1,5,{deep} 0"),
        "refused 6 203",
    );
    answers(
        edges,
        why,
        &format!("0 0 3 2 0,1,5,{deep},7 0"),
        "refused 8 406",
    );
}
