//! The examples of `docs/SPECIFICATION.md` are what the oracle gives: its texts, and the tables of its section 11.

use oracle::equality::equal;
use oracle::search::{search, Loan};
use oracle::solve::solve;
use oracle::terms::{Question, Refusal};
use oracle::text::reader::read;
use oracle::text::writers::{write_answers, AnswerList};
use std::fs;
use std::path::Path;

const WIDE: Loan = Loan {
    steps: 100_000,
    depth: 96,
    size: 256,
    space: 4096,
};

fn page() -> String {
    let path = Path::new(env!("CARGO_MANIFEST_DIR")).join("../docs/SPECIFICATION.md");
    fs::read_to_string(path).expect("the specification")
}

/// The rows of the table with this first line, cell by cell; a bar in a cell is written `\|`.
fn table(first: &str) -> Vec<Vec<String>> {
    let page = page();
    let mut lines = page.lines().skip_while(|line| *line != first).skip(2);
    let rows: Vec<_> = lines
        .by_ref()
        .take_while(|line| line.starts_with('|'))
        .map(|line| {
            let line = line.replace("\\|", "\n");
            let cells = line.trim_matches('|').split('|');
            cells.map(|c| c.trim().replace('\n', "|")).collect()
        })
        .collect();
    assert!(!rows.is_empty(), "{first}");
    rows
}

/// a, b, c and g are f0, f1, f2 and f3.
fn named(text: &str) -> String {
    let letters = [("a", "f0"), ("b", "f1"), ("c", "f2"), ("g", "f3")];
    letters
        .iter()
        .fold(text.to_string(), |text, (letter, name)| {
            text.replace(letter, name)
        })
}

/// Equations with commas between, over as many unknowns as occur.
fn asked(equations: &str, between: &str) -> Question {
    let sides: Vec<_> = equations
        .split(", ")
        .filter_map(|e| e.split_once(between))
        .map(|(left, right)| format!("left={}\nright={}\n", named(left), named(right)))
        .collect();
    let unknowns = (0..9)
        .rev()
        .find(|i| equations.contains(&format!("x{i}")))
        .map_or(0, |i| i + 1);
    let text = format!(
        "edition=1\nunknowns={unknowns}\narities=0,0,0,1\nequations={}\n{}",
        sides.len(),
        sides.concat()
    );
    read(text.as_bytes()).expect("a good question")
}

/// The answers of a list's text as the page puts them.
fn told(list: &AnswerList) -> String {
    let text = String::from_utf8(write_answers(list, usize::MAX).expect("a text")).expect("ASCII");
    let answers: Vec<_> = text
        .split("bindings=")
        .skip(1)
        .map(|answer| {
            let lines = answer.split("unknown=").skip(1);
            let bindings: Vec<_> = lines
                .map(|line| format!("x{}", line.trim_end().replace("\nvalue=", " = ")))
                .collect();
            bindings.join(", ")
        })
        .collect();
    match &answers[..] {
        [] => "none".to_string(),
        [one] if one.is_empty() => "one, without bindings".to_string(),
        _ => answers.join("; then "),
    }
}

fn number(cell: &str) -> u64 {
    let digits: String = cell.chars().take_while(|c| c.is_ascii_digit()).collect();
    digits.parse().expect(cell)
}

#[test]
fn ground_terms() {
    for row in table("| terms | result |") {
        let question = asked(&row[0], " and ");
        let result = equal(&question.arities, &question.words).expect("two ground terms");
        assert_eq!(if result { "equal" } else { "differ" }, row[1], "{row:?}");
    }
}

#[test]
fn questions() {
    for row in table("| question | visited | answers |") {
        let question = asked(&row[0], " = ");
        let outcome = search(&question, &WIDE);
        assert_eq!((outcome.end, outcome.visited), (0, number(&row[1])));
        let list = AnswerList::of(question.arities, outcome);
        let expected = if row[2].starts_with('x') {
            named(&row[2].replace("; then ", ";")).replace(';', "; then ")
        } else {
            row[2].clone()
        };
        assert_eq!(told(&list), expected, "{row:?}");
    }
}

#[test]
fn limits() {
    let question = asked("x0 = {a|x0}", " = ");
    for row in table("| steps | depth | size | words | end | visited | answers |") {
        let cells: Vec<_> = row.iter().map(|cell| number(cell)).collect();
        let loan = Loan {
            steps: cells[0],
            depth: cells[1],
            size: cells[2],
            space: cells[3] as usize,
        };
        let outcome = search(&question, &loan);
        let given = [outcome.end, outcome.visited, outcome.answers];
        assert_eq!(given, cells[4..], "{row:?}");
    }
}

#[test]
fn refused_texts() {
    let header = "edition=1\nunknowns=2\narities=0,1,2\nequations=1\n";
    assert!(page().contains(&format!("which have {} bytes", header.len())));
    for row in table("| line | refused | place | what stands there |") {
        let text = match &row[0][..] {
            "left=x0 and a CR" => "left=x0\r\nright={}\n".to_string(),
            "left=x0, without the LF after right={}" => "left=x0\nright={}".to_string(),
            line => format!("{line}\nright={{}}\n"),
        };
        let Err(Refusal { number: n, place }) = read(format!("{header}{text}").as_bytes()) else {
            panic!("{row:?}");
        };
        let given = (u64::from(n), place as u64);
        assert_eq!(given, (number(&row[1]), number(&row[2])), "{row:?}");
    }
}

#[test]
fn refused_words() {
    for row in table("| words | refused | place |") {
        let words = match &row[0][..] {
            "4,097 words, whichever" => vec![0; 4097],
            words => words.split(' ').map(|w| number(w) as u16).collect(),
        };
        let question = Question {
            unknowns: 1,
            arities: vec![0],
            equations: 1,
            words,
        };
        let Err(Refusal { number: n, place }) = question.check() else {
            panic!("{row:?}");
        };
        let given = (u64::from(n), place as u64);
        assert_eq!(given, (number(&row[1]), number(&row[2])), "{row:?}");
    }
}

#[test]
fn texts() {
    let page = page();
    let blocks: Vec<_> = page.split("```").skip(1).step_by(2).collect();
    let [question, list, refusal] = blocks[..] else {
        panic!("{blocks:?}");
    };
    let body = |block: &str| block.strip_prefix("text\n").expect("a text").to_string();
    assert_eq!(solve(body(question).as_bytes()), body(list).into_bytes());
    assert_eq!(solve(b""), body(refusal).into_bytes());
}
