//! The corpus: cases written by hand with the results that the specification asks for, and generated ones.

use oracle::cases::{result, Oracle};
use oracle::edges::Edge;
use oracle::terms::{MOST_DEPTH, MOST_SIZE, MOST_STEPS};
use std::collections::BTreeSet;

const EDGES: &str = include_str!("../corpus/edges.tsv");
const GENERATED: &str = include_str!("../corpus/generated.tsv");

#[test]
fn edges_are_what_the_paper_asks_for() {
    oracle::on_deep_stack(|| {
        for edge in oracle::edges::edges() {
            let given = result(&mut Oracle, &edge.case).expect("a case");
            assert_eq!(given, edge.result, "{}: {}", edge.why, edge.case);
        }
    });
}

#[test]
fn the_file_of_edges_is_theirs() {
    let mut lines = EDGES.lines();
    for edge in oracle::edges::edges() {
        let line = format!("{}\t{}", edge.case, edge.result);
        assert_eq!(lines.next(), Some(line.as_str()), "{}", edge.why);
    }
    assert_eq!(lines.next(), None);
}

/// The recipe of README.md once more: fresh cases without the longest ones, each with its result.
#[test]
fn the_file_of_generated_cases_follows_its_recipe() {
    oracle::on_deep_stack(|| {
        let mut lines = GENERATED.lines();
        for case in oracle::generate::cases(1, 3090).filter(|case| case.len() < 1200) {
            let line = format!("{case}\t{}", result(&mut Oracle, &case).expect("a case"));
            if line.len() < 1500 {
                assert_eq!(lines.next(), Some(line.as_str()));
            }
        }
        assert_eq!(lines.next(), None);
    });
}

/// The refusal of a case by hand, under its entry and what was refused: an entry's 7 and 3 may have two causes.
fn refusal(edge: &Edge) -> Option<(&'static str, String)> {
    let number = edge.result.strip_prefix("refused ")?.split(' ').next()?;
    let fields: Vec<&str> = edge.case.split('\t').collect();
    let lent = |i: usize| fields[i].parse::<u64>().expect("a number");
    let above = |steps, depth, size| steps > MOST_STEPS || depth > MOST_DEPTH || size > MOST_SIZE;
    let (entry, of) = match fields[0] {
        "text" => ("read_question", ""),
        "read" if number != "7" => ("read_question", ""),
        "read" => {
            let text = format!("text\t{}", fields[1]);
            let good = result(&mut Oracle, &text).expect("a case");
            let functors = good.split('|').nth(1).expect("arities").split(',').count();
            if lent(2) < functors as u64 {
                ("read_question", " arities")
            } else {
                ("read_question", " words")
            }
        }
        "writeq" => ("write_question", ""),
        "writel" => ("write_answers", ""),
        "equal" => ("equal", ""),
        "values" => ("solves", ""),
        "run" if above(lent(1), lent(2), lent(3)) => ("run", " limits"),
        // A text that is refused is `read_question`'s.
        "run" => return None,
        "runw" if above(lent(5), lent(6), lent(7)) => ("run", " limits"),
        "runw" => ("run", ""),
        kind => panic!("no kind of case: {kind}"),
    };
    Some((entry, format!("{number}{of}")))
}

/// The table in the head of `src/edges/mod.rs`: each refusal of each entry, and no other.
#[test]
fn each_refusal_of_each_entry_is_there_by_hand() {
    let edges = oracle::edges::edges();
    let met: BTreeSet<_> = edges.iter().filter_map(refusal).collect();
    let table = [
        ("equal", "3,8"),
        ("read_question", "1,2,3,4,5,6,7 arities,7 words"),
        ("run", "3 limits,3,7,8"),
        ("solves", "3,8"),
        ("write_answers", "3,6,7,8"),
        ("write_question", "3,6,7,8"),
    ];
    let listed = table.iter().flat_map(|(entry, refusals)| {
        let refusals = refusals.split(',');
        refusals.map(|refusal| (*entry, refusal.to_string()))
    });
    assert_eq!(met, listed.collect::<BTreeSet<_>>());
}

/// The gate runs the corpus under an emulator and without a heap, so no search in it is long or needs much room; and every end and refusal is met.
#[test]
fn the_corpus_is_broad_and_short() {
    let mut met = BTreeSet::new();
    for line in GENERATED.lines().chain(EDGES.lines()) {
        let fields: Vec<&str> = line.split('\t').collect();
        let result: Vec<&str> = fields[fields.len() - 1].split(' ').collect();
        let kind = fields[0];
        if result[0] == "refused" {
            met.insert(format!("{kind} refused {}", result[1]));
        } else if kind == "run" || kind == "runw" {
            let number = |field: &str| field.parse::<u64>().expect("a number");
            assert!(number(result[1]) <= 20_000, "{line}");
            if kind == "runw" {
                let room = (number(fields[6]) + 8) * (number(fields[7]) + 8);
                assert!(room <= 400_000, "{line}");
                assert!(result[3].split(',').count() <= 4000, "{line}");
            }
            met.insert(format!("{kind} {}", result[0]));
        } else {
            met.insert(format!("{kind} {}", result[0]));
        }
    }
    for (kind, results) in [
        (
            "text",
            "ok,refused 1,refused 2,refused 3,refused 4,refused 5,refused 6",
        ),
        (
            "read",
            "ok,refused 1,refused 2,refused 3,refused 4,refused 5,refused 6,refused 7",
        ),
        ("run", "0,20,21,22,23,refused 1,refused 3"),
        ("runw", "0,20,21,22,23,refused 3,refused 7,refused 8"),
        ("writeq", "ok,refused 3,refused 6,refused 7,refused 8"),
        ("writel", "ok,refused 3,refused 6,refused 7,refused 8"),
        ("equal", "equal,differ,refused 3,refused 8"),
        ("values", "yes,no,refused 3,refused 8"),
    ] {
        for result in results.split(',') {
            assert!(
                met.contains(&format!("{kind} {result}")),
                "no {kind} {result}"
            );
        }
    }
    assert!(GENERATED.lines().count() >= 2900);
    assert!(EDGES.len() + GENERATED.len() < 1_000_000);
}
