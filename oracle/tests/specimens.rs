//! The specification's specimens, and the program `solve`.

use oracle::search::{search, Loan};
use oracle::solve::solve;
use oracle::terms::Question;
use oracle::text::reader::read;
use std::fs;
use std::path::Path;

/// f0, f1, f2 are a, b, c; f3 is g with one argument.
fn asked(unknowns: u32, equations: &[(&str, &str)]) -> Question {
    let mut text = format!(
        "edition=1\nunknowns={unknowns}\narities=0,0,0,1\nequations={}\n",
        equations.len()
    );
    for (left, right) in equations {
        text.push_str(&format!("left={left}\nright={right}\n"));
    }
    read(text.as_bytes()).expect("a good question")
}

const WIDE: Loan = Loan {
    steps: 100_000,
    depth: 96,
    size: 256,
    space: 4096,
};

#[test]
fn a_tail_in_itself() {
    let outcome = search(&asked(1, &[("x0", "{f0|x0}")]), &WIDE);
    assert_eq!((outcome.end, outcome.visited, outcome.answers), (0, 3, 1));
    assert_eq!(outcome.words, [1, 0, 1, 2000, 1001]);
}

#[test]
fn one_tail_on_both_sides() {
    let outcome = search(&asked(1, &[("{f0|x0}", "{f1|x0}")]), &WIDE);
    assert_eq!((outcome.end, outcome.visited, outcome.answers), (0, 9, 1));
    assert_eq!(outcome.words, [1, 0, 1, 2000, 1, 2001, 1001]);
}

#[test]
fn no_set_and_no_functor_holds_itself() {
    for right in ["{x0}", "f3(x0)"] {
        let outcome = search(&asked(1, &[("x0", right)]), &WIDE);
        assert_eq!((outcome.end, outcome.visited, outcome.answers), (0, 2, 0));
    }
}

#[test]
fn no_equation() {
    let outcome = search(&asked(1, &[]), &WIDE);
    assert_eq!((outcome.end, outcome.visited), (0, 1));
    assert_eq!(outcome.words, [0]);
}

#[test]
fn two_unknown_members() {
    let outcome = search(&asked(2, &[("{x0,x1}", "{f0,f1}")]), &WIDE);
    assert_eq!((outcome.end, outcome.answers), (0, 2));
    let listed = [2, 0, 2000, 1, 2001, 2, 0, 2001, 1, 2000];
    assert_eq!(outcome.words, listed);
}

#[test]
fn one_less_of_one_of_them() {
    let question = asked(1, &[("x0", "{f0|x0}")]);
    let least = Loan {
        steps: 3,
        depth: 2,
        size: 4,
        space: 5,
    };
    assert_eq!(search(&question, &least).end, 0);
    for (loan, end, visited) in [
        (Loan { steps: 2, ..least }, 20, 2),
        (Loan { depth: 1, ..least }, 21, 2),
        (Loan { size: 3, ..least }, 22, 0),
        (Loan { space: 4, ..least }, 23, 3),
    ] {
        let outcome = search(&question, &loan);
        assert_eq!(
            (outcome.end, outcome.visited, outcome.answers),
            (end, visited, 0)
        );
    }
}

#[test]
fn the_program_prints_the_specimen() {
    let text = "edition=1\nunknowns=1\narities=0\nequations=1\nleft=x0\nright={f0|x0}\n";
    let list = "edition=1\nend=done\nvisited=3\nanswers=1\nbindings=1\nunknown=0\nvalue={f0|x1}\n";
    assert_eq!(solve(text.as_bytes()), list.as_bytes());
    assert_eq!(solve(b""), b"refused=1\nplace=0\n");
    assert_eq!(solve(b"edition=2\n"), b"refused=3\nplace=8\n");
}

/// The questions on which `tests/solve` runs the program. `6-written`: x1 has 25 brackets and is put inside 180 more, so the answer cannot be written; the
/// place is the count, x1's line of 1 + 26 words, x0's number, then the words of 200 brackets.
#[test]
fn the_program_prints_what_the_files_have() {
    let folder = Path::new(env!("CARGO_MANIFEST_DIR")).join("../tests/questions");
    let mut count = 0;
    for entry in fs::read_dir(folder).expect("tests/questions") {
        let file = entry.expect("a file").path();
        if file.extension().is_some_and(|kind| kind == "in") {
            let given = solve(&fs::read(&file).expect("a question"));
            let wanted = fs::read(file.with_extension("out")).expect("what is printed");
            assert!(given == wanted, "{}", file.display());
            count += 1;
        }
    }
    assert!(count > 30);
}
