//! The plans of the repository, their tables and their pages.
use crate::{ask, plan, plans, status, text, PLANNER};
use std::fs;
use std::path::Path;

#[test]
fn plans_print_their_tables() {
    let mut finished = Vec::new();
    for entry in fs::read_dir(plans()).unwrap() {
        let file = entry.unwrap().path();
        if file.extension().is_some_and(|kind| kind == "expected") {
            assert!(file.with_extension("plan").is_file(), "{}", file.display());
            continue;
        }
        let expected = fs::read_to_string(file.with_extension("expected")).unwrap();
        let output = plan().arg(&file).output().unwrap();
        assert_eq!(text(&output.stdout), expected, "{}", file.display());
        assert_eq!(text(&output.stderr), "");
        let lines = expected.lines();
        let is_final = lines.clone().any(|line| line.starts_with("these are all"));
        assert_eq!(
            lines.filter(|l| l.starts_with("not finished: ")).count(),
            usize::from(!is_final)
        );
        assert_eq!(status(&output), if is_final { 0 } else { 3 });
        finished.push(is_final);
    }
    assert!(finished.len() >= 5 && finished.contains(&false));
}

/// docs/PLAN.md shows a plan of the repository with its table, and what `--help` prints.
#[test]
fn the_document_shows_what_there_is() {
    let document = Path::new(env!("CARGO_MANIFEST_DIR")).join("../docs/PLAN.md");
    let document = fs::read_to_string(document).unwrap();
    let mut shown = Vec::new();
    for block in document.split("\n```").skip(1).step_by(2) {
        let (kind, own) = block.split_once('\n').unwrap();
        let own = own.to_string() + "\n";
        let file = |name: &str| fs::read_to_string(plans().join(name)).unwrap();
        match kind {
            "plan" => assert_eq!(own, file("planner.plan")),
            "text" => assert_eq!(own, file("planner.expected")),
            "help" => assert_eq!(own, text(&ask(&["--help"], "").stdout)),
            other => panic!("a block of {other:?}"),
        }
        shown.push(kind);
    }
    assert_eq!(shown, ["plan", "text", "help"]);
}

/// The question that is asked can be asked again, and is the same.
#[test]
fn what_is_asked_is_a_plan() {
    let sent = |own: &str| text(&ask(&["--words"], own).stdout);
    let check = |own: &str| {
        let printed = text(&ask(&["--steps", "1000"], own).stdout);
        let asked = printed.lines().skip(1).take_while(|line| !line.is_empty());
        let words = ["courses ", "places ", "rests "];
        let is_declared = |line: &&str| words.iter().any(|word| line.starts_with(word));
        let again: Vec<&str> = own.lines().filter(is_declared).chain(asked).collect();
        assert!(!sent(own).is_empty(), "{own}");
        assert_eq!(sent(own), sent(&again.join("\n")), "{own}");
    };
    for entry in fs::read_dir(plans()).unwrap() {
        let file = entry.unwrap().path();
        if file.extension().is_some_and(|kind| kind == "plan") {
            check(&fs::read_to_string(file).unwrap());
        }
    }
    let declared = "courses a, f(_), \"lend\"\nplaces x, \"y z\"\nrests r, s\n";
    for equations in [
        "{} = | r\n| r = {{}}",
        "{{| r}} = {{{}}}\n{{| r}}, x = {{x}, {x}}",
        "{a}, x | r = {a, x | r}, {}",
        "{{{a}}} = {{x}}\n{x} = f({f(x), {| s} | r})",
        "day: \"lend\" = \"y z\"\n\"a day\": f({}) = f(\"y z\")",
    ] {
        check(&format!("{declared}{equations}\n"));
    }
}

#[test]
fn ways_are_shown_as_asked() {
    let ways = |n: &str| {
        let said = text(&ask(&["--ways", n], PLANNER).stdout);
        (
            said.matches("rest = ").count(),
            said.matches("and ").count(),
        )
    };
    assert_eq!((ways("4"), ways("99")), ((4, 0), (4, 0)));
    assert!(text(&ask(&["--ways", "3"], PLANNER).stdout).contains(" and 1 more way\n"));
    assert!(text(&ask(&["--ways", "0"], PLANNER).stdout).contains(" and 4 more ways\n"));
}

#[test]
fn a_page_says_the_same() {
    let page = Path::new(env!("CARGO_TARGET_TMPDIR")).join("page.html");
    let own = "courses \"<b>&amp;\"\nplaces \"x>y\"\n\"x>y\" = \"<b>&amp;\"\n";
    let output = ask(&["--html", page.to_str().unwrap()], own);
    assert_eq!(status(&output), 0);
    let html = fs::read_to_string(&page).unwrap();
    assert!(html.starts_with("<!doctype html>\n"));
    assert!(
        html.contains("<li>&quot;x&gt;y&quot; = &quot;&lt;b&gt;&amp;amp;&quot;</li>"),
        "{html}"
    );
    assert!(html.contains("<strong>these are all</strong>"));
    for elsewhere in ["<script", "src=", "href=", "url(", "@import", "http:"] {
        assert!(!html.contains(elsewhere), "{elsewhere}");
    }
    let output = ask(&["--html", "/nowhere/page.html"], own);
    assert_eq!(status(&output), 1);
    let said =
        "plan: /nowhere/page.html cannot be written: No such file or directory (os error 2)\n";
    assert_eq!(text(&output.stderr), said);
}
