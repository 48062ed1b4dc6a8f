//! What a plan and the command line may say, and faults with their places.
use crate::{ask, plan, plans, status, text, PLANNER};
use std::fs;

#[test]
fn a_plan_is_read_from_standard_input_too() {
    let expected = fs::read_to_string(plans().join("planner.expected")).unwrap();
    for flags in [&[][..], &["-"]] {
        assert_eq!(text(&ask(flags, PLANNER).stdout), expected);
    }
    // With a byte order mark and the line ends of another system.
    let other = format!("\u{feff}{}", PLANNER.replace('\n', "\r\n"));
    assert_eq!(text(&ask(&[], other).stdout), expected);
}

#[test]
fn what_is_sent_is_shown() {
    let sent = ask(&["--text"], PLANNER);
    assert_eq!(
        text(&sent.stdout),
        "edition=1\nunknowns=3\narities=0,0,0,1\nequations=1\nleft={f0,x0,f3(x1)}\nright={f1,f3(f2)|x2}\n"
    );
    let sent = ask(&["--words"], PLANNER);
    assert_eq!(
        text(&sent.stdout),
        "unknowns=3\narities=0,0,0,1\nequations=1\nwords=1,2000,1,1000,1,2003,1001,0,1,2001,1,2003,2002,1002\n"
    );
}

/// Sides with and without braces, groups in groups, rests alone, and lines that go on.
#[test]
fn groups_are_written_in_some_ways() {
    let declared = "courses a, f(_)\nplaces x\nrests r\n";
    let sent = |equation: &str| {
        let output = ask(&["--text"], format!("{declared}{equation}\n"));
        let sent = text(&output.stdout);
        assert_eq!(text(&output.stderr), "", "{equation}");
        let side = |key: &str| {
            let line = sent.lines().find(|line| line.starts_with(key));
            line.unwrap()[key.len()..].to_string()
        };
        side("left=") + " " + &side("right=")
    };
    assert_eq!(sent("a, x = x | r"), "{f0,x0} {x0|x1}");
    assert_eq!(sent("{a, x} = {x | r}"), "{f0,x0} {x0|x1}");
    assert_eq!(sent("{{a, x}} = {x}, a"), "{{f0,x0}} {{x0},f0}");
    assert_eq!(sent("{} = | r"), "{} x1");
    assert_eq!(sent("| r = {}"), "x1 {}");
    assert_eq!(sent("{{}} = {| r}"), "{{}} x1");
    assert_eq!(sent("{{| r}} = {{{}}}"), "{x1} {{{}}}");
    assert_eq!(sent("{}, a = {| r}, {} | r"), "{{},f0} {x1,{}|x1}");
    assert_eq!(sent("{a} | r = f({a | r})"), "{{f0}|x1} {f1({f0|x1})}");
    assert_eq!(sent("a\n, x\n = x | # and so on\n r"), "{f0,x0} {x0|x1}");
    assert_eq!(sent("label: f(\na\n) =\n\n x"), "{f1(f0)} {x0}");
}

/// Each line of faults.txt: one line on standard error, with the place, and nothing on standard output.
#[test]
fn faults_have_their_place() {
    let head = "courses algebra, lab(_), pair(_, _)\nplaces x, y\nrests rest\n";
    let cases = include_str!("faults.txt").lines();
    let mut tried = 0;
    for case in cases.filter(|line| !line.starts_with('#')) {
        let (own, said) = case.split_once(" => ").unwrap();
        let own = own.replace("\\n", "\n");
        let own = match own.strip_prefix(": ") {
            Some(alone) => format!("{alone}\n"),
            None => format!("{head}{own}\n"),
        };
        let output = ask(&[], &own);
        let said = format!("plan: standard input:{said}\n");
        assert_eq!(text(&output.stderr), said, "{own}");
        assert_eq!((status(&output), output.stdout.len()), (2, 0), "{own}");
        tried += 1;
    }
    assert!(tried > 30);
    let output = ask(&[], b"places x\nx\xff = x\n");
    let said = "plan: standard input:2:2: expected text in UTF-8, and found the byte 0xff\n";
    assert_eq!((text(&output.stderr).as_str(), status(&output)), (said, 2));
}

/// As many of everything as there may be, and one more.
#[test]
fn plans_have_limits() {
    let names = |letter: &str, n| {
        let names: Vec<String> = (0..n).map(|i| format!("{letter}{i}")).collect();
        names.join(", ")
    };
    let courses = |n| format!("courses {}\nc0 = c0\n", names("c", n));
    let places = |n| format!("places {}\np0 = p0\n", names("p", n));
    let equations = |n| "places x\n".to_string() + &"x = x\n".repeat(n);
    // A side of n members has 2n + 1 symbols, and the other has 3.
    let symbols = |n| format!("places x\n{} = x\n", vec!["x"; n].join(", "));
    let nested = |n: usize| format!("places x\n{}x{} = x\n", "{".repeat(n), "}".repeat(n));
    let bare = |n: usize| format!("places x\n{}x{}, x = x\n", "{".repeat(n), "}".repeat(n));
    let check = |good: String, bad: String, said: &str| {
        let output = ask(&["--text"], good);
        assert_eq!((status(&output), output.stderr.len()), (0, 0), "{said}");
        let output = ask(&["--text"], bad);
        assert_eq!(status(&output), 2);
        let told = text(&output.stderr);
        assert!(told.contains(said), "{told}");
    };
    check(
        courses(256),
        courses(257),
        ":1:1435: expected no more than 256 courses, and found `c256`",
    );
    check(
        places(256),
        places(257),
        "expected no more than 256 places and rests, and found `p256`",
    );
    check(
        equations(64),
        equations(65),
        ":66:1: expected no more than 64 equations, and found `x`",
    );
    check(
        symbols(2046),
        symbols(2047),
        ":2:1: expected at most 4096 symbols in all equations, and with this one there are 4098",
    );
    check(
        nested(200),
        nested(201),
        ":2:201: expected at most 200 groups and brackets within each other",
    );
    check(
        bare(199),
        bare(200),
        ":2:1: expected at most 200 groups and brackets within each other",
    );
    let long = "#".repeat(1_048_576);
    assert!(text(&ask(&[], &long).stderr).contains("expected an equation"));
    assert!(text(&ask(&[], long + "#").stderr).contains("has more than 1048576 bytes"));
}

#[test]
fn flags_are_refused_in_one_line() {
    for (flags, said) in [
        (
            &["--weather"][..],
            "there is no flag --weather: plan --help",
        ),
        (&["-v"], "there is no flag -v: plan --help"),
        (&["--steps"], "--steps lacks its value: plan --help"),
        (
            &["--steps", "ten"],
            "--steps takes a number for steps, at most 1000000000, not ten",
        ),
        (
            &["--steps="],
            "--steps takes a number for steps, at most 1000000000, not ",
        ),
        (
            &["--depth", "1025"],
            "--depth takes a number for depth, at most 1024, not 1025",
        ),
        (
            &["--size=8193"],
            "--size takes a number for size, at most 8192, not 8193",
        ),
        (
            &["--space", "-1"],
            "--space takes a number for space, at most 18446744073709551615, not -1",
        ),
        (
            &["--time", "soon"],
            "--time takes a number of seconds, as 10 or 0.5, not soon",
        ),
        (
            &["--time", "inf"],
            "--time takes a number of seconds, as 10 or 0.5, not inf",
        ),
        (&["--ways", "few"], "--ways takes a number, not few"),
        (&["--quiet=yes"], "--quiet takes no value: plan --help"),
        (
            &["one", "two"],
            "one plan is asked at a time, and two is another",
        ),
        (
            &["--text", "--html", "page"],
            "--text and --words ask nothing, so that there is no page for --html",
        ),
        (
            &["/nowhere/a.plan"],
            "/nowhere/a.plan cannot be read: No such file or directory (os error 2)",
        ),
        (&["/"], "/ cannot be read: Is a directory (os error 21)"),
    ] {
        let output = plan().args(flags).output().unwrap();
        assert_eq!(text(&output.stderr), format!("plan: {said}\n"));
        assert_eq!((status(&output), output.stdout.len()), (2, 0));
    }
    let help = plan().arg("--help").output().unwrap();
    assert_eq!((status(&help), help.stderr.len()), (0, 0));
    assert!(text(&help.stdout).starts_with("usage: plan [FLAG..] [FILE]\n"));
    let version = plan().arg("--version").output().unwrap();
    let own = concat!("plan ", env!("CARGO_PKG_VERSION"), "\n");
    assert_eq!(text(&version.stdout), own);
}
