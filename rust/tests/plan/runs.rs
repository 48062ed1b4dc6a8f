//! Loans, time, interruption, and what cannot be written.
use crate::{ask, plan, plans, status, text, ENDLESS, PLANNER};
use std::fs;
use std::io::{BufRead, BufReader, Read, Write};
use std::os::unix::process::CommandExt;
use std::process::{Child, Command, Stdio};
use std::time::{Duration, Instant};

/// Every end that can come, its reason and what to lend; what is lent then is enough for more.
#[test]
fn what_is_short_is_told() {
    for (flags, reason, lend) in [
        (
            ["--steps", "500"],
            "500 steps spent, and a node is due",
            "steps: --steps 1000",
        ),
        (
            ["--depth", "6"],
            "a node is deeper than 6",
            "depth: --depth 12",
        ),
        (
            ["--size", "18"],
            "a node has more than 18 symbols",
            "size: --size 36",
        ),
        (
            ["--space", "45"],
            "an answer does not fit 45 words of space",
            "space: --space 90",
        ),
    ] {
        let output = ask(&flags, PLANNER);
        let said = text(&output.stdout);
        assert!(
            said.contains(&format!("\nnot finished: {reason}\n")),
            "{said}"
        );
        assert!(said.ends_with(&format!("\nlend more {lend}\n")), "{said}");
        assert_eq!(status(&output), 3);
        let more: Vec<&str> = lend.split(' ').skip(1).collect();
        assert_eq!(status(&ask(&more, PLANNER)), 0);
        // The plan may lend as well, and a flag comes first.
        let word = flags[0].trim_start_matches('-');
        let lending = format!("{PLANNER}lend {word} {}\n", flags[1]);
        assert_eq!(text(&ask(&[], &lending).stdout), said);
        assert_eq!(status(&ask(&more, lending)), 0);
    }
    let none = ask(&["--steps", "5"], PLANNER);
    let said = "nothing is listed yet, and that says nothing: there may be some\n";
    assert!(text(&none.stdout).contains(said));
    let most = ask(&["--depth", "0"], "places x\nx = x\n");
    assert!(text(&most.stdout).contains("lend more depth: --depth 1\n"));
}

/// x0 = pair(x1, x1), x1 = pair(x2, x2), ..: an answer whose first value no memory holds.
#[test]
fn groups_may_be_too_large() {
    let mut own = "courses pair(_, _)\nplaces x0".to_string();
    for i in 1..=40 {
        own += &format!(", x{i}");
    }
    for i in 0..40 {
        own += &format!("\nx{i} = pair(x{}, x{})", i + 1, i + 1);
    }
    let output = ask(&[], own);
    let said = "plan: standard input: a group with all values put in is too large to be compared: size: 8193 is above the limit 8192\n";
    assert_eq!((text(&output.stderr).as_str(), status(&output)), (said, 2));
}

/// No number is too much for the program itself.
#[test]
fn any_space_may_be_lent() {
    let whole = text(&ask(&[], PLANNER).stdout);
    for space in ["1000000", "18446744073709551615"] {
        let output = ask(
            &["--space", space, "--size", "19", "--steps", "700"],
            PLANNER,
        );
        assert_eq!(text(&output.stdout), whole);
    }
    let flags = [
        "--space",
        "18446744073709551615",
        "--steps",
        "1000000000",
        "--time",
        "1",
    ];
    let output = ask(&flags, ENDLESS);
    // Refused where there is no such memory. Some systems lend what they have not got.
    if status(&output) == 2 {
        let said = text(&output.stderr);
        assert!(
            said.contains("words for answers: this machine has no memory for"),
            "{said}"
        );
    }
}

#[test]
fn time_is_kept() {
    let began = Instant::now();
    let output = ask(&["--time", "1.5", "--steps", "1000000000"], ENDLESS);
    let took = began.elapsed();
    assert!(took < Duration::from_secs(20), "{took:?}");
    let said = text(&output.stdout);
    assert!(
        said.contains("\nnot finished: 1.5 s are too short\n"),
        "{said}"
    );
    assert!(said.ends_with("lend more time: --time 3\n"));
    assert_eq!(status(&output), 3);
}

extern "C" {
    /// The C library's; 0 leaves a signal to what it does by itself, and 1 makes it do nothing.
    fn signal(number: i32, handler: usize) -> usize;
}

/// A long run, for which SIGINT does what `handler` says when it begins: what a shell lets run in the background begins with a SIGINT that does nothing. SIGTERM
/// does what it does by itself.
fn endless(handler: usize, time: &str) -> Child {
    let mut command = plan();
    command.args(["--steps", "1000000000", "--time", time]);
    command.stdin(Stdio::piped());
    command.stdout(Stdio::piped()).stderr(Stdio::piped());
    let prepare = move || {
        // SAFETY: it may be called between fork and exec.
        unsafe { signal(2, handler) };
        unsafe { signal(15, 0) };
        Ok(())
    };
    // SAFETY: nothing but `signal` is called.
    let mut child = unsafe { command.pre_exec(prepare) }.spawn().unwrap();
    let mut input = child.stdin.take().unwrap();
    input.write_all(ENDLESS.as_bytes()).unwrap();
    child
}

fn send(signal: &str, child: &Child) {
    let id = child.id().to_string();
    let sent = Command::new("kill").args([signal, &id]).status();
    assert!(sent.unwrap().success());
}

/// A long run tells how it goes on; interrupted, it prints what is listed so far.
#[test]
fn interruption_prints_what_is_listed() {
    for signal in ["-INT", "-TERM"] {
        let mut child = endless(0, "600");
        let mut progress = String::new();
        let mut told = BufReader::new(child.stderr.take().unwrap());
        told.read_line(&mut progress).unwrap();
        assert!(progress.starts_with("plan: "), "{progress}");
        assert!(progress.contains(" nodes in "), "{progress}");
        assert!(progress.contains(" a second; answers so far: 0"));
        send(signal, &child);
        let mut said = String::new();
        let mut output = child.stdout.take().unwrap();
        output.read_to_string(&mut said).unwrap();
        assert_eq!(child.wait().unwrap().code(), Some(3));
        assert!(said.contains("\nnot finished: it was interrupted\n"));
        let counts = said.lines().find(|line| line.ends_with(" nodes visited"));
        assert!(!counts.unwrap().contains(", 0 nodes"), "{said}");
    }
}

/// Where a signal did nothing to begin with, it stays so.
#[test]
fn an_ignored_signal_stays_ignored() {
    let mut child = endless(1, "3");
    let mut told = BufReader::new(child.stderr.take().unwrap());
    told.read_line(&mut String::new()).unwrap();
    send("-INT", &child);
    let output = child.wait_with_output().unwrap();
    assert!(text(&output.stdout).contains("\nnot finished: 3 s are too short\n"));
}

#[test]
fn quiet_runs_are_quiet() {
    let output = ask(
        &["--time", "2.5", "--steps", "1000000000", "--quiet"],
        ENDLESS,
    );
    assert_eq!((status(&output), text(&output.stderr)), (3, String::new()));
}

/// A failed write is not silent.
#[test]
fn standard_output_may_be_closed() {
    let mut command = plan();
    command.arg(plans().join("planner.plan"));
    command.stdout(Stdio::piped()).stderr(Stdio::piped());
    let mut child = command.spawn().unwrap();
    drop(child.stdout.take());
    let output = child.wait_with_output().unwrap();
    // Where the program was faster, nothing failed.
    assert!([0, 1].contains(&status(&output)));
    if let Ok(full) = fs::OpenOptions::new().write(true).open("/dev/full") {
        let output = plan()
            .arg(plans().join("planner.plan"))
            .stdout(full)
            .output()
            .unwrap();
        assert_eq!(status(&output), 1);
        assert!(text(&output.stderr).starts_with("plan: standard output cannot be written: "));
    }
}
