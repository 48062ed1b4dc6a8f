//! The program `plan`.
mod reading;
mod runs;
mod tables;

use std::io::Write;
use std::path::{Path, PathBuf};
use std::process::{Command, Output, Stdio};

fn plan() -> Command {
    let mut command = Command::new(env!("CARGO_BIN_EXE_plan"));
    command.stdin(Stdio::null());
    command
}

fn plans() -> PathBuf {
    Path::new(env!("CARGO_MANIFEST_DIR")).join("../examples/plans")
}

/// What `plan` does with flags and a plan on standard input.
fn ask(flags: &[&str], text: impl AsRef<[u8]>) -> Output {
    let mut command = plan();
    command.args(flags).stdin(Stdio::piped());
    command.stdout(Stdio::piped()).stderr(Stdio::piped());
    let mut child = command.spawn().unwrap();
    // A program that does not read its input is none of this one's faults.
    let _ = child.stdin.take().unwrap().write_all(text.as_ref());
    child.wait_with_output().unwrap()
}

fn text(bytes: &[u8]) -> String {
    String::from_utf8(bytes.to_vec()).unwrap()
}

fn status(output: &Output) -> i32 {
    output.status.code().unwrap()
}

/// Six members a side: no machine gets through that within the limits.
const ENDLESS: &str =
    "courses a, b, c, d, e, f\nplaces u, v, w, x, y, z\nu, v, w, x, y, z = a, b, c, d, e, f\n";

const PLANNER: &str = "courses algebra, geometry, logic, lab(_)\nplaces x, y\nrests rest\n\
                       algebra, x, lab(y) = geometry, lab(logic) | rest\n";
