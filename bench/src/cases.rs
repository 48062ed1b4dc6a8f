//! `component-cases`: the program `cases` over the C functions. One case a line on standard input, without its result; one result a line.

use component::entries::Component;
use std::process::ExitCode;

fn main() -> ExitCode {
    let mut output = std::io::BufWriter::new(std::io::stdout().lock());
    let input = std::io::stdin().lock();
    match oracle::cases::answer_all(&mut Component::default(), input, &mut output) {
        Ok(()) => ExitCode::SUCCESS,
        Err(cause) => {
            eprintln!("component-cases: {cause}");
            ExitCode::from(2)
        }
    }
}
