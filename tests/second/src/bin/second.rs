//! The second program's run of a plan: the plan on standard input, its text on standard output.
//!
//!     second < PLAN

use second::text::run::text_of_stream;
use std::io::{self, Write};
use std::process::ExitCode;

fn main() -> ExitCode {
    match print_the_run() {
        Ok(()) => ExitCode::SUCCESS,
        Err(error) => {
            eprintln!("second: {error}");
            ExitCode::FAILURE
        }
    }
}

fn print_the_run() -> io::Result<()> {
    let text = text_of_stream(io::stdin().lock())?;
    let mut output = io::stdout().lock();
    output.write_all(&text)?;
    output.flush()
}
