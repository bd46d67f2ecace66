//! Plans for people.
//!
//! ```text
//! plan make < TEXT > PLAN
//! plan show < PLAN > TEXT
//! ```
//!
//! What can't be made, shown or written is told on standard error with exit status 1, other words
//! than these with 2. Where nothing can be made or shown, nothing is written.

use plan::{make, show};
use std::fmt::Display;
use std::io::{self, Read, Write};
use std::process::ExitCode;
use tollsalmon::{Plan, Refusal, LONGEST_FILE};

const USAGE: &str = "usage: plan make < TEXT > PLAN, or plan show < PLAN > TEXT";

/// 16 MiB, many times what the longest plan takes.
const LONGEST_TEXT: usize = 1 << 24;

fn main() -> ExitCode {
    let words: Vec<_> = std::env::args_os().skip(1).collect();
    let words: Vec<Option<&str>> = words.iter().map(|word| word.to_str()).collect();
    let done = match words[..] {
        [Some("make")] => made().and_then(|plan| write(&plan)),
        [Some("show")] => shown().and_then(|text| write(text.as_bytes())),
        _ => {
            say(USAGE);
            return ExitCode::from(2);
        }
    };
    match done {
        Ok(()) => ExitCode::SUCCESS,
        Err(words) => {
            say(words);
            ExitCode::FAILURE
        }
    }
}

fn made() -> Result<Vec<u8>, String> {
    let text = read(LONGEST_TEXT)?;
    if text.len() > LONGEST_TEXT {
        return Err(format!("the text has more than {LONGEST_TEXT} bytes"));
    }
    let made = make::made_of(&text).map_err(|nonsense| nonsense.to_string())?;
    made.warnings.iter().for_each(say);
    made.plan.write().map_err(in_words)
}

fn shown() -> Result<String, String> {
    let plan = Plan::read(&read(LONGEST_FILE)?).map_err(in_words)?;
    Ok(show::text_of(&plan))
}

fn in_words(refusal: Refusal) -> String {
    format!("{refusal}; what to do: {}", refusal.advice())
}

/// One byte more than the most tells that there are too many.
fn read(most: usize) -> Result<Vec<u8>, String> {
    let mut bytes = Vec::new();
    let read = io::stdin().lock().take(most as u64 + 1).read_to_end(&mut bytes);
    read.map(|_| bytes).map_err(|error| format!("standard input can't be read: {error}"))
}

fn write(bytes: &[u8]) -> Result<(), String> {
    let mut output = io::stdout().lock();
    let written = output.write_all(bytes).and_then(|()| output.flush());
    written.map_err(|error| format!("standard output can't be written: {error}"))
}

/// Where not even this can be told, the exit status still tells it.
fn say(words: impl Display) {
    let _ = writeln!(io::stderr(), "plan: {words}");
}
