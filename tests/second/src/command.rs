//! The command line that every comparison has: an optional `--self-test`, an optional seed.

use std::process::ExitCode;

const SEED: u64 = 1;

/// Runs the comparison, or its self-test; exit status 0 where it is good, 1 where it isn't, 2 where
/// the words are off.
pub fn compare_main(name: &str, compare: fn(u64) -> bool, self_test: fn(u64) -> bool) -> ExitCode {
    let words: Vec<String> = std::env::args().skip(1).collect();
    let (run, seeds): (fn(u64) -> bool, &[String]) = match words.split_first() {
        Some((first, rest)) if first == "--self-test" => (self_test, rest),
        _ => (compare, &words[..]),
    };
    let Some(seed) = seed_of(seeds) else {
        eprintln!("usage: {name} [--self-test] [SEED]");
        return ExitCode::from(2);
    };
    if run(seed) {
        ExitCode::SUCCESS
    } else {
        ExitCode::FAILURE
    }
}

fn seed_of(words: &[String]) -> Option<u64> {
    match words {
        [] => Some(SEED),
        [seed] => seed.parse().ok(),
        _ => None,
    }
}
