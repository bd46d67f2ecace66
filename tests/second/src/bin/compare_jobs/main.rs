//! Holds the library's machine to demand 3 job by job: runs from a fresh start on accepted tables,
//! of which the tick records and the answers alone are looked at.
//!
//!     compare_jobs [SEED]               the library
//!     compare_jobs --self-test [SEED]   programs with one fault each: every one must be noticed

#[path = "../library.rs"]
mod library;
mod tally;

use second::answer::Refusal;
use second::command::compare_main;
use second::jobs::books::{books, Books, Fault, Run};
use second::jobs::broken;
use second::jobs::made_up::{made_up, MadeUp, RUNS};
use second::lent::Lent;
use second::machine::numbers::{ANSWER, NUMBERS, RECORD};
use second::self_test::SelfTest;
use second::tables::analysis::analyse;
use std::process::ExitCode;
use tally::Tally;

fn main() -> ExitCode {
    compare_main("compare_jobs", look_at_the_library, notice_the_broken)
}

fn look_at_the_library(seed: u64) -> bool {
    let mut tally = Tally::default();
    let mut shown = false;
    for number in 0..RUNS {
        let made_up = made_up(seed, number, analyse);
        let found = books_of_the_library(&made_up);
        let fault = fault_of(&found);
        if let (Some(fault), false) = (&fault, shown) {
            show(number, &made_up, fault);
            shown = true;
        }
        tally.count(&made_up, found.as_ref().ok(), fault.is_some());
    }
    println!("the library's runs, job by job, seed {seed}");
    tally.is_good()
}

/// The books of the library's run, or why there are none.
fn books_of_the_library(made_up: &MadeUp) -> Result<Books, String> {
    let MadeUp { table, records, .. } = made_up;
    let (offsets, expected) = (enforcement_offsets(table)?, made_up.E());
    if offsets != expected {
        return Err(format!("E is {offsets:?}, the second program's {expected:?}"));
    }
    let answers = answers(table, records)?;
    Ok(books(&Run { table, E: &offsets, records, answers: &answers }))
}

/// The library's E of each row.
fn enforcement_offsets(table: &[u32]) -> Result<Vec<u32>, String> {
    let mut results = Lent::new(3 * (table.len() / 4));
    library::analyse(&mut Lent::holding(table), &mut results).map_err(|why| refused("the analysis", why))?;
    Ok(results.part().chunks(3).map(|result| result[1]).collect())
}

/// The library's answers to the records from a fresh start.
fn answers(table: &[u32], records: &[u8]) -> Result<Vec<u8>, String> {
    let mut state = Lent::new(NUMBERS);
    library::start(&mut Lent::holding(table), &mut state).map_err(|why| refused("the start", why))?;
    let ticks = records.len() / RECORD;
    let mut answers = Lent::new(ticks * ANSWER);
    let answered = library::ticks(&mut state, &mut Lent::holding(records), &mut answers);
    match answered.map_err(|why| refused("the run", why))? {
        all if all == ticks as u64 => Ok(answers.part().to_vec()),
        some => Err(format!("{some} of {ticks} ticks are answered")),
    }
}

fn refused(what: &str, why: Refusal) -> String {
    format!("{what} is refused with {}, place {}", why.number, why.place)
}

/// The first fault, if there is one.
fn fault_of(found: &Result<Books, String>) -> Option<String> {
    match found {
        Err(why) => Some(why.clone()),
        Ok(books) => books.faults.first().map(Fault::to_string),
    }
}

fn show(number: u64, made_up: &MadeUp, fault: &str) {
    println!("first faulty run: {number}, {:?}, {fault}", made_up.kind);
    for (row, offset) in made_up.table.chunks(4).zip(made_up.E()) {
        println!("  T D C K {row:?}, E {offset}");
    }
}

/// The same look at each broken program, until all are noticed.
fn notice_the_broken(seed: u64) -> bool {
    let mut test = SelfTest::new(broken::all());
    for number in 0..RUNS {
        let sound = made_up(seed, number, analyse);
        let sound_passes = broken::sound_books(&sound).faults.is_empty();
        let some_left = test.look(sound_passes, |program| {
            program.shown_by(seed, number, &sound).map(|fault| fault.to_string())
        });
        if !some_left {
            break;
        }
    }
    test.passed("programs")
}
