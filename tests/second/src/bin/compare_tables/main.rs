//! Compares the library with the second program, table by table: the answer and every place of
//! the lent results.
//!
//!     compare_tables [SEED]               the library
//!     compare_tables --self-test [SEED]   programs with one fault each: every one must be noticed

mod guests;
#[path = "../library.rs"]
mod library;
mod tally;

use second::answer::Answer;
use second::command::compare_main;
use second::lent::Lent;
use second::self_test::SelfTest;
use second::tables::analysis::analyse;
use second::tables::broken::{Analyse, BROKEN};
use second::tables::made_up::{hand_on, Case};
use std::process::ExitCode;
use tally::Tally;

fn main() -> ExitCode {
    compare_main("compare_tables", compare_with_the_library, notice_the_broken)
}

/// An answer with all that can be seen of it: the results, the table, and their guards.
#[derive(PartialEq, Eq)]
struct Outcome {
    answer: Answer,
    results: Lent<u32>,
    table: Lent<u32>,
}

fn outcome(case: &Case, analyse: impl Fn(&mut Lent<u32>, &mut Lent<u32>) -> Answer) -> Outcome {
    let mut table = Lent::holding(&case.table);
    let mut results = Lent::new(case.results);
    let answer = analyse(&mut table, &mut results);
    Outcome { answer, results, table }
}

fn outcome_of(case: &Case, program: Analyse) -> Outcome {
    outcome(case, |table, results| program(table.part(), results.part_to_write()))
}

fn compare_with_the_library(seed: u64) -> bool {
    let mut tally = Tally::default();
    let mut shown = false;
    hand_on(seed, &mut |case| {
        let expected = outcome_of(case, analyse);
        let found = outcome(case, library::analyse);
        let same = expected == found;
        if !same && !shown {
            show(case, &expected, &found);
            shown = true;
        }
        tally.count(case, &expected.answer, same);
        true
    });
    println!("the library beside the second program, seed {seed}");
    tally.is_good()
}

fn show(case: &Case, expected: &Outcome, found: &Outcome) {
    println!("first difference: a {:?} table of {} numbers", case.kind, case.table.len());
    for row in case.table.chunks(4) {
        println!("  {row:?}");
    }
    println!("  results lent: {} numbers", case.results);
    println!("  second program: {:?}", expected.answer);
    println!("  library:        {:?}", found.answer);
    for difference in expected.results.differences(&found.results) {
        println!("  results, {difference}");
    }
    for difference in expected.table.differences(&found.table) {
        println!("  the table, {difference}");
    }
}

/// The same comparison with each broken program in the library's place, until all are noticed.
fn notice_the_broken(seed: u64) -> bool {
    let mut test = SelfTest::new(BROKEN.to_vec());
    hand_on(seed, &mut |case| {
        let expected = outcome_of(case, analyse);
        let sound_passes = expected == outcome_of(case, analyse);
        test.look(sound_passes, |program| {
            (expected != outcome_of(case, *program)).then(|| format!("{:?}", case.kind))
        })
    });
    test.passed("programs")
}
