//! Compares the library with the second program in reading and writing plan files: answers,
//! places, parts, written bytes, everything lent with its guards, and both round trips.
//!
//!     compare_plan [SEED]               the library
//!     compare_plan --self-test [SEED]   programs with one fault each: every one must be noticed

mod difference;
#[path = "../library.rs"]
mod library;
mod program;
mod stray;
mod tally;

use difference::{compare, SECOND};
use program::{Library, Program};
use second::command::compare_main;
use second::plan::broken::BROKEN;
use second::plan::made_up::{hand_on, Case};
use second::self_test::SelfTest;
use std::process::ExitCode;
use stray::STRAY;
use tally::Tally;

fn main() -> ExitCode {
    compare_main("compare_plan", compare_with_the_library, notice_the_broken)
}

fn compare_with_the_library(seed: u64) -> bool {
    let mut tally = Tally::default();
    hand_on(seed, &mut |case| {
        match compare(&Library, case) {
            Ok(answer) => tally.count(case, &answer),
            Err(difference) => {
                if tally.different == 0 {
                    show(case, &difference);
                }
                tally.different += 1;
            }
        }
        true
    });
    println!("the library beside the second program on plan files, seed {seed}");
    tally.is_good()
}

fn show(case: &Case, difference: &str) {
    println!("first difference: {difference}");
    match case {
        Case::Reading { kind, file } => {
            println!("  a {kind:?} file of {} bytes, which begins with", file.len());
            for line in file.chunks(16).take(8) {
                println!("  {line:?}");
            }
        }
        Case::Writing { table, script, output } => {
            println!("  writing into {output} bytes a table of {} numbers", table.len());
            println!("  and a script of {} bytes, which begins with", script.len());
            for record in script.chunks(8).take(8) {
                println!("  {record:?}");
            }
        }
    }
}

/// The programs with one fault each: broken in what they reckon, or in where they write.
fn broken_programs() -> Vec<(&'static str, &'static dyn Program)> {
    let broken = BROKEN.iter().map(|(name, program)| (*name, program as &dyn Program));
    let stray = STRAY.iter().map(|(name, program)| (*name, program as &dyn Program));
    broken.chain(stray).collect()
}

/// The same comparison with each broken program in the library's place, until all are noticed.
fn notice_the_broken(seed: u64) -> bool {
    let mut test = SelfTest::new(broken_programs());
    hand_on(seed, &mut |case| {
        let sound_passes = compare(&SECOND, case).is_ok();
        test.look(sound_passes, |program| {
            compare(*program, case).err().map(|difference| difference.to_string())
        })
    });
    test.passed("programs")
}
