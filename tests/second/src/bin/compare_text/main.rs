//! Compares the library's text of a plan with the second program's: its length, its bytes, and
//! every place of what was lent for it, with room enough and with too little.
//!
//!     compare_text [SEED]               the library
//!     compare_text --self-test [SEED]   programs with one fault each: every one must be noticed

mod difference;
#[path = "../library.rs"]
mod library;
mod program;
mod show;
mod stray;
mod tally;

use difference::{compare, Difference};
use program::{Library, Program};
use second::command::compare_main;
use second::self_test::SelfTest;
use second::text::broken::{Text, BROKEN};
use second::text::made_up::{hand_on, Case};
use second::text::run::text;
use show::show;
use std::process::ExitCode;
use stray::STRAY;
use tally::Tally;

fn main() -> ExitCode {
    compare_main("compare_text", compare_with_the_library, notice_the_broken)
}

fn compare_with_the_library(seed: u64) -> bool {
    let mut tally = Tally::default();
    hand_on(seed, &mut |case| {
        let expected = text(&case.file);
        let compared = compare(&Library, &case.file, &expected);
        if let (Err(difference), 0) = (&compared, tally.different) {
            show_first(case, difference);
        }
        tally.count(case, &expected, compared.is_ok());
        true
    });
    println!("the library's text of a plan beside the second program's, seed {seed}");
    tally.is_good()
}

fn show_first(case: &Case, difference: &Difference) {
    println!("first difference, a plan of the kind {:?}: {}", case.kind, difference.words);
    show(&case.file, difference.line);
}

const SECOND: Text = text;

/// The programs with one fault each: in the text itself, or in what is said and written of it.
fn broken_programs() -> Vec<(&'static str, &'static dyn Program)> {
    let broken = BROKEN.iter().map(|(name, program)| (*name, program as &dyn Program));
    let stray = STRAY.iter().map(|(name, program)| (*name, program as &dyn Program));
    broken.chain(stray).collect()
}

/// The same comparison with each broken program in the library's place, until all are noticed.
fn notice_the_broken(seed: u64) -> bool {
    let mut test = SelfTest::new(broken_programs());
    hand_on(seed, &mut |case| {
        let expected = text(&case.file);
        let sound_passes = compare(&SECOND, &case.file, &expected).is_ok();
        test.look(sound_passes, |program| {
            let same = compare(*program, &case.file, &expected).is_ok();
            (!same).then(|| format!("{:?}", case.kind))
        })
    });
    test.passed("texts")
}
