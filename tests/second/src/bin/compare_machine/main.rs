//! Compares the library's machine with the second program's, case by case: the answers of the
//! start and of every tick, in a run and by itself, the whole machine after each call, and every
//! place around them.
//!
//!     compare_machine [SEED]               the library
//!     compare_machine --self-test [SEED]   machines with one fault each: every one must be noticed

#[path = "../library.rs"]
mod library;
mod outcome;
mod steps;
mod tally;

use outcome::{outcome, Called, Library, Outcome, Stepped};
use second::command::compare_main;
use second::lent::{Lent, Pattern};
use second::machine::broken::{BROKEN, SECOND};
use second::machine::damages::DAMAGES;
use second::machine::made_up::{hand_on, Begin, Case};
use second::machine::numbers::{ticks, ANSWER, NUMBERS, RECORD};
use second::machine::rules::RULES;
use second::self_test::SelfTest;
use std::process::ExitCode;
use tally::Tally;

fn main() -> ExitCode {
    compare_main("compare_machine", compare_with_the_library, notice_the_broken)
}

fn compare_with_the_library(seed: u64) -> bool {
    let mut tally = Tally::default();
    let mut shown = false;
    hand_on(seed, &mut |case| {
        let expected = outcome(case, &SECOND);
        let found = outcome(case, &Library);
        let same = expected == found;
        if !same && !shown {
            show(case, &expected, &found);
            shown = true;
        }
        tally.count(case, &expected, same);
        true
    });
    println!("the library's machine beside the second program's, seed {seed}");
    tally.is_good()
}

fn show(case: &Case, expected: &Outcome, found: &Outcome) {
    println!("first difference: a machine of the kind {:?}", case.kind);
    if let Some(damage) = case.damage {
        println!("  damage: {}", DAMAGES[damage].name);
    }
    if let Begin::Table(table, length) = &case.begin {
        println!("  started with {table:?}, {length} numbers lent");
        println!("  second program: {:?}", expected.start);
        println!("  library:        {:?}", found.start);
    }
    show_differences("the table", &expected.table, &found.table);
    show_differences("the machine before the first call", &expected.begin, &found.begin);
    let calls = expected.calls.iter().zip(&found.calls).enumerate();
    if let Some((number, (expected, found))) = calls.into_iter().find(|(_, (mine, others))| mine != others) {
        println!("  in call {number}");
        show_call(case, number, expected, found);
    }
}

fn show_call(case: &Case, number: usize, expected: &Called, found: &Called) {
    if let (Some(expected), Some(found)) = (&expected.stepped, &found.stepped) {
        show_step(case, number, expected, found);
    }
    println!("  returned: second program {:?}, library {:?}", expected.returned, found.returned);
    show_differences("the records", &expected.records, &found.records);
    let answers =
        |called: &Called| called.answers.part().chunks(ANSWER).map(<[u8]>::to_vec).collect::<Vec<_>>();
    let (mine, others) = (answers(expected), answers(found));
    if let Some(tick) = (0..mine.len()).find(|&tick| mine[tick] != others[tick]) {
        println!("  answer {tick}: second program {:?}, library {:?}", mine[tick], others[tick]);
        show_before(case, number, tick);
        return;
    }
    show_differences("answers", &expected.answers, &found.answers);
    show_differences("the machine", &expected.state, &found.state);
}

fn show_step(case: &Case, number: usize, expected: &Stepped, found: &Stepped) {
    if expected == found {
        return;
    }
    println!("  stepped before it: second program {:?}, library {:?}", expected.returned, found.returned);
    show_differences("the step's answer", &expected.answer, &found.answer);
    show_differences("the machine stepped", &expected.state, &found.state);
    show_before(case, number, 0);
}

/// The machine that the tick came to, and the tick.
fn show_before(case: &Case, number: usize, tick: usize) {
    let begun = outcome(&Case { calls: vec![], begin: begin_of(case), ..*case }, &SECOND);
    let mut state = begun.begin.part().to_vec();
    let mut take = |records: &[u8], answers: usize| {
        let _ = ticks(&RULES, &mut state, records, &mut vec![0; answers]);
    };
    for call in &case.calls[..number] {
        take(&call.records, call.answers);
    }
    let records = &case.calls[number].records;
    take(&records[..RECORD * tick], ANSWER * tick);
    println!("  its record: {:?}", &records[RECORD * tick..RECORD * (tick + 1)]);
    if state.len() < NUMBERS {
        println!("  before it: {} numbers", state.len());
        return;
    }
    println!("  before it: count {}, clock {}", state[0], state[1]);
    for (i, place) in state[2..NUMBERS].chunks(8).enumerate().filter(|(_, place)| **place != [0; 8]) {
        println!("    {}: T D C K E {:?}, stage {}, {:?}", i + 1, &place[..5], place[5], &place[6..]);
    }
}

fn begin_of(case: &Case) -> Begin {
    match &case.begin {
        Begin::Table(table, length) => Begin::Table(table.clone(), *length),
        Begin::Numbers(numbers) => Begin::Numbers(numbers.clone()),
    }
}

fn show_differences<T: Pattern>(what: &str, expected: &Lent<T>, found: &Lent<T>) {
    for difference in expected.differences(found) {
        println!("  {what}, {difference}");
    }
}

/// The same comparison with each broken machine in the library's place, until all are noticed.
fn notice_the_broken(seed: u64) -> bool {
    let mut test = SelfTest::new(BROKEN.to_vec());
    hand_on(seed, &mut |case| {
        let expected = outcome(case, &SECOND);
        let sound_passes = expected == outcome(case, &SECOND);
        test.look(sound_passes, |program| {
            (expected != outcome(case, program)).then(|| format!("{:?}", case.kind))
        })
    });
    test.passed("machines")
}
