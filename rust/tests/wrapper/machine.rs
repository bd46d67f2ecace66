//! The machine: its steps, its stages, and what a refused tick leaves.

use crate::{file, names, refusal, P3};
use tollsalmon::{Answer, Machine, Mark, Plan, Ran, Refusal, Stage, Tick};

const QUIET: Tick = Tick { mask: 0, signal: 0, early: false };

fn p3() -> Machine {
    Machine::start(&P3).unwrap()
}

/// Case P3 with an arrival at clock 0, so many ticks later.
fn p3_at(clock: u64) -> Machine {
    let mut machine = p3();
    machine.step(Tick::arrivals(&[1])).unwrap();
    while machine.clock() < clock {
        machine.step(QUIET).unwrap();
    }
    machine
}

/// The machine with one number changed.
fn with(machine: &Machine, at: usize, number: u64) -> Machine {
    let mut numbers = *machine.numbers();
    numbers[at] = number;
    Machine::from_numbers(numbers)
}

#[test]
fn the_last_good_output_is_one_tick_before_the_hypertask() {
    let signal = Tick { signal: 1, ..QUIET };
    let in_time = Answer { clock: 5, ran: Ran::Guest(1), mark: Mark::Output, ignored: false };
    assert_eq!(p3_at(5).step(signal), Ok(in_time));
    let late = Answer { clock: 6, ran: Ran::Hypertask(1), mark: Mark::Nothing, ignored: true };
    assert_eq!(p3_at(6).step(signal), Ok(late));
    let silent = Answer { clock: 5, ran: Ran::Guest(1), mark: Mark::BudgetUsedUp, ignored: false };
    assert_eq!(p3_at(5).step(QUIET), Ok(silent));
    let early = Answer { clock: 6, ran: Ran::Hypertask(1), mark: Mark::Output, ignored: false };
    assert_eq!(p3_at(6).step(Tick { early: true, ..QUIET }), Ok(early));
}

#[test]
fn a_period_lies_between_two_arrivals() {
    assert_eq!(refusal(p3_at(9).step(Tick::arrivals(&[1]))), (11, 1));
    assert!(p3_at(10).step(Tick::arrivals(&[1])).is_ok());
}

#[test]
fn stages_carry_their_data() {
    let stage = |clock| p3_at(clock).stage(1).unwrap();
    assert_eq!(p3().stage(1), Some(Stage::Never));
    assert_eq!(stage(4), Stage::Guest { arrival: 0, used: 4 });
    assert_eq!(stage(7), Stage::Hyper { arrival: 0, left: 1 });
    assert_eq!(stage(8), Stage::Closed { arrival: 0 });
    assert_eq!([p3().stage(0), p3().stage(2), p3().stage(usize::MAX)], [None; 3]);
}

#[test]
fn numbers_that_are_no_machine_are_still_shown() {
    let many = with(&p3(), 0, u64::MAX);
    assert_eq!((many.stage(32), many.stage(33)), (Some(Stage::Never), None));
    assert_eq!(with(&p3(), 7, 4).stage(1), None);
    let shown = format!("{:?}", with(&p3(), 18, 77));
    let places = "[[10, 8, 6, 2, 6, 0, 0, 0], [0, 0, 0, 0, 0, 0, 0, 0], [77, 0, 0, 0, 0, 0, 0, 0]]";
    assert_eq!(shown, format!("Machine {{ tasks: 1, clock: 0, places: {places} }}"));
}

/// The refusal, the same for a tick in a call of its own and in a row; the machine is as it was.
fn assert_refused(machine: &Machine, tick: Tick, expected: (u32, u64)) {
    let (mut stepped, mut in_a_row) = (machine.clone(), machine.clone());
    assert_eq!(refusal(stepped.step(tick)), expected);
    assert_eq!(refusal(in_a_row.ticks(&[tick]).unwrap()[0]), expected);
    assert_eq!((&stepped, &in_a_row), (machine, machine));
}

#[test]
fn a_refused_tick_leaves_the_machine() {
    let both = Tick { mask: 3, signal: 1, early: true };
    assert_refused(&p3_at(3), both, (10, 2));
    assert_refused(&p3_at(3), Tick::arrivals(&[1]), (11, 1));
    assert_refused(&with(&p3(), 1, 1 << 40), QUIET, (9, 0));
    // A hypertask that is pending when the period is over: no run leaves that.
    let mut pending = *p3_at(6).numbers();
    pending[1] = 10;
    pending[7..10].copy_from_slice(&[2, 0, 2]);
    assert_refused(&Machine::from_numbers(pending), Tick::arrivals(&[1]), (12, 1));
    // Well formed is more than readable: E must be below D.
    assert_refused(&with(&p3(), 6, 8), QUIET, (8, 0));
    assert_refused(&with(&p3(), 0, 0), QUIET, (8, 0));
}

#[test]
fn numbers_that_cant_be_read_are_refused_with_8() {
    // Places begin at 2 and have 8 numbers: T D C K E, stage, arrival, ticks.
    let closed = with(&p3_at(8), 9, 5);
    let unreadable = [
        with(&p3(), 2, 1 << 32),
        with(&p3(), 6, 1 << 32),
        with(&p3(), 7, 4),
        with(&p3(), 8, 77),
        with(&p3(), 9, 77),
        with(&p3(), 48, 123),
        with(&p3(), 257, 1),
        closed,
    ];
    for machine in unreadable {
        let (mut stepped, mut in_a_row) = (machine.clone(), machine.clone());
        assert_eq!(refusal(stepped.step(Tick::arrivals(&[6]))), (8, 0), "{machine:?}");
        assert_eq!(refusal(in_a_row.ticks(&[QUIET; 2])), (8, 0), "{machine:?}");
        assert_eq!((&stepped, &in_a_row), (&machine, &machine));
    }
}

#[test]
fn ticks_in_a_row_are_the_steps() {
    for name in names() {
        let Ok(plan) = Plan::read(&file(&name)) else { continue };
        let Ok(mut stepped) = Machine::start(&plan.table) else { continue };
        let mut in_a_row = stepped.clone();
        let steps: Vec<_> = plan.script.iter().map(|tick| stepped.step(*tick)).collect();
        assert_eq!(in_a_row.ticks(&plan.script), Ok(steps), "{name}");
        assert_eq!(in_a_row, stepped, "{name}");
    }
}

#[test]
fn a_clock_above_32_bits_is_whole() {
    let clock = (1 << 32) - 1;
    let mut machine = with(&p3(), 1, clock);
    let again = Tick::arrivals(&[1]);
    let answers = machine.clone().ticks(&[again, again, QUIET]).unwrap();
    let clocks: Vec<u64> = answers.iter().flatten().map(|answer| answer.clock).collect();
    assert_eq!(clocks, [clock, clock + 1]);
    machine.step(QUIET).unwrap();
    assert_eq!(machine.step(again).unwrap().to_string(), "4294967296 G1 - 0");
    assert_eq!(machine.stage(1), Some(Stage::Guest { arrival: 1 << 32, used: 1 }));
}

#[test]
fn a_machine_that_was_kept_goes_on() -> Result<(), Refusal> {
    let (mut machine, mut kept) = (p3_at(5), Machine::from_numbers(*p3_at(5).numbers()));
    assert_eq!(kept, machine);
    assert_eq!(kept.ticks(&[QUIET; 4])?, machine.ticks(&[QUIET; 4])?);
    assert_eq!((kept.clock(), kept), (9, machine));
    Ok(())
}
