//! Time of one tick a call: tollsalmon_step, through C and through the wrapper, beside a plain Rust
//! step on the same 258 numbers, and beside the same ticks in one call of tollsalmon_ticks.

use bench::answer::Answer;
use bench::machine::numbers::{given_by, Numbers, ANSWER, RECORD};
use bench::machine::state::Given;
use bench::rounds::{in_turn, Times};
use bench::scenarios::{arrival_and_enforcement, as_records, idle, Scenario, Work, SIZES, TICKS};
use bench::{calls, library};
use std::hint::black_box;
use std::time::Duration;
use tollsalmon::{Machine, Tick};

const ROUNDS: usize = 61;

fn main() {
    println!("one tick a call: ns a tick (best of {ROUNDS} rounds of {TICKS} ticks)");
    println!("                                     library  wrapper    Rust      step / run    step / Rust");
    println!(
        "rows  ticks                       step     run     step    step    best  median   best  median"
    );
    for rows in SIZES {
        for scenario in [idle(rows), arrival_and_enforcement(rows)] {
            let ticks = Ticks::of(scenario);
            check(&ticks);
            print_line(rows, &ticks, measure(&ticks));
        }
    }
}

/// The same ticks for every program: as records, and one by one.
struct Ticks {
    name: &'static str,
    state: Numbers,
    records: Vec<u8>,
    given: Vec<Given>,
}

impl Ticks {
    fn of(scenario: Scenario) -> Ticks {
        let Scenario { name, state, work } = as_records(scenario);
        let Work::Records(records) = work else { unreachable!() };
        let given = records.chunks_exact(RECORD).map(given_by).collect();
        Ticks { name, state, records, given }
    }
}

/// Each tick by itself; every round begins with the same machine.
fn by_steps(ticks: &Ticks, step: impl Fn(&mut Numbers, Given, &mut [u8]) -> Answer) {
    let (mut state, mut answer) = (black_box(ticks.state), [0; ANSWER]);
    for given in &ticks.given {
        let _ = black_box(step(&mut state, *given, &mut answer));
        black_box(&answer);
    }
    black_box(&state);
}

/// The same through the wrapper.
fn by_wrapper(ticks: &Ticks) {
    let mut machine = black_box(Machine::from_numbers(ticks.state));
    for given in &ticks.given {
        let _ = black_box(machine.step(tick_of(*given)));
    }
    black_box(&machine);
}

fn tick_of(given: Given) -> Tick {
    Tick { mask: given.mask, signal: given.signal, early: given.early == 1 }
}

/// The library's step and its run, the wrapper's step, then plain Rust's.
fn measure(ticks: &Ticks) -> [Times; 4] {
    let mut answers = vec![0; ANSWER * TICKS];
    let mut run = || {
        let mut state = black_box(ticks.state);
        black_box(library::ticks(&mut state, &ticks.records, &mut answers));
        black_box((&state, &answers));
    };
    let mut step = || by_steps(ticks, library::step);
    let mut rust = || by_steps(ticks, calls::step);
    in_turn(ROUNDS, [&mut step, &mut run, &mut || by_wrapper(ticks), &mut rust])
}

/// All of them must say the same, or their times mean nothing.
fn check(ticks: &Ticks) {
    let mut answers = vec![0; ANSWER * TICKS];
    let mut states = [ticks.state; 3];
    assert_eq!(library::ticks(&mut states[0], &ticks.records, &mut answers), TICKS as u64);
    for (given, expected) in ticks.given.iter().zip(answers.chunks_exact(ANSWER)) {
        let mut said = [[0; ANSWER]; 2];
        assert_eq!(library::step(&mut states[1], *given, &mut said[0]), Ok(0), "{}", ticks.name);
        assert_eq!(calls::step(&mut states[2], *given, &mut said[1]), Ok(0), "{}", ticks.name);
        assert_eq!(said, [expected; 2], "{}: different answers", ticks.name);
    }
    assert!(states[1..] == [states[0]; 2], "{}: different machines", ticks.name);
    let mut machine = Machine::from_numbers(ticks.state);
    for given in &ticks.given {
        machine.step(tick_of(*given)).expect(ticks.name);
    }
    assert_eq!(*machine.numbers(), states[0], "{}: the wrapper's machine is different", ticks.name);
}

fn print_line(rows: usize, ticks: &Ticks, [step, run, wrapper, rust]: [Times; 4]) {
    let a_tick = |times: &Times| times.best().as_secs_f64() * 1e9 / TICKS as f64;
    let ratio = |a: Duration, b: Duration| a.as_secs_f64() / b.as_secs_f64();
    println!(
        "{rows:>4}  {:<24} {:>7.1} {:>7.1}  {:>7.1} {:>7.1}  {:>6.2}  {:>6.2} {:>6.2}  {:>6.2}",
        ticks.name,
        a_tick(&step),
        a_tick(&run),
        a_tick(&wrapper),
        a_tick(&rust),
        ratio(step.best(), run.best()),
        ratio(step.median(), run.median()),
        ratio(step.best(), rust.best()),
        ratio(step.median(), rust.median()),
    );
}
