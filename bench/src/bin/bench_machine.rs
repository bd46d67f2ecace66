//! Time of a tick: the library's machine beside a plain Rust one of the same layout, by value, on
//! the same machines and ticks. Whether the step is inlined into the loop matters, so it is measured
//! twice: with neither step inlined, as the library is used, and with both.

use bench::calls::*;
use bench::library;
use bench::machine::numbers::{Numbers, ANSWER};
use bench::rounds::{alternate, Times};
use bench::scenarios::{as_records, scenarios, Scenario, Work, SIZES, TICKS};
use std::hint::black_box;
use std::time::Duration;

const ROUNDS: usize = 61;

#[link(name = "pace", kind = "static")]
extern "C" {
    fn tollsalmon_bench_ticks(
        state: *const u64,
        state_len: usize,
        mask: u32,
        signal: u8,
        early: u8,
        times: u64,
    ) -> u64;
}

fn library_repeat(state: &Numbers, (mask, signal, early): (u32, u8, bool), times: u64) -> u64 {
    // SAFETY: the pointer is good for the length given with it.
    unsafe { tollsalmon_bench_ticks(state.as_ptr(), state.len(), mask, signal, early.into(), times) }
}

fn main() {
    println!(
        "ns a tick (best of {ROUNDS} rounds of {TICKS} ticks), and library / Rust by best and by median"
    );
    print_head("neither step inlined: records through tollsalmon_ticks");
    for rows in SIZES {
        for scenario in scenarios(rows) {
            print_line(rows, &as_records(scenario), repeat_called, run_called);
        }
    }
    print_head("both steps inlined: the same tick through tollsalmon_bench_ticks");
    for rows in SIZES {
        for scenario in scenarios(rows).into_iter().filter(|s| matches!(s.work, Work::Same(_))) {
            print_line(rows, &scenario, repeat_inlined, run_inlined);
        }
    }
}

fn print_head(how: &str) {
    println!("\n{how}");
    println!("rows  ticks                     library    Rust   best  median");
}

fn print_line(rows: usize, scenario: &Scenario, repeat: Repeat, run: Run) {
    check(scenario, repeat, run);
    let (library, rust) = measure(scenario, repeat, run);
    let a_tick = |time: Duration| time.as_secs_f64() * 1e9 / TICKS as f64;
    let ratio = |library: Duration, rust: Duration| library.as_secs_f64() / rust.as_secs_f64();
    println!(
        "{rows:>4}  {:<24} {:>8.1} {:>7.1} {:>6.2}  {:>6.2}",
        scenario.name,
        a_tick(library.best()),
        a_tick(rust.best()),
        ratio(library.best(), rust.best()),
        ratio(library.median(), rust.median()),
    );
}

// How it is measured.

/// Library and Rust must say the same, or their times mean nothing.
fn check(scenario: &Scenario, repeat: Repeat, run: Run) {
    let found = result(scenario, library_repeat, library::ticks);
    assert!(found == result(scenario, repeat, run), "{}: different results", scenario.name);
}

fn result(scenario: &Scenario, repeat: Repeat, run: Run) -> (u64, Numbers, Vec<u8>) {
    let (mut state, mut answers) = (scenario.state, vec![0; ANSWER * TICKS]);
    let returned = once(scenario, &mut state, &mut answers, repeat, run);
    (returned, state, answers)
}

fn once(scenario: &Scenario, state: &mut Numbers, answers: &mut [u8], repeat: Repeat, run: Run) -> u64 {
    match &scenario.work {
        Work::Same(mask) => repeat(state, black_box((*mask, 0, false)), TICKS as u64),
        Work::Records(records) => run(state, black_box(records), answers),
    }
}

/// Every round begins with the same machine.
fn measure(scenario: &Scenario, rust_repeat: Repeat, rust_run: Run) -> (Times, Times) {
    let work = |repeat: Repeat, run: Run| {
        let mut answers = vec![0; ANSWER * TICKS];
        move || {
            let mut state = black_box(scenario.state);
            black_box(once(scenario, &mut state, &mut answers, repeat, run));
            black_box(&state);
        }
    };
    alternate(ROUNDS, work(library_repeat, library::ticks), work(rust_repeat, rust_run))
}
