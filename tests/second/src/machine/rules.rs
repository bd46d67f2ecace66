//! The machine that runs an accepted table tick by tick: document 01's "The tick rule", its
//! "well formed" and refusals 8 to 12, in the document's order and with its names. Rows are
//! counted from 0 here and tasks from 1, so the task of row i is i + 1.

#![allow(non_snake_case)]

use crate::answer::{refusal, Answer, Refusal};
use crate::machine::state::*;
use crate::tables::analysis::analyse;

const LARGEST_FIELD: u32 = 1_000_000;

pub const RULES: Rules = Rules { start, step };

/// The instant that many ticks after an arrival. Wide enough for any that is written by hand.
fn later(arrival: u64, ticks: u32) -> u128 {
    u128::from(arrival) + u128::from(ticks)
}

/// Arrival + E.
fn enforcement_instant(row: &Row, arrival: u64) -> u128 {
    later(arrival, row.E)
}

fn is_hyper(row: &Row) -> bool {
    matches!(row.stage, Stage::Hyper { .. })
}

fn is_started_hyper(row: &Row) -> bool {
    matches!(row.stage, Stage::Hyper { left, .. } if left < u64::from(row.K))
}

fn is_guest_with_budget(row: &Row) -> bool {
    matches!(row.stage, Stage::Guest { used, .. } if used < u64::from(row.C))
}

// Starting a machine.

/// At clock 0 with every task Never, or the machine with no rows.
pub fn start(table: &[u32]) -> (Machine, Answer) {
    let mut results = [0; 3 * PLACES];
    match analyse(table, &mut results) {
        Ok(tasks) => (fresh(table, &results), Ok(tasks)),
        Err(refusal) => (WITHOUT_ROWS, Err(refusal)),
    }
}

/// The machine of an accepted table with its results.
pub fn fresh(table: &[u32], results: &[u32]) -> Machine {
    let mut machine = WITHOUT_ROWS;
    machine.count = table.len() as u64 / 4;
    for (i, f) in table.chunks(4).enumerate() {
        let E = results[3 * i + 1];
        machine.places[i] = Row { T: f[0], D: f[1], C: f[2], K: f[3], E, stage: Stage::Never };
    }
    machine
}

// Well formed.

/// A part of "well formed", with document 01's words for it.
pub type Clause = (&'static str, fn(&Machine) -> bool);

pub const WELL_FORMED: &[Clause] = &[
    ("1 to 32 rows", |m| 1 <= m.count && m.count <= 32),
    ("rows within the limits", |m| m.rows().iter().all(is_within_the_limits)),
    ("1 <= E < D", |m| m.rows().iter().all(|row| 1 <= row.E && row.E < row.D)),
    ("clock at most 2^40", |m| m.clock <= LAST_CLOCK),
    ("every arrival at or before the clock", |m| {
        m.rows().iter().filter_map(Row::arrival).all(|arrival| arrival <= m.clock)
    }),
    ("Guest has used <= C", |m| m.rows().iter().all(has_used_at_most_C)),
    ("Guest has clock <= arrival + E", |m| m.rows().iter().all(|row| is_not_past_enforcement(row, m.clock))),
    ("Hyper has 1 to K left", |m| m.rows().iter().all(has_1_to_K_left)),
    ("Hyper has clock > arrival + E", |m| m.rows().iter().all(|row| is_past_enforcement(row, m.clock))),
    ("at most one Hyper has fewer than K left", |m| {
        m.rows().iter().filter(|row| is_started_hyper(row)).count() <= 1
    }),
    ("places past the last row zero and Never", |m| m.past_the_last_row().iter().all(|row| *row == NO_ROW)),
];

pub fn is_well_formed(machine: &Machine) -> bool {
    WELL_FORMED.iter().all(|(_, holds)| holds(machine))
}

fn is_within_the_limits(row: &Row) -> bool {
    let within = |field: u32| (1..=LARGEST_FIELD).contains(&field);
    within(row.T) && within(row.D) && within(row.C) && within(row.K) && row.D <= row.T
}

fn has_used_at_most_C(row: &Row) -> bool {
    match row.stage {
        Stage::Guest { used, .. } => used <= u64::from(row.C),
        _ => true,
    }
}

fn is_not_past_enforcement(row: &Row, clock: u64) -> bool {
    match row.stage {
        Stage::Guest { arrival, .. } => u128::from(clock) <= enforcement_instant(row, arrival),
        _ => true,
    }
}

fn has_1_to_K_left(row: &Row) -> bool {
    match row.stage {
        Stage::Hyper { left, .. } => 1 <= left && left <= u64::from(row.K),
        _ => true,
    }
}

fn is_past_enforcement(row: &Row, clock: u64) -> bool {
    match row.stage {
        Stage::Hyper { arrival, .. } => u128::from(clock) > enforcement_instant(row, arrival),
        _ => true,
    }
}

// The tick.

/// The machine after the tick and the answer; a refused tick returns the machine it was given.
pub fn step(machine: Machine, tick: Tick) -> (Machine, TickAnswer) {
    match check(&machine, tick.mask) {
        Ok(()) => {
            let (next, ran) = taken(machine, tick);
            (next, Ok(ran))
        }
        Err(refusal) => (machine, Err(refusal)),
    }
}

/// Refusals 8 to 12, by number and against the machine as it was handed in.
fn check(machine: &Machine, mask: u32) -> Result<(), Refusal> {
    if !is_well_formed(machine) {
        return Err(refusal(8, 0));
    }
    if machine.clock == LAST_CLOCK {
        return Err(refusal(9, 0));
    }
    let places = &machine.places;
    refuse_lowest(10, mask, |i| i >= machine.number_of_rows())?;
    refuse_lowest(11, mask, |i| is_too_soon_after_the_last(&places[i], machine.clock))?;
    refuse_lowest(12, mask, |i| is_hyper(&places[i]))
}

fn refuse_lowest(number: u32, mask: u32, is_refused: impl Fn(usize) -> bool) -> Result<(), Refusal> {
    match (0..PLACES).find(|&i| is_named(mask, i) && is_refused(i)) {
        Some(i) => Err(refusal(number, i + 1)),
        None => Ok(()),
    }
}

fn is_named(mask: u32, i: usize) -> bool {
    mask >> i & 1 == 1
}

fn is_too_soon_after_the_last(row: &Row, clock: u64) -> bool {
    match row.arrival() {
        Some(last) => u128::from(clock) < later(last, row.T),
        None => false,
    }
}

/// The five steps of an accepted tick.
fn taken(mut machine: Machine, tick: Tick) -> (Machine, Ran) {
    let c = machine.clock;
    for row in machine.rows_mut() {
        enforce(row, c);
    }
    for (i, row) in machine.rows_mut().iter_mut().enumerate() {
        if is_named(tick.mask, i) {
            row.stage = Stage::Guest { arrival: c, used: 0 };
        }
    }
    let who = who_runs(machine.rows());
    let ran = run(machine.rows_mut(), who, tick);
    machine.clock = c + 1;
    (machine, ran)
}

fn enforce(row: &mut Row, c: u64) {
    if let Stage::Guest { arrival, .. } = row.stage {
        if enforcement_instant(row, arrival) == u128::from(c) {
            row.stage = Stage::Hyper { arrival, left: row.K.into() };
        }
    }
}

fn who_runs(rows: &[Row]) -> Who {
    let first = |is_wanted: fn(&Row) -> bool| rows.iter().position(is_wanted);
    if let Some(i) = first(is_started_hyper) {
        Who::Hypertask(i + 1)
    } else if let Some(i) = first(is_hyper) {
        Who::Hypertask(i + 1)
    } else if let Some(i) = first(is_guest_with_budget) {
        Who::Guest(i + 1)
    } else {
        Who::Nobody
    }
}

fn run(rows: &mut [Row], who: Who, tick: Tick) -> Ran {
    let signalled = tick.signal != 0;
    match who {
        Who::Hypertask(task) => {
            let mark = run_hypertask(&mut rows[task - 1], tick.early);
            Ran { who, mark, ignored: signalled }
        }
        Who::Guest(task) => {
            let its_own = usize::from(tick.signal) == task;
            let mark = run_guest(&mut rows[task - 1], its_own);
            Ran { who, mark, ignored: signalled && !its_own }
        }
        Who::Nobody => Ran { who, mark: Mark::Neither, ignored: signalled },
    }
}

fn run_hypertask(row: &mut Row, early: bool) -> Mark {
    let Stage::Hyper { arrival, left } = row.stage else { unreachable!() };
    let left = left.saturating_sub(1);
    if left == 0 || early {
        row.stage = Stage::Closed { arrival };
        Mark::Output
    } else {
        row.stage = Stage::Hyper { arrival, left };
        Mark::Neither
    }
}

fn run_guest(row: &mut Row, signalled: bool) -> Mark {
    let Stage::Guest { arrival, used } = row.stage else { unreachable!() };
    let used = used + 1;
    if signalled {
        row.stage = Stage::Closed { arrival };
        return Mark::Output;
    }
    row.stage = Stage::Guest { arrival, used };
    if used == u64::from(row.C) {
        Mark::BudgetUsedUp
    } else {
        Mark::Neither
    }
}
