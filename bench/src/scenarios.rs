//! Machines and ticks to measure.

use crate::calls::run_called;
use crate::machine::numbers::{numbers_of, Numbers, ANSWER};
use crate::machine::state::{Machine, Row, Stage, WITHOUT_ROWS};

/// How many ticks a round has.
pub const TICKS: usize = 4_096;
/// The numbers of rows.
pub const SIZES: [usize; 4] = [1, 4, 16, 32];

/// Ticks to measure.
pub enum Work {
    /// The same tick, with this mask, again and again.
    Same(u32),
    /// These records.
    Records(Vec<u8>),
}

pub struct Scenario {
    pub name: &'static str,
    pub state: Numbers,
    pub work: Work,
}

const LONG: u32 = 1_000_000;
const CLOCK: u64 = 1_000;

pub fn scenarios(rows: usize) -> Vec<Scenario> {
    let all = (u64::MAX >> (64 - rows)) as u32;
    let clock = CLOCK;
    vec![
        idle(rows),
        same("all guests ready", machine(rows, clock, LONG - 1, Stage::Guest { arrival: clock, used: 0 }), 0),
        same(
            "all hypertasks pending",
            machine(rows, clock, 1, Stage::Hyper { arrival: 0, left: LONG.into() }),
            0,
        ),
        arrival_and_enforcement(rows),
        same("refused with 8, first", damaged(rows, 0), 0),
        same("refused with 8, last", damaged(rows, rows - 1), 0),
        same("refused with 9", machine(rows, 1 << 40, 1, Stage::Never), 0),
        same("refused with 11", machine(rows, clock, 1, Stage::Closed { arrival: clock }), all),
        same(
            "refused with 12",
            machine(rows, u64::from(LONG), 1, Stage::Hyper { arrival: 0, left: LONG.into() }),
            all,
        ),
    ]
}

fn same(name: &'static str, machine: Machine, mask: u32) -> Scenario {
    Scenario { name, state: numbers_of(&machine), work: Work::Same(mask) }
}

/// Nobody has arrived.
pub fn idle(rows: usize) -> Scenario {
    same("idle", machine(rows, CLOCK, LONG - 1, Stage::Never), 0)
}

/// One row has no guest budget, so that the state isn't well formed.
fn damaged(rows: usize, place: usize) -> Machine {
    let mut machine = machine(rows, 0, 1, Stage::Never);
    machine.places[place].C = 0;
    machine
}

fn filled(rows: usize, clock: u64, row: Row) -> Machine {
    let mut machine = Machine { count: rows as u64, clock, ..WITHOUT_ROWS };
    machine.places[..rows].fill(row);
    machine
}

/// Rows so long that nothing ends within the ticks measured.
fn machine(rows: usize, clock: u64, offset: u32, stage: Stage) -> Machine {
    filled(rows, clock, Row { T: LONG, D: LONG, C: LONG, K: LONG, E: offset, stage })
}

/// The tasks arrive in turn, one a tick, each with a period of as many ticks as there are rows
/// and enforced in the last of them: so each tick has an arrival, an enforcement and a hypertask
/// that runs and ends. With a single row they come in every other tick.
pub fn arrival_and_enforcement(rows: usize) -> Scenario {
    let period = rows.max(2) as u32;
    let row = Row { T: period, D: period, C: 1, K: 1, E: period - 1, stage: Stage::Never };
    let mut state = numbers_of(&filled(rows, 0, row));
    let until_it_repeats = records(rows, period, 4 * period as usize);
    run_called(&mut state, &until_it_repeats, &mut vec![0; ANSWER * 4 * period as usize]);
    let name = if rows == 1 { "arrival, enforcement" } else { "arrival and enforcement" };
    Scenario { name, state, work: Work::Records(records(rows, period, TICKS)) }
}

fn records(rows: usize, period: u32, number: usize) -> Vec<u8> {
    let mask =
        |tick: usize| if tick % (period as usize) < rows { 1u32 << (tick % period as usize) } else { 0 };
    (0..number).flat_map(|tick| u64::from(mask(tick)).to_le_bytes()).collect()
}

/// The same tick again and again as records.
pub fn as_records(scenario: Scenario) -> Scenario {
    match scenario.work {
        Work::Records(_) => scenario,
        Work::Same(mask) => {
            let records = u64::from(mask).to_le_bytes().repeat(TICKS);
            Scenario { work: Work::Records(records), ..scenario }
        }
    }
}
