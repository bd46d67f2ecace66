//! Made-up runs from a fresh start: a table that an analysis accepts, the machine that it starts,
//! and a script in which several jobs of several tasks become due.

#![allow(non_snake_case)]

use crate::dice::Dice;
use crate::machine::made_up::table_accepted_by;
use crate::machine::rules::fresh;
use crate::machine::scripts::{pressing_script, script};
use crate::machine::state::{Machine, PLACES};
use crate::tables::broken::Analyse;

/// How many runs one comparison makes up; the kinds take turns.
pub const RUNS: u64 = 24_000;

#[derive(Clone, Copy, Debug, PartialEq, Eq)]
pub enum Kind {
    /// Arrivals, signals and early marks of every habit.
    AnyScript,
    /// Arrivals as soon as allowed, silent guests, hypertasks that end at 0 alone, and mostly a
    /// small table with no room for more.
    Pressing,
}

pub const KINDS: [Kind; 2] = [Kind::AnyScript, Kind::Pressing];

pub struct MadeUp {
    pub kind: Kind,
    pub table: Vec<u32>,
    /// The machine at clock 0.
    pub machine: Machine,
    pub records: Vec<u8>,
}

impl MadeUp {
    /// The E of each row.
    pub fn E(&self) -> Vec<u32> {
        self.machine.rows().iter().map(|row| row.E).collect()
    }
}

/// The run of this number, on a table that this analysis accepts and with its E.
pub fn made_up(seed: u64, number: u64, analyse: Analyse) -> MadeUp {
    let dice = &mut Dice::new(seed.wrapping_mul(RUNS).wrapping_add(number));
    let kind = KINDS[number as usize % KINDS.len()];
    let table = table(dice, kind, analyse);
    let machine = started(&table, analyse).expect("an accepted table");
    let ticks = number_of_ticks(dice, &table);
    let records = match kind {
        Kind::AnyScript => script(dice, machine, ticks).0,
        Kind::Pressing => pressing_script(dice, machine, ticks),
    };
    MadeUp { kind, table, machine, records }
}

/// The fresh machine with the E of this analysis, where it accepts the table.
fn started(table: &[u32], analyse: Analyse) -> Option<Machine> {
    let mut results = [0; 3 * PLACES];
    analyse(table, &mut results).ok().map(|_| fresh(table, &results))
}

fn table(dice: &mut Dice, kind: Kind, analyse: Analyse) -> Vec<u32> {
    let accepts = |table: &[u32]| started(table, analyse).is_some();
    match kind {
        Kind::Pressing if dice.percent(90) => {
            let rows = dice.from_to(1, 4);
            let table = table_accepted_by(dice, rows, &accepts);
            filled(dice, table, &accepts)
        }
        _ => {
            let rows = if dice.percent(50) { dice.from_to(1, 32) } else { dice.of_any_size(1, 32) };
            table_accepted_by(dice, rows, &accepts)
        }
    }
}

/// Some C and K made as long as the table allows.
fn filled(dice: &mut Dice, mut table: Vec<u32>, accepts: &dyn Fn(&[u32]) -> bool) -> Vec<u32> {
    let rows = table.len() as u64 / 4;
    for _ in 0..rows {
        let place = 4 * dice.from_to(0, rows - 1) as usize + dice.one_of(&[2, 2, 3]);
        while accepts(&table) {
            table[place] += 1;
        }
        table[place] -= 1;
    }
    table
}

/// Some periods of the third task that comes often, or of the last one where there are fewer, and
/// then some of the task that comes most rarely, if that isn't too long.
fn number_of_ticks(dice: &mut Dice, table: &[u32]) -> u64 {
    let mut periods: Vec<u64> = table.chunks(4).map(|row| row[0].into()).collect();
    periods.sort_unstable();
    let third = periods[2.min(periods.len() - 1)];
    let longest = periods[periods.len() - 1];
    (3 * third).max(dice.from_to(3 * longest, 9 * longest).min(400))
}
