//! What a machine is: its rows, the E of each, the clock and each task's stage, and what a tick
//! brings and is answered with.

#![allow(non_snake_case)]

use crate::answer::{Answer, Refusal};

/// The places for rows that a machine has, whatever the number of its rows.
pub const PLACES: usize = 32;
pub const LAST_CLOCK: u64 = 1 << 40;

/// What a task is doing, with the data that belongs to it.
#[derive(Clone, Copy, Debug, PartialEq, Eq)]
pub enum Stage {
    Never,
    Guest { arrival: u64, used: u64 },
    Hyper { arrival: u64, left: u64 },
    Closed { arrival: u64 },
}

#[derive(Clone, Copy, Debug, PartialEq, Eq)]
pub struct Row {
    pub T: u32,
    pub D: u32,
    pub C: u32,
    pub K: u32,
    pub E: u32,
    pub stage: Stage,
}

/// What stands in a place past the last row.
pub const NO_ROW: Row = Row { T: 0, D: 0, C: 0, K: 0, E: 0, stage: Stage::Never };

#[derive(Clone, Copy, Debug, PartialEq, Eq)]
pub struct Machine {
    pub count: u64,
    pub clock: u64,
    pub places: [Row; PLACES],
}

/// The machine with no rows.
pub const WITHOUT_ROWS: Machine = Machine { count: 0, clock: 0, places: [NO_ROW; PLACES] };

#[derive(Clone, Copy, Debug, PartialEq, Eq)]
pub struct Tick {
    /// Bit 0 is task 1.
    pub mask: u32,
    /// 0 for none.
    pub signal: u8,
    pub early: bool,
}

/// A tick as it is given: any byte may stand for its early mark.
#[derive(Clone, Copy, Debug, PartialEq, Eq)]
pub struct Given {
    pub mask: u32,
    pub signal: u8,
    pub early: u8,
}

/// Who ran, with the task.
#[derive(Clone, Copy, Debug, PartialEq, Eq)]
pub enum Who {
    Nobody,
    Guest(usize),
    Hypertask(usize),
}

#[derive(Clone, Copy, Debug, PartialEq, Eq)]
pub enum Mark {
    Neither,
    Output,
    BudgetUsedUp,
}

/// The answer to an accepted tick.
#[derive(Clone, Copy, Debug, PartialEq, Eq)]
pub struct Ran {
    pub who: Who,
    pub mark: Mark,
    pub ignored: bool,
}

pub type TickAnswer = Result<Ran, Refusal>;

impl Machine {
    /// A machine built by hand may claim any number of rows; there are never more than places.
    pub fn number_of_rows(&self) -> usize {
        self.count.min(PLACES as u64) as usize
    }

    pub fn rows(&self) -> &[Row] {
        &self.places[..self.number_of_rows()]
    }

    pub fn rows_mut(&mut self) -> &mut [Row] {
        let rows = self.number_of_rows();
        &mut self.places[..rows]
    }

    pub fn past_the_last_row(&self) -> &[Row] {
        &self.places[self.number_of_rows()..]
    }
}

impl Row {
    /// The last arrival, if there was one.
    pub fn arrival(&self) -> Option<u64> {
        match self.stage {
            Stage::Never => None,
            Stage::Guest { arrival, .. } | Stage::Hyper { arrival, .. } | Stage::Closed { arrival } => {
                Some(arrival)
            }
        }
    }
}

/// What a program does with machines: it starts one with a table, and takes a tick.
#[derive(Clone, Copy)]
pub struct Rules {
    pub start: fn(&[u32]) -> (Machine, Answer),
    pub step: fn(Machine, Tick) -> (Machine, TickAnswer),
}
