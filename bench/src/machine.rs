//! The machine as one would write it in plain Rust: rows and their stages by value, one walk over
//! the rows for what must hold of a state, one over the arrivals and one for the tick. What a machine
//! is, and its numbers, are the second program's. The tick is not: that one is written to be read
//! beside document 01, clause by clause, this one to be fast.

#[path = "../../tests/second/src/machine/numbers.rs"]
pub mod numbers;
#[path = "../../tests/second/src/machine/state.rs"]
pub mod state;

use crate::analysis::LARGEST_FIELD;
use state::{Machine, Mark, Row, Stage, LAST_CLOCK, NO_ROW, PLACES};

#[derive(Clone, Copy, Debug, PartialEq, Eq)]
pub enum Who {
    Nobody,
    Guest,
    Hypertask,
    Refused,
}

/// Who ran and what came of it, or the number and the place of a refusal.
#[derive(Clone, Copy, Debug, PartialEq, Eq)]
pub struct Answer {
    pub who: Who,
    pub task_or_number: u8,
    pub mark: Mark,
    pub ignored: bool,
    pub place: u32,
}

pub struct Stepped {
    pub machine: Machine,
    pub answer: Answer,
}

impl Row {
    fn is_well_formed(&self, clock: u64) -> bool {
        let within = |field: u32| (1..=LARGEST_FIELD).contains(&field);
        let fields = within(self.T) && within(self.D) && within(self.C) && within(self.K);
        if !fields || self.D > self.T || self.E < 1 || self.E >= self.D {
            return false;
        }
        let offset = u64::from(self.E);
        match self.stage {
            Stage::Never => true,
            Stage::Guest { arrival, used } => {
                arrival <= clock && used <= self.C.into() && clock <= arrival + offset
            }
            Stage::Hyper { arrival, left } => {
                arrival <= clock && 1 <= left && left <= self.K.into() && clock > arrival + offset
            }
            Stage::Closed { arrival } => arrival <= clock,
        }
    }

    fn is_started(&self) -> bool {
        matches!(self.stage, Stage::Hyper { left, .. } if left < self.K.into())
    }
}

impl Answer {
    fn refused(number: u8, place: u32) -> Answer {
        Answer { who: Who::Refused, task_or_number: number, mark: Mark::Neither, ignored: false, place }
    }

    /// All that the answer says but the place, as one number.
    pub fn sum(&self) -> u64 {
        self.who as u64 + u64::from(self.task_or_number) + self.mark as u64 + u64::from(self.ignored)
    }

    pub fn bytes(&self, clock: u64) -> [u8; 12] {
        let [a, b, c, d] = (clock as u32).to_le_bytes();
        let [e, f, g, h] = self.place.to_le_bytes();
        [a, b, c, d, e, f, g, h, self.who as u8, self.task_or_number, self.mark as u8, self.ignored.into()]
    }
}

impl Machine {
    #[inline(never)]
    pub fn step_called(self, mask: u32, signal: u8, early: bool) -> Stepped {
        self.step_inlined(mask, signal, early)
    }

    #[inline(always)]
    pub fn step_inlined(mut self, mask: u32, signal: u8, early: bool) -> Stepped {
        let answer = match self.refusal(mask) {
            Some(refused) => refused,
            None => self.take(mask, signal, early),
        };
        Stepped { machine: self, answer }
    }

    #[inline(always)]
    fn refusal(&self, mask: u32) -> Option<Answer> {
        if !self.is_well_formed() {
            return Some(Answer::refused(8, 0));
        }
        if self.clock == LAST_CLOCK {
            return Some(Answer::refused(9, 0));
        }
        let past = u64::from(mask) >> self.count;
        if past != 0 {
            return Some(Answer::refused(10, self.count as u32 + past.trailing_zeros() + 1));
        }
        let mut hyper = None;
        let mut left = mask;
        while left != 0 {
            let i = left.trailing_zeros();
            let row = &self.places[i as usize];
            let last = match row.stage {
                Stage::Never => None,
                Stage::Guest { arrival, .. } | Stage::Closed { arrival } => Some(arrival),
                Stage::Hyper { arrival, .. } => {
                    hyper = hyper.or(Some(i));
                    Some(arrival)
                }
            };
            if last.is_some_and(|last| self.clock - last < row.T.into()) {
                return Some(Answer::refused(11, i + 1));
            }
            left &= left - 1;
        }
        hyper.map(|i| Answer::refused(12, i + 1))
    }

    #[inline(always)]
    fn is_well_formed(&self) -> bool {
        if self.count < 1 || self.count > PLACES as u64 || self.clock > LAST_CLOCK {
            return false;
        }
        let (rows, rest) = self.places.split_at(self.count as usize);
        let mut started = 0;
        for row in rows {
            if !row.is_well_formed(self.clock) {
                return false;
            }
            started += u32::from(row.is_started());
        }
        started <= 1 && rest.iter().all(|row| *row == NO_ROW)
    }

    #[inline(always)]
    fn take(&mut self, mask: u32, signal: u8, early: bool) -> Answer {
        let clock = self.clock;
        let (mut started, mut hyper, mut guest) = (None, None, None);
        for (i, row) in self.places[..self.count as usize].iter_mut().enumerate() {
            if let Stage::Guest { arrival, .. } = row.stage {
                if arrival + u64::from(row.E) == clock {
                    row.stage = Stage::Hyper { arrival, left: row.K.into() };
                }
            }
            if mask >> i & 1 == 1 {
                row.stage = Stage::Guest { arrival: clock, used: 0 };
            }
            match row.stage {
                Stage::Hyper { left, .. } => {
                    if left < row.K.into() {
                        started = Some(i);
                    }
                    hyper = hyper.or(Some(i));
                }
                Stage::Guest { used, .. } if used < row.C.into() => guest = guest.or(Some(i)),
                _ => {}
            }
        }
        self.clock = clock + 1;
        if let Some(i) = started.or(hyper) {
            self.run_hypertask(i, signal, early)
        } else if let Some(i) = guest {
            self.run_guest(i, signal)
        } else {
            Answer {
                who: Who::Nobody,
                task_or_number: 0,
                mark: Mark::Neither,
                ignored: signal != 0,
                place: 0,
            }
        }
    }

    #[inline(always)]
    fn run_hypertask(&mut self, i: usize, signal: u8, early: bool) -> Answer {
        let row = &mut self.places[i];
        let mut mark = Mark::Neither;
        if let Stage::Hyper { arrival, left } = row.stage {
            if left == 1 || early {
                row.stage = Stage::Closed { arrival };
                mark = Mark::Output;
            } else {
                row.stage = Stage::Hyper { arrival, left: left - 1 };
            }
        }
        Answer { who: Who::Hypertask, task_or_number: i as u8 + 1, mark, ignored: signal != 0, place: 0 }
    }

    #[inline(always)]
    fn run_guest(&mut self, i: usize, signal: u8) -> Answer {
        let row = &mut self.places[i];
        let task = i as u8 + 1;
        let mut mark = Mark::Neither;
        if let Stage::Guest { arrival, used } = row.stage {
            if signal == task {
                row.stage = Stage::Closed { arrival };
                mark = Mark::Output;
            } else {
                row.stage = Stage::Guest { arrival, used: used + 1 };
                if used + 1 == row.C.into() {
                    mark = Mark::BudgetUsedUp;
                }
            }
        }
        let ignored = signal != 0 && signal != task;
        Answer { who: Who::Guest, task_or_number: task, mark, ignored, place: 0 }
    }
}
