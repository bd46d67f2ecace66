//! The machine as numbers, and tick records and answers as bytes: what the library's C interface
//! takes and gives.
//!
//! A machine is 258 numbers: the count of rows, the clock, and 8 for each of the 32 places: T, D,
//! C, K, E, the stage's number, its arrival, and the ticks used or left. A number that the stage
//! has no use for is 0.

use crate::answer::{refusal, Answer};
use crate::machine::state::*;

const IN_A_PLACE: usize = 8;
pub const NUMBERS: usize = 2 + IN_A_PLACE * PLACES;
pub type Numbers = [u64; NUMBERS];
pub const RECORD: usize = 8;
pub const ANSWER: usize = 12;

/// Starts a machine and puts it into the lent numbers. Too few of them are refused first, and
/// then nothing is touched.
pub fn start_into(rules: &Rules, table: &[u32], state: &mut [u64]) -> Answer {
    if state.len() < NUMBERS {
        return Err(refusal(18, NUMBERS));
    }
    let (machine, answer) = (rules.start)(table);
    write(&machine, state);
    answer
}

/// One tick for each whole record that has a whole answer lent to it, and their number. Numbers that
/// are no machine are refused, and then nothing is touched.
pub fn ticks(rules: &Rules, state: &mut [u64], records: &[u8], answers: &mut [u8]) -> Answer {
    let mut machine = read(state).ok_or(refusal(8, 0))?;
    let mut taken = 0;
    for (record, bytes) in records.chunks_exact(RECORD).zip(answers.chunks_exact_mut(ANSWER)) {
        let (next, answer) = (rules.step)(machine, tick_of(given_by(record)));
        bytes.copy_from_slice(&bytes_of(machine.clock, &answer));
        machine = next;
        taken += 1;
    }
    write(&machine, state);
    Ok(taken)
}

/// One tick. Refused in this order: an early mark that is none, too short an answer, numbers that are
/// no machine, what the tick rule refuses; and then nothing is touched.
pub fn step(rules: &Rules, state: &mut [u64], given: Given, answer: &mut [u8]) -> Answer {
    if given.early > 1 {
        return Err(refusal(17, 0));
    }
    if answer.len() < ANSWER {
        return Err(refusal(18, ANSWER));
    }
    let machine = read(state).ok_or(refusal(8, 0))?;
    let (next, said) = (rules.step)(machine, tick_of(given));
    said?;
    answer[..ANSWER].copy_from_slice(&bytes_of(machine.clock, &said));
    write(&next, state);
    Ok(0)
}

/// The machine that the numbers are, unless they are none: too few, one that has no room in its
/// place, or one that has no use there.
pub fn read(state: &[u64]) -> Option<Machine> {
    if state.len() < NUMBERS {
        return None;
    }
    let mut machine = Machine { count: state[0], clock: state[1], ..WITHOUT_ROWS };
    for (row, numbers) in machine.places.iter_mut().zip(state[2..NUMBERS].chunks_exact(IN_A_PLACE)) {
        *row = read_row(numbers)?;
    }
    Some(machine)
}

fn read_row(numbers: &[u64]) -> Option<Row> {
    let field = |place: usize| u32::try_from(numbers[place]).ok();
    let stage = match numbers[5..] {
        [0, 0, 0] => Stage::Never,
        [1, arrival, used] => Stage::Guest { arrival, used },
        [2, arrival, left] => Stage::Hyper { arrival, left },
        [3, arrival, 0] => Stage::Closed { arrival },
        _ => return None,
    };
    Some(Row { T: field(0)?, D: field(1)?, C: field(2)?, K: field(3)?, E: field(4)?, stage })
}

pub fn numbers_of(machine: &Machine) -> Numbers {
    let mut numbers = [0; NUMBERS];
    write(machine, &mut numbers);
    numbers
}

/// The machine as numbers, and nothing past them.
pub fn write(machine: &Machine, state: &mut [u64]) {
    state[0] = machine.count;
    state[1] = machine.clock;
    for (row, numbers) in machine.places.iter().zip(state[2..NUMBERS].chunks_exact_mut(IN_A_PLACE)) {
        numbers.copy_from_slice(&numbers_of_row(row));
    }
}

fn numbers_of_row(row: &Row) -> [u64; IN_A_PLACE] {
    let [t, d, c, k, e] = [row.T, row.D, row.C, row.K, row.E].map(u64::from);
    let (stage, arrival, last) = match row.stage {
        Stage::Never => (0, 0, 0),
        Stage::Guest { arrival, used } => (1, arrival, used),
        Stage::Hyper { arrival, left } => (2, arrival, left),
        Stage::Closed { arrival } => (3, arrival, 0),
    };
    [t, d, c, k, e, stage, arrival, last]
}

/// The record's last two bytes are not looked at.
pub fn given_by(record: &[u8]) -> Given {
    let mask = u32::from_le_bytes([record[0], record[1], record[2], record[3]]);
    Given { mask, signal: record[4], early: record[5] }
}

fn tick_of(given: Given) -> Tick {
    Tick { mask: given.mask, signal: given.signal, early: given.early == 1 }
}

/// The clock before the tick, the refusal's place, who ran, the task or the refusal's number,
/// the mark, and whether a signal was ignored.
fn bytes_of(clock: u64, answer: &TickAnswer) -> [u8; ANSWER] {
    let (place, last) = match answer {
        Ok(ran) => {
            let (who, task) = match ran.who {
                Who::Nobody => (0, 0),
                Who::Guest(task) => (1, task as u8),
                Who::Hypertask(task) => (2, task as u8),
            };
            (0, [who, task, mark_number(ran.mark), ran.ignored.into()])
        }
        Err(refusal) => (refusal.place as u32, [3, refusal.number as u8, 0, 0]),
    };
    let mut bytes = [0; ANSWER];
    bytes[..4].copy_from_slice(&(clock as u32).to_le_bytes());
    bytes[4..8].copy_from_slice(&place.to_le_bytes());
    bytes[8..].copy_from_slice(&last);
    bytes
}

fn mark_number(mark: Mark) -> u8 {
    match mark {
        Mark::Neither => 0,
        Mark::Output => 1,
        Mark::BudgetUsedUp => 2,
    }
}
