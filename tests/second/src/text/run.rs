//! The run of a plan as text: what document 01 says of the run program at the end of "Cases". A
//! plan goes through the reader, the analysis, the start of a machine and its ticks; every line
//! is what one of them answered.

#![allow(non_snake_case)]

use crate::answer::Refusal;
use crate::machine::rules::{start, step};
use crate::machine::state::{Machine, Mark, Ran, Row, Stage, Tick, Who, PLACES};
use crate::plan::file::{check, script, table_into};
use crate::tables::analysis::analyse;
use std::io::{self, Read};

const LONGEST_FILE: u64 = 65_536;
const LONGEST_TABLE: usize = 128;
const RECORD: usize = 8;

/// The whole text of a plan, each line with its newline.
pub fn text(file: &[u8]) -> Vec<u8> {
    match text_of_the_run(file) {
        Ok(text) => text.into_bytes(),
        Err(refusal) => refusal_line(refusal).into_bytes(),
    }
}

/// The text of the plan that a stream of bytes brings. One byte too many tells that it is too
/// long, so nothing past that byte is read and the place is the same however much follows.
pub fn text_of_stream(stream: impl Read) -> io::Result<Vec<u8>> {
    let mut file = Vec::new();
    stream.take(LONGEST_FILE + 1).read_to_end(&mut file)?;
    Ok(text(&file))
}

/// The text of an accepted plan, or what the plan or its table is refused with.
fn text_of_the_run(file: &[u8]) -> Result<String, Refusal> {
    check(file)?;
    let table = table_of(file);
    let mut results = [0; 3 * PLACES];
    let tasks = analyse(&table, &mut results)?;
    let mut text = accept_line(tasks);
    for (i, row) in table.chunks(4).enumerate() {
        text += &row_line(i + 1, row, &results[3 * i..3 * i + 3]);
    }
    let mut run = Run::from(start(&table).0);
    for record in script(file).chunks_exact(RECORD) {
        text += &run.line_of(tick_of(record));
    }
    for (i, (row, totals)) in run.machine.rows().iter().zip(&run.totals).enumerate() {
        text += &task_line(i + 1, totals, jobs_still_open(row));
    }
    Ok(text)
}

fn table_of(file: &[u8]) -> Vec<u32> {
    let mut table = vec![0; LONGEST_TABLE];
    let numbers = table_into(file, &mut table) as usize;
    table.truncate(numbers);
    table
}

/// A record that the reader has let through: its early mark is 0 or 1.
fn tick_of(record: &[u8]) -> Tick {
    let mask = u32::from_le_bytes([record[0], record[1], record[2], record[3]]);
    Tick { mask, signal: record[4], early: record[5] == 1 }
}

// What the ticks taken add up to.

#[derive(Clone, Copy, Default)]
struct Totals {
    jobs_arrived: u64,
    guest_outputs: u64,
    hypertask_outputs: u64,
}

/// A machine on its way, with the totals of each task so far.
struct Run {
    machine: Machine,
    totals: [Totals; PLACES],
}

impl Run {
    fn from(machine: Machine) -> Run {
        Run { machine, totals: [Totals::default(); PLACES] }
    }

    /// Takes one tick and tells of it. A refused one leaves the machine as it was, so the next
    /// record comes at the same clock.
    fn line_of(&mut self, tick: Tick) -> String {
        let clock = self.machine.clock;
        let (next, answer) = step(self.machine, tick);
        self.machine = next;
        match answer {
            Ok(ran) => {
                self.count_arrivals(tick.mask);
                self.count_output(ran);
                tick_line(clock, ran)
            }
            Err(refusal) => format!("{clock} {}", refusal_line(refusal)),
        }
    }

    fn count_arrivals(&mut self, mask: u32) {
        for (i, totals) in self.totals.iter_mut().enumerate() {
            totals.jobs_arrived += u64::from(mask >> i & 1);
        }
    }

    /// An output belongs to the task that ran.
    fn count_output(&mut self, ran: Ran) {
        match (ran.mark, ran.who) {
            (Mark::Output, Who::Guest(task)) => self.totals[task - 1].guest_outputs += 1,
            (Mark::Output, Who::Hypertask(task)) => self.totals[task - 1].hypertask_outputs += 1,
            _ => {}
        }
    }
}

/// A task has one job at a time, and that job is open until it gives its output.
fn jobs_still_open(row: &Row) -> u64 {
    match row.stage {
        Stage::Guest { .. } | Stage::Hyper { .. } => 1,
        Stage::Never | Stage::Closed { .. } => 0,
    }
}

// The lines.

fn refusal_line(refusal: Refusal) -> String {
    format!("REFUSE {} {}\n", refusal.number, refusal.place)
}

fn accept_line(tasks: u64) -> String {
    format!("ACCEPT {tasks}\n")
}

fn row_line(task: usize, row: &[u32], results: &[u32]) -> String {
    let [T, D, C, K] = [row[0], row[1], row[2], row[3]];
    let [R, E, G] = [results[0], results[1], results[2]];
    format!("{task} {T} {D} {C} {K} {R} {E} {G}\n")
}

fn tick_line(clock: u64, ran: Ran) -> String {
    let mark = match ran.mark {
        Mark::Output => 'O',
        Mark::BudgetUsedUp => 'S',
        Mark::Neither => '-',
    };
    format!("{clock} {} {mark} {}\n", who_ran(ran.who), u8::from(ran.ignored))
}

fn who_ran(who: Who) -> String {
    match who {
        Who::Guest(task) => format!("G{task}"),
        Who::Hypertask(task) => format!("H{task}"),
        Who::Nobody => "I".to_string(),
    }
}

fn task_line(task: usize, totals: &Totals, open: u64) -> String {
    let Totals { jobs_arrived, guest_outputs, hypertask_outputs } = totals;
    format!("TASK {task} {jobs_arrived} {guest_outputs} {hypertask_outputs} {open}\n")
}
