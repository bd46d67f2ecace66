//! Demand 3, job by job: books every output to its job from the tick records and the answers
//! alone, and says which job breaks the demand. Nothing of the machine's state is looked at.

#![allow(non_snake_case)]

use crate::machine::numbers::{ANSWER, RECORD};
use std::fmt;

/// What is seen of a run from a fresh start: the table with the E of each row, the tick records
/// and an answer for each.
pub struct Run<'a> {
    pub table: &'a [u32],
    pub E: &'a [u32],
    pub records: &'a [u8],
    pub answers: &'a [u8],
}

/// A row, by its task, and the taken tick whose mask names it. Taken ticks are numbered from 0.
#[derive(Clone, Copy, Debug, PartialEq, Eq)]
pub struct Job {
    pub task: usize,
    pub arrival: u64,
}

#[derive(Clone, Copy, Debug, PartialEq, Eq)]
pub enum Giver {
    Guest,
    Hypertask,
}

/// What is wrong, in which job and in which taken tick; by the record's number where no tick is
/// taken for certain.
#[derive(Clone, Copy, Debug, PartialEq, Eq)]
pub enum Fault {
    NoAnswer { record: usize },
    Clock { record: usize, reads: u32, taken: u64 },
    NoArrival { task: usize, tick: u64 },
    MoreThanOne { job: Job, tick: u64 },
    None { job: Job, due: u64 },
    LateGuest { job: Job, tick: u64, enforcement: u64 },
    LateHypertask { job: Job, tick: u64, due: u64 },
    CutOff { job: Job, ran: u64, enforcement: u64 },
    Eight { record: usize },
}

impl Fault {
    /// Two faults don't: they break what stands beside it, that a guest without an output has run
    /// C ticks at its enforcement instant, and that a fresh machine never comes to refusal 8.
    pub fn breaks_demand_3(&self) -> bool {
        !matches!(self, Fault::CutOff { .. } | Fault::Eight { .. })
    }
}

impl fmt::Display for Job {
    fn fmt(&self, f: &mut fmt::Formatter) -> fmt::Result {
        write!(f, "task {}'s job of tick {}", self.task, self.arrival)
    }
}

impl fmt::Display for Fault {
    fn fmt(&self, f: &mut fmt::Formatter) -> fmt::Result {
        match self {
            Fault::NoAnswer { record } => write!(f, "record {record}: no answer to a tick"),
            Fault::Clock { record, reads, taken } => {
                write!(f, "record {record}: the clock reads {reads} after {taken} ticks")
            }
            Fault::NoArrival { task, tick } => {
                write!(f, "tick {tick}: an output of task {task}, which has not arrived")
            }
            Fault::MoreThanOne { job, tick } => write!(f, "{job}: one output more in tick {tick}"),
            Fault::None { job, due } => write!(f, "{job}: no output when the clock reads {due}"),
            Fault::LateGuest { job, tick, enforcement } => {
                write!(f, "{job}: the guest's output in tick {tick}, not before {enforcement}")
            }
            Fault::LateHypertask { job, tick, due } => {
                write!(f, "{job}: the hypertask's output in tick {tick}, not before {due}")
            }
            Fault::CutOff { job, ran, enforcement } => {
                write!(f, "{job}: its guest has run {ran} ticks, too few, when the clock reads {enforcement}")
            }
            Fault::Eight { record } => write!(f, "record {record}: refused with 8"),
        }
    }
}

/// The faults of a run, and what was counted in it.
#[derive(Debug, Default, PartialEq, Eq)]
pub struct Books {
    pub faults: Vec<Fault>,
    pub taken: u64,
    pub refused: usize,
    pub jobs: usize,
    /// By task, its jobs whose arrival plus deadline the clock has reached.
    pub due: Vec<usize>,
    pub guest_outputs: usize,
    pub hypertask_outputs: usize,
    /// Jobs before their deadline that have no output yet.
    pub open: usize,
}

/// Books every output of the run and looks at every job.
pub fn books(run: &Run) -> Books {
    let (records, answers) = (run.records.chunks_exact(RECORD), run.answers.chunks_exact(ANSWER));
    assert!(records.len() == answers.len(), "an answer for each record");
    let mut booking = Booking::new(run.table, run.E);
    for (number, (record, answer)) in records.zip(answers).enumerate() {
        booking.take(number, record, answer);
    }
    booking.judged()
}

/// What the demand asks of a row.
struct Row {
    D: u64,
    C: u64,
    E: u64,
}

/// A job and what is booked to it.
struct Booked {
    job: Job,
    outputs: Vec<(u64, Giver)>,
    /// Ticks that its guest has run before the enforcement instant.
    ran: u64,
}

struct Booking {
    rows: Vec<Row>,
    jobs: Vec<Booked>,
    /// The place in `jobs` of each task's latest arrival.
    latest: Vec<Option<usize>>,
    books: Books,
}

impl Booking {
    fn new(table: &[u32], E: &[u32]) -> Booking {
        let row = |(f, E): (&[u32], &u32)| Row { D: f[1].into(), C: f[2].into(), E: (*E).into() };
        let rows: Vec<Row> = table.chunks_exact(4).zip(E).map(row).collect();
        let books = Books { due: vec![0; rows.len()], ..Books::default() };
        Booking { latest: vec![None; rows.len()], rows, jobs: Vec::new(), books }
    }

    /// One record more. A refused one is not taken, but its answer has the clock too.
    fn take(&mut self, number: usize, record: &[u8], answer: &[u8]) {
        let reads = leading_number(answer);
        if reads != self.books.taken as u32 {
            self.books.faults.push(Fault::Clock { record: number, reads, taken: self.books.taken });
        }
        match answer[8..] {
            [3, refusal, 0, 0] => {
                self.books.refused += 1;
                if refusal == 8 {
                    self.books.faults.push(Fault::Eight { record: number });
                }
            }
            [who @ 0..=2, task, mark @ 0..=2, _] if (who, mark) != (0, 1) => {
                self.book_arrivals(leading_number(record));
                self.book_who_ran(who, task.into(), mark == 1);
                self.books.taken += 1;
            }
            _ => self.books.faults.push(Fault::NoAnswer { record: number }),
        }
    }

    fn book_arrivals(&mut self, mask: u32) {
        for i in (0..self.rows.len()).filter(|i| mask >> i & 1 == 1) {
            self.latest[i] = Some(self.jobs.len());
            let job = Job { task: i + 1, arrival: self.books.taken };
            self.jobs.push(Booked { job, outputs: Vec::new(), ran: 0 });
        }
    }

    /// Books what ran to the task's latest arrival, in this tick or before it.
    fn book_who_ran(&mut self, who: u8, task: usize, output: bool) {
        let giver = match who {
            0 => return,
            1 => Giver::Guest,
            _ => Giver::Hypertask,
        };
        let tick = self.books.taken;
        let Some(&Some(latest)) = task.checked_sub(1).and_then(|i| self.latest.get(i)) else {
            if output {
                self.books.faults.push(Fault::NoArrival { task, tick });
            }
            return;
        };
        let booked = &mut self.jobs[latest];
        if giver == Giver::Guest && tick < booked.job.arrival + self.rows[task - 1].E {
            booked.ran += 1;
        }
        if output {
            booked.outputs.push((tick, giver));
        }
    }

    fn judged(mut self) -> Books {
        self.books.jobs = self.jobs.len();
        for booked in &self.jobs {
            let row = &self.rows[booked.job.task - 1];
            self.books.judge(booked, row);
            self.books.judge_guest(booked, row);
        }
        self.books
    }
}

impl Books {
    /// Demand 3 of one job: exactly one output when it is due, never more, and that one in time.
    fn judge(&mut self, booked: &Booked, row: &Row) {
        let job = booked.job;
        let (enforcement, due) = (job.arrival + row.E, job.arrival + row.D);
        let is_due = self.taken >= due;
        self.due[job.task - 1] += usize::from(is_due);
        match booked.outputs[..] {
            [] if is_due => self.faults.push(Fault::None { job, due }),
            [] => self.open += 1,
            [_, (tick, _), ..] => self.faults.push(Fault::MoreThanOne { job, tick }),
            [_] => {}
        }
        for &(tick, giver) in &booked.outputs {
            match giver {
                Giver::Guest => self.guest_outputs += 1,
                Giver::Hypertask => self.hypertask_outputs += 1,
            }
            if giver == Giver::Guest && tick >= enforcement {
                self.faults.push(Fault::LateGuest { job, tick, enforcement });
            }
            if giver == Giver::Hypertask && tick >= due {
                self.faults.push(Fault::LateHypertask { job, tick, due });
            }
        }
    }

    /// A guest with budget left is before its enforcement instant.
    fn judge_guest(&mut self, booked: &Booked, row: &Row) {
        let enforcement = booked.job.arrival + row.E;
        let has_ended = booked.outputs.iter().any(|&(tick, _)| tick < enforcement);
        if self.taken >= enforcement && !has_ended && booked.ran < row.C {
            self.faults.push(Fault::CutOff { job: booked.job, ran: booked.ran, enforcement });
        }
    }
}

/// The little-endian number of the first 4 bytes.
fn leading_number(bytes: &[u8]) -> u32 {
    u32::from_le_bytes([bytes[0], bytes[1], bytes[2], bytes[3]])
}
