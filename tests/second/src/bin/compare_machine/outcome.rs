//! What can be seen of a machine that runs a case: every answer, and all lent memory after each
//! call.

use crate::library;
use second::answer::Answer;
use second::lent::Lent;
use second::machine::broken::Program;
use second::machine::made_up::{Begin, Call, Case, Step};
use second::machine::state::Given;

/// A program that starts machines and takes ticks: the library, or one like the second program.
pub trait Runs {
    fn start(&self, table: &mut Lent<u32>, state: &mut Lent<u64>) -> Answer;
    fn ticks(&self, state: &mut Lent<u64>, records: &mut Lent<u8>, answers: &mut Lent<u8>) -> Answer;
    fn step(&self, state: &mut Lent<u64>, given: Given, answer: &mut Lent<u8>) -> Answer;
}

impl Runs for Program {
    fn start(&self, table: &mut Lent<u32>, state: &mut Lent<u64>) -> Answer {
        (self.start)(&self.rules, table.part(), state.part_to_write())
    }

    fn ticks(&self, state: &mut Lent<u64>, records: &mut Lent<u8>, answers: &mut Lent<u8>) -> Answer {
        (self.ticks)(&self.rules, state.part_to_write(), records.part(), answers.part_to_write())
    }

    fn step(&self, state: &mut Lent<u64>, given: Given, answer: &mut Lent<u8>) -> Answer {
        (self.step)(&self.rules, state.part_to_write(), given, answer.part_to_write())
    }
}

pub struct Library;

impl Runs for Library {
    fn start(&self, table: &mut Lent<u32>, state: &mut Lent<u64>) -> Answer {
        library::start(table, state)
    }

    fn ticks(&self, state: &mut Lent<u64>, records: &mut Lent<u8>, answers: &mut Lent<u8>) -> Answer {
        library::ticks(state, records, answers)
    }

    fn step(&self, state: &mut Lent<u64>, given: Given, answer: &mut Lent<u8>) -> Answer {
        library::step(state, given, answer)
    }
}

#[derive(PartialEq, Eq)]
pub struct Outcome {
    /// The answer to the start, for a case that begins with a table.
    pub start: Option<Answer>,
    pub table: Lent<u32>,
    /// The machine before the first call.
    pub begin: Lent<u64>,
    pub calls: Vec<Called>,
}

/// What one call has left behind, and the step before it.
#[derive(PartialEq, Eq)]
pub struct Called {
    pub stepped: Option<Stepped>,
    pub returned: Answer,
    pub state: Lent<u64>,
    pub records: Lent<u8>,
    pub answers: Lent<u8>,
}

#[derive(PartialEq, Eq)]
pub struct Stepped {
    pub returned: Answer,
    pub state: Lent<u64>,
    pub answer: Lent<u8>,
}

pub fn outcome(case: &Case, runs: &impl Runs) -> Outcome {
    let mut table = Lent::new(0);
    let mut start = None;
    let mut state = match &case.begin {
        Begin::Table(given, length) => {
            table = Lent::holding(given);
            let mut state = Lent::new(*length);
            start = Some(runs.start(&mut table, &mut state));
            state
        }
        Begin::Numbers(numbers) => Lent::holding(numbers),
    };
    let begin = state.clone();
    let calls = case.calls.iter().map(|call| called(call, runs, &mut state)).collect();
    Outcome { start, table, begin, calls }
}

fn called(call: &Call, runs: &impl Runs, state: &mut Lent<u64>) -> Called {
    let stepped = call.step.map(|step| stepped(step, runs, state.clone()));
    let mut records = Lent::holding(&call.records);
    let mut answers = Lent::new(call.answers);
    let returned = runs.ticks(state, &mut records, &mut answers);
    Called { stepped, returned, state: state.clone(), records, answers }
}

fn stepped(step: Step, runs: &impl Runs, mut state: Lent<u64>) -> Stepped {
    let mut answer = Lent::new(step.answer);
    let returned = runs.step(&mut state, step.given, &mut answer);
    Stepped { returned, state, answer }
}
