//! The plain Rust machine behind the same calls as the library's: a machine as 258 numbers, tick
//! records and answers as bytes. Each call is there twice, by how the step is inlined.

use crate::answer::{refusal, Answer};
use crate::machine::numbers::{read, write, Numbers, ANSWER, RECORD};
use crate::machine::state::{Given, Machine};
use crate::machine::{Stepped, Who};
use std::hint::black_box;

/// The same tick that many times, with a running sum of the answers; the numbers are only read.
#[inline(always)]
fn repeat(
    state: &Numbers,
    (mask, signal, early): (u32, u8, bool),
    times: u64,
    step: impl Fn(Machine, u32, u8, bool) -> Stepped,
) -> u64 {
    let Some(mut machine) = read(state) else {
        return 0;
    };
    let mut sum = 0u64;
    for _ in 0..times {
        let stepped = step(machine, mask, signal, early);
        machine = stepped.machine;
        sum = sum.wrapping_add(stepped.answer.sum());
    }
    black_box(&machine);
    sum
}

/// One tick for each record, each with an answer.
#[inline(always)]
fn run(
    state: &mut Numbers,
    records: &[u8],
    answers: &mut [u8],
    step: impl Fn(Machine, u32, u8, bool) -> Stepped,
) -> u64 {
    let Some(mut machine) = read(state) else {
        return 0;
    };
    let mut ticks = 0;
    for (record, answer) in records.chunks_exact(RECORD).zip(answers.chunks_exact_mut(ANSWER)) {
        let mask = u32::from_le_bytes([record[0], record[1], record[2], record[3]]);
        let clock = machine.clock;
        let stepped = step(machine, mask, record[4], record[5] == 1);
        machine = stepped.machine;
        answer.copy_from_slice(&stepped.answer.bytes(clock));
        ticks += 1;
    }
    write(&machine, state);
    ticks
}

pub type Repeat = fn(&Numbers, (u32, u8, bool), u64) -> u64;
pub type Run = fn(&mut Numbers, &[u8], &mut [u8]) -> u64;

#[inline(never)]
pub fn repeat_called(state: &Numbers, tick: (u32, u8, bool), times: u64) -> u64 {
    repeat(state, tick, times, Machine::step_called)
}

#[inline(never)]
pub fn repeat_inlined(state: &Numbers, tick: (u32, u8, bool), times: u64) -> u64 {
    repeat(state, tick, times, |machine, mask, signal, early| machine.step_inlined(mask, signal, early))
}

#[inline(never)]
pub fn run_called(state: &mut Numbers, records: &[u8], answers: &mut [u8]) -> u64 {
    run(state, records, answers, Machine::step_called)
}

#[inline(never)]
pub fn run_inlined(state: &mut Numbers, records: &[u8], answers: &mut [u8]) -> u64 {
    run(state, records, answers, |machine, mask, signal, early| machine.step_inlined(mask, signal, early))
}

/// One tick; a refused one touches nothing.
#[inline(never)]
pub fn step(state: &mut Numbers, given: Given, answer: &mut [u8]) -> Answer {
    if given.early > 1 {
        return Err(refusal(17, 0));
    }
    if answer.len() < ANSWER {
        return Err(refusal(18, ANSWER));
    }
    let Some(machine) = read(state) else {
        return Err(refusal(8, 0));
    };
    let clock = machine.clock;
    let stepped = machine.step_inlined(given.mask, given.signal, given.early == 1);
    let said = stepped.answer;
    if said.who == Who::Refused {
        return Err(refusal(said.task_or_number.into(), said.place as usize));
    }
    answer[..ANSWER].copy_from_slice(&said.bytes(clock));
    write(&stepped.machine, state);
    Ok(0)
}
