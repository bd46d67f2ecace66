//! The library's functions on slices. Here stands all that is unsafe, and every call is sound for
//! the same reasons: a slice is good for its own length and aligned, nothing else refers to what a
//! mutable one lends, and the library neither reads nor writes past a length (docs/PROMISES.md).

#[path = "../../include/tollsalmon.rs"]
mod interface;

use crate::refusal::Refusal;
use crate::tick::Tick;

/// The place that an accepted call leaves, or the refusal.
fn answered(call: impl FnOnce(&mut u64) -> u32) -> Result<usize, Refusal> {
    let mut place = 0;
    match call(&mut place) {
        0 => Ok(place as usize),
        number => Err(Refusal::new(number, place)),
    }
}

/// R, E and G of each task to the front of `results`: how many tasks.
pub fn analyse(table: &[u32], results: &mut [u32]) -> Result<usize, Refusal> {
    let (table, numbers) = (table.as_ptr(), table.len());
    let (results, room) = (results.as_mut_ptr(), results.len());
    // SAFETY: both slices are good for their lengths, and `results` is lent by itself.
    answered(|place| unsafe { interface::tollsalmon_analyse(table, numbers, results, room, place) })
}

/// A fresh machine to the front of `state`: how many tasks.
pub fn start(table: &[u32], state: &mut [u64]) -> Result<usize, Refusal> {
    let (table, numbers) = (table.as_ptr(), table.len());
    let (state, room) = (state.as_mut_ptr(), state.len());
    // SAFETY: both slices are good for their lengths, and `state` is lent by itself.
    answered(|place| unsafe { interface::tollsalmon_start(table, numbers, state, room, place) })
}

/// One tick. Refused, it leaves `state` and `answer` as they were.
pub fn step(state: &mut [u64], tick: Tick, answer: &mut [u8]) -> Result<usize, Refusal> {
    let Tick { mask, signal, early } = tick;
    let (state, numbers) = (state.as_mut_ptr(), state.len());
    let (answer, room) = (answer.as_mut_ptr(), answer.len());
    // SAFETY: both slices are good for their lengths, and each is lent by itself.
    answered(|place| unsafe {
        let early = early.into();
        interface::tollsalmon_step(state, numbers, mask, signal, early, answer, room, place)
    })
}

/// A tick for each whole record that has room for its answer: how many.
pub fn ticks(state: &mut [u64], records: &[u8], answers: &mut [u8]) -> Result<usize, Refusal> {
    let (state, numbers) = (state.as_mut_ptr(), state.len());
    let (answers, room) = (answers.as_mut_ptr(), answers.len());
    let (records, bytes) = (records.as_ptr(), records.len());
    // SAFETY: the three slices are good for their lengths, and the two mutable ones are lent each
    // by itself.
    answered(|place| unsafe {
        interface::tollsalmon_ticks(state, numbers, records, bytes, answers, room, place)
    })
}

/// Whether the bytes are a plan file.
pub fn check(file: &[u8]) -> Result<usize, Refusal> {
    // SAFETY: the slice is good for its length.
    answered(|place| unsafe { interface::tollsalmon_check(file.as_ptr(), file.len(), place) })
}

/// How many numbers the rows of a plan file have; they are in `table` where they fit.
pub fn table(file: &[u8], table: &mut [u32]) -> usize {
    let (lent, room) = (table.as_mut_ptr(), table.len());
    // SAFETY: both slices are good for their lengths, and `table` is lent by itself.
    (unsafe { interface::tollsalmon_table(file.as_ptr(), file.len(), lent, room) }) as usize
}

/// How many bytes the script of a plan file has; they are in `script` where they fit.
pub fn script(file: &[u8], script: &mut [u8]) -> usize {
    let (lent, room) = (script.as_mut_ptr(), script.len());
    // SAFETY: both slices are good for their lengths, and `script` is lent by itself.
    (unsafe { interface::tollsalmon_script(file.as_ptr(), file.len(), lent, room) }) as usize
}

/// The plan file of a table and a script to the front of `output`: its length.
pub fn write(table: &[u32], script: &[u8], output: &mut [u8]) -> Result<usize, Refusal> {
    let (table, numbers) = (table.as_ptr(), table.len());
    let (script, bytes) = (script.as_ptr(), script.len());
    let (output, room) = (output.as_mut_ptr(), output.len());
    // SAFETY: the three slices are good for their lengths, and `output` is lent by itself.
    answered(|place| unsafe {
        interface::tollsalmon_write(table, numbers, script, bytes, output, room, place)
    })
}

/// How many bytes the text of a plan's run has; they are in `text` where they fit.
pub fn report(file: &[u8], text: &mut [u8]) -> usize {
    let (lent, room) = (text.as_mut_ptr(), text.len());
    // SAFETY: both slices are good for their lengths, and `text` is lent by itself.
    (unsafe { interface::tollsalmon_report(file.as_ptr(), file.len(), lent, room) }) as usize
}
