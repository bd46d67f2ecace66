//! The library's machine through its C interface.

use crate::answer::{Answer, Refusal};
use crate::interface::{tollsalmon_step, tollsalmon_ticks};
use crate::machine::numbers::Numbers;
use crate::machine::state::Given;

/// How many ticks were taken.
pub fn ticks(state: &mut Numbers, records: &[u8], answers: &mut [u8]) -> u64 {
    let (state, state_len) = (state.as_mut_ptr(), state.len());
    let (records, records_len) = (records.as_ptr(), records.len());
    let (answers, answers_len) = (answers.as_mut_ptr(), answers.len());
    let mut place = 0;
    // SAFETY: the pointers are good for the lengths given with them, and `place` for one number.
    let number =
        unsafe { tollsalmon_ticks(state, state_len, records, records_len, answers, answers_len, &mut place) };
    assert_eq!(number, 0, "numbers that can't be read");
    place
}

pub fn step(state: &mut Numbers, given: Given, answer: &mut [u8]) -> Answer {
    let Given { mask, signal, early } = given;
    let (state, state_len) = (state.as_mut_ptr(), state.len());
    let (answer, answer_len) = (answer.as_mut_ptr(), answer.len());
    let mut place = 0;
    // SAFETY: both pointers are good for the lengths given with them, and `place` for one number.
    match unsafe { tollsalmon_step(state, state_len, mask, signal, early, answer, answer_len, &mut place) } {
        0 => Ok(place),
        number => Err(Refusal { number, place }),
    }
}
