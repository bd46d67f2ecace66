//! The library through its C interface. The second program knows nothing of it: each comparison
//! takes this file by its path, and calls its own part.
#![allow(dead_code)]

#[path = "../../../../include/tollsalmon.rs"]
mod interface;

use interface::*;
use second::answer::Answer;
use second::lent::{answered, Lent};
use second::machine::state::Given;

// SAFETY, of every call: each pointer is good for the length given with it, and `place` for one number.

pub fn analyse(table: &mut Lent<u32>, results: &mut Lent<u32>) -> Answer {
    let (table, table_len) = table.pointer_and_length();
    let (results, results_len) = results.pointer_and_length();
    answered(|place| unsafe { tollsalmon_analyse(table, table_len, results, results_len, place) })
}

pub fn start(table: &mut Lent<u32>, state: &mut Lent<u64>) -> Answer {
    let (table, table_len) = table.pointer_and_length();
    let (state, state_len) = state.pointer_and_length();
    answered(|place| unsafe { tollsalmon_start(table, table_len, state, state_len, place) })
}

/// Accepted with the number of ticks.
pub fn ticks(state: &mut Lent<u64>, records: &mut Lent<u8>, answers: &mut Lent<u8>) -> Answer {
    let (state, state_len) = state.pointer_and_length();
    let (records, records_len) = records.pointer_and_length();
    let (answers, answers_len) = answers.pointer_and_length();
    answered(|place| unsafe {
        tollsalmon_ticks(state, state_len, records, records_len, answers, answers_len, place)
    })
}

/// Accepted with 0.
pub fn step(state: &mut Lent<u64>, given: Given, answer: &mut Lent<u8>) -> Answer {
    let Given { mask, signal, early } = given;
    let (state, state_len) = state.pointer_and_length();
    let (answer, answer_len) = answer.pointer_and_length();
    answered(|place| unsafe {
        tollsalmon_step(state, state_len, mask, signal, early, answer, answer_len, place)
    })
}

/// Accepted with 0.
pub fn check(file: &mut Lent<u8>) -> Answer {
    let (file, file_len) = file.pointer_and_length();
    answered(|place| unsafe { tollsalmon_check(file, file_len, place) })
}

pub fn table(file: &mut Lent<u8>, table: &mut Lent<u32>) -> u64 {
    let (file, file_len) = file.pointer_and_length();
    let (table, table_len) = table.pointer_and_length();
    unsafe { tollsalmon_table(file, file_len, table, table_len) }
}

pub fn script(file: &mut Lent<u8>, script: &mut Lent<u8>) -> u64 {
    let (file, file_len) = file.pointer_and_length();
    let (script, script_len) = script.pointer_and_length();
    unsafe { tollsalmon_script(file, file_len, script, script_len) }
}

/// Accepted with the file's length.
pub fn write(table: &mut Lent<u32>, script: &mut Lent<u8>, output: &mut Lent<u8>) -> Answer {
    let (table, table_len) = table.pointer_and_length();
    let (script, script_len) = script.pointer_and_length();
    let (output, output_len) = output.pointer_and_length();
    answered(|place| unsafe {
        tollsalmon_write(table, table_len, script, script_len, output, output_len, place)
    })
}

/// The length of the text.
pub fn report(file: &mut Lent<u8>, text: &mut Lent<u8>) -> u64 {
    let (file, file_len) = file.pointer_and_length();
    let (text, text_len) = text.pointer_and_length();
    unsafe { tollsalmon_report(file, file_len, text, text_len) }
}
