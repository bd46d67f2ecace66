//! The library's C interface as Rust declares it, the same as tollsalmon.h has it for C. Everyone who links the
//! library from Rust takes this file by its path, so that a function is declared once.
#![allow(dead_code)] // nobody calls every function

#[link(name = "tollsalmon", kind = "static")]
extern "C" {
    pub fn tollsalmon_analyse(
        table: *const u32,
        table_len: usize,
        results: *mut u32,
        results_len: usize,
        place: *mut u64,
    ) -> u32;
    pub fn tollsalmon_start(
        table: *const u32,
        table_len: usize,
        state: *mut u64,
        state_len: usize,
        place: *mut u64,
    ) -> u32;
    pub fn tollsalmon_ticks(
        state: *mut u64,
        state_len: usize,
        records: *const u8,
        records_len: usize,
        answers: *mut u8,
        answers_len: usize,
        place: *mut u64,
    ) -> u32;
    pub fn tollsalmon_step(
        state: *mut u64,
        state_len: usize,
        mask: u32,
        signal: u8,
        early: u8,
        answer: *mut u8,
        answer_len: usize,
        place: *mut u64,
    ) -> u32;
    pub fn tollsalmon_check(file: *const u8, file_len: usize, place: *mut u64) -> u32;
    pub fn tollsalmon_table(file: *const u8, file_len: usize, table: *mut u32, table_len: usize) -> u64;
    pub fn tollsalmon_script(file: *const u8, file_len: usize, script: *mut u8, script_len: usize) -> u64;
    pub fn tollsalmon_write(
        table: *const u32,
        table_len: usize,
        script: *const u8,
        script_len: usize,
        output: *mut u8,
        output_len: usize,
        place: *mut u64,
    ) -> u32;
    pub fn tollsalmon_report(file: *const u8, file_len: usize, text: *mut u8, text_len: usize) -> u64;
}
