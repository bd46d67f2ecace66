//! Every refusal that can come through the wrapper, with its place.

use crate::{file, refusal, P3};
use std::collections::BTreeSet;
use std::error::Error;
use tollsalmon::{check_plan, check_table, run_to_text, Machine, Name, Plan, Refusal, Tick};

/// Document 01's file with one of its numbers of 4 bytes changed: 0 is the count, 1 to 3 the first
/// entry, 4 to 6 the second.
fn with(file: &[u8], at: usize, number: u32) -> Vec<u8> {
    let mut file = file.to_vec();
    file[4 * at..4 * at + 4].copy_from_slice(&number.to_le_bytes());
    file
}

fn with_byte(file: &[u8], at: usize, byte: u8) -> Vec<u8> {
    let mut file = file.to_vec();
    file[at] = byte;
    file
}

/// Refused by every function that takes a file, and the same by all.
fn assert_refused(file: &[u8], number: u32, place: u64) {
    assert_eq!(refusal(check_plan(file)), (number, place));
    assert_eq!(refusal(Plan::read(file)), (number, place));
    assert_eq!(refusal(run_to_text(file)), (number, place));
}

#[test]
fn files_of_a_wrong_length() {
    assert_refused(&[], 13, 0);
    assert_refused(&[1, 0, 0], 13, 3);
    assert_refused(&[0; 65_536], 14, 0);
    assert_refused(&[0; 65_537], 13, 65_537);
}

#[test]
fn files_with_wrong_contents() {
    let file = file("example");
    assert_refused(&with(&file, 0, 0), 14, 0);
    assert_refused(&with(&file, 0, 3), 14, 0);
    assert_refused(&with(&file, 0, u32::MAX), 14, 0);
    assert_refused(&file[..27], 14, 0);
    assert_refused(&with(&file, 1, 2), 14, 1);
    assert_refused(&with(&file, 4, 1), 14, 2);
}

#[test]
fn files_with_a_body_in_the_wrong_place() {
    let file = file("example");
    assert_refused(&with(&file, 2, 29), 15, 1);
    assert_refused(&with(&file, 3, 81), 15, 1);
    assert_refused(&with(&file, 3, u32::MAX), 15, 1);
    assert_refused(&with(&file, 5, 45), 15, 2);
    assert_refused(&with(&file, 6, 63), 15, 2);
    assert_refused(&file[..107], 15, 2);
    assert_refused(&[&file[..], &[0]].concat(), 15, 2);
}

#[test]
fn files_with_a_body_of_the_wrong_size() {
    let file = file("example");
    // The rows take 8 bytes of the script's, or all of them, or give theirs away.
    assert_refused(&with(&with(&with(&file, 3, 24), 5, 52), 6, 56), 16, 1);
    assert_refused(&with(&with(&with(&file, 3, 80), 5, 108), 6, 0), 16, 2);
    assert_refused(&with(&with(&with(&file, 3, 0), 5, 28), 6, 80), 16, 1);
    assert_refused(&with(&[&file[..], &[0; 4]].concat(), 6, 68), 16, 2);
    let rows = with(&[&[0; 16][..], &[1; 528]].concat(), 0, 1);
    assert_refused(&with(&with(&with(&rows, 1, 1), 2, 16), 3, 528), 16, 1);
}

#[test]
fn files_with_a_wrong_record() {
    let file = file("example");
    assert_refused(&with_byte(&file, 44 + 5, 2), 17, 0);
    assert_refused(&with_byte(&file, 100 + 6, 1), 17, 7);
    assert_refused(&with_byte(&file, 52 + 7, 255), 17, 1);
}

/// The refusal of one tick from the machine of P3, with some of its numbers changed.
fn of_tick(changes: &[(usize, u64)], mask: u32) -> Refusal {
    let mut numbers = *Machine::start(&P3).unwrap().numbers();
    changes.iter().for_each(|(at, number)| numbers[*at] = *number);
    Machine::from_numbers(numbers).step(Tick { mask, ..Tick::default() }).unwrap_err()
}

#[test]
fn every_refusal_comes_through_but_two() {
    let of_table = |table: &[u32]| check_table(table).unwrap_err();
    let of_file = |file: &[u8]| check_plan(file).unwrap_err();
    let example = file("example");
    let refusals = [
        of_table(&[]),
        of_table(&[10, 8, 0, 2]),
        of_table(&[10, 11, 1, 1]),
        of_table(&[5, 5, 1, 6]),
        of_table(&[5, 2, 1, 3]),
        of_table(&[10, 8, 7, 2]),
        of_table(&[5, 5, 2, 1, 8, 8, 2, 1]),
        of_tick(&[(7, 4)], 0),
        of_tick(&[(1, 1 << 40)], 0),
        of_tick(&[], 2),
        of_tick(&[(1, 9), (7, 3)], 1),
        of_tick(&[(1, 10), (7, 2), (9, 2)], 1),
        of_file(&[]),
        of_file(&with(&example, 0, 0)),
        of_file(&with(&example, 6, 63)),
        of_file(&with(&with(&with(&example, 3, 80), 5, 108), 6, 0)),
        of_file(&with_byte(&example, 89, 2)),
    ];
    let numbers: BTreeSet<u32> = refusals.iter().map(Refusal::number).collect();
    let lent_too_little = [Name::ResultsShort as u32, Name::OutputShort as u32];
    assert_eq!(numbers, on_the_page().filter(|number| !lent_too_little.contains(number)).collect());
}

/// The numbers of all refusals, from the page that has their words.
fn on_the_page() -> impl Iterator<Item = u32> {
    let lines = include_str!("../../../include/refusals.txt").lines().filter(|line| !line.starts_with('#'));
    lines.map(|line| line.split('|').next().unwrap().parse().unwrap())
}

/// The refusal of a table, whose advice begins and ends with what is given.
fn of_table_with_advice(table: &[u32], first: &str, last: &str) -> String {
    let refusal = check_table(table).unwrap_err();
    let advice = refusal.advice();
    assert!(advice.starts_with(first) && advice.ends_with(last), "{advice}");
    refusal.to_string()
}

#[test]
fn a_guests_two_windows_in_words() {
    let said = of_table_with_advice(&[10, 8, 7, 2], "shorten this C, ", ", or lengthen this D (with its T)");
    let words = "the guest can't have its ticks before its enforcement instant";
    assert_eq!(said, format!("refusal 7, task 1: {words}"));
    let said = of_table_with_advice(&[5, 5, 2, 1, 8, 8, 2, 1], "shorten this K, ", ", or lengthen this T");
    let words = "after the task's own hypertask the guest can't have its ticks within the period";
    assert_eq!(said, format!("refusal 19, task 2: {words}"));
}

#[test]
fn a_plan_whose_table_is_refused_for_a_hypertask() {
    let plan = Plan { table: vec![5, 5, 2, 1, 8, 8, 2, 1], script: vec![Tick::arrivals(&[2])] };
    let file = plan.write().unwrap();
    assert_eq!(check_plan(&file), Ok(()));
    assert_eq!(refusal(plan.run()), (19, 2));
    assert_eq!(refusal(run_to_text(&file)), (19, 2));
}

#[test]
fn a_refusal_is_an_error_in_words() {
    fn fails() -> Result<(), Box<dyn Error>> {
        Machine::start(&[10, 8, 0, 2])?;
        Ok(())
    }
    let words = "refusal 2, number 2 (from 0): a number of the table is 0 or above 1,000,000";
    assert_eq!(fails().unwrap_err().to_string(), words);
}
