//! Document 01's cases, and the search held to its own definition.

use crate::answer::{refusal, Answer};
use crate::dice::Dice;
use crate::tables::analysis::{analyse, least, windows, Windows};

const UNTOUCHED: u32 = 0xA5A5_A5A5;

/// The answer, and the lent results afterwards.
fn answer_and_results(table: &[u32], length: usize) -> (Answer, Vec<u32>) {
    let mut results = vec![UNTOUCHED; length];
    let answer = analyse(table, &mut results);
    (answer, results)
}

/// Accepted with these results and two places more that stay untouched.
fn assert_accepted(table: &[u32], expected: &[u32]) {
    let (answer, results) = answer_and_results(table, expected.len() + 2);
    assert_eq!(answer, Ok(table.len() as u64 / 4));
    assert_eq!(results, [expected, &[UNTOUCHED; 2]].concat());
}

fn assert_refused_with(length: usize, table: &[u32], number: u32, place: usize) {
    let (answer, results) = answer_and_results(table, length);
    assert_eq!(answer, Err(refusal(number, place)));
    assert_eq!(results, vec![UNTOUCHED; length]);
}

fn assert_refused(table: &[u32], number: u32, place: usize) {
    assert_refused_with(100, table, number, place);
}

#[test]
fn p1_no_numbers() {
    assert_refused(&[], 1, 0);
}

#[test]
fn p2_accepted() {
    assert_accepted(&[10, 8, 3, 2], &[2, 6, 3]);
}

#[test]
fn p3_guest_up_to_its_enforcement() {
    assert_accepted(&[10, 8, 6, 2], &[2, 6, 6]);
}

#[test]
fn p4_guest_one_too_long() {
    assert_refused(&[10, 8, 7, 2], 7, 1);
}

#[test]
fn p5_enforcement_at_arrival() {
    assert_refused(&[5, 2, 1, 2], 7, 1);
}

#[test]
fn p6_hypertask_too_long_for_its_deadline() {
    assert_refused(&[5, 2, 1, 3], 6, 1);
}

#[test]
fn p7_no_active_period() {
    assert_refused(&[5, 5, 1, 6], 5, 1);
}

#[test]
fn p8_deadline_above_period() {
    assert_refused(&[10, 11, 1, 1], 3, 1);
}

#[test]
fn p9_two_tasks() {
    assert_accepted(&[10, 10, 2, 1, 20, 20, 4, 2], &[3, 7, 4, 4, 16, 7]);
}

#[test]
fn p10_second_hypertask_too_late() {
    assert_refused(&[5, 5, 1, 2, 7, 7, 1, 2, 7, 7, 1, 2], 6, 2);
}

#[test]
fn p11_field_of_zero() {
    assert_refused(&[10, 8, 0, 2], 2, 2);
}

#[test]
fn p12_short_results() {
    assert_refused_with(2, &[10, 8, 3, 2], 4, 3);
}

#[test]
fn slow_table_climbs_to_the_limit() {
    assert_refused(&[1, 1, 1, 1, 5, 5, 1, 1], 5, 1);
}

#[test]
fn active_period_at_its_limit_and_one_past_it() {
    assert_refused(&[4, 4, 1, 3, 1_000_000, 1_000_000, 1, 1_000_000], 6, 1);
    assert_refused(&[41, 41, 1, 40, 1_000_000, 1_000_000, 1, 97_561], 5, 1);
}

/// A task's window, or none where it isn't within its limit.
fn assert_windows(table: &[u32], expected: &[Windows]) {
    assert_eq!(windows(table).as_deref(), Ok(expected));
}

#[test]
fn window_begun_by_the_hypertask_fails_at_the_last_task() {
    // WA(2) is 5, at E, and WE(2) is 9.
    assert_refused(&[5, 5, 2, 1, 8, 8, 2, 1], 19, 2);
    assert_windows(&[5, 5, 2, 1, 8, 8, 2, 1], &[(Some(3), Some(4)), (Some(5), None)]);
    assert_refused(&[6, 6, 3, 1, 10, 10, 2, 1], 19, 2);
    assert_windows(&[6, 6, 3, 1, 10, 10, 2, 1], &[(Some(4), Some(5)), (Some(6), None)]);
    let three = [12, 12, 5, 1, 15, 15, 1, 2, 19, 19, 3, 1];
    assert_refused(&three, 19, 3);
    assert_windows(&three, &[(Some(8), Some(9)), (Some(8), Some(10)), (Some(12), None)]);
}

#[test]
fn window_19_of_a_row_before_7_of_the_rows_below() {
    // Below, both windows fail: with E = 0, and with E = 2.
    let without_time = [23, 23, 8, 7, 19, 19, 4, 2, 21, 21, 4, 3];
    assert_refused(&without_time, 19, 1);
    assert_windows(&without_time, &[(Some(13), None), (None, None), (None, None)]);
    let with_time = [20, 20, 4, 1, 13, 13, 4, 4, 17, 17, 1, 5];
    assert_refused(&with_time, 19, 1);
    assert_windows(&with_time, &[(Some(13), None), (None, None), (None, None)]);
    let at_task_2 = [12, 11, 5, 1, 19, 18, 4, 1, 17, 15, 2, 2];
    assert_refused(&at_task_2, 19, 2);
    assert_windows(&at_task_2, &[(Some(8), Some(9)), (Some(12), None), (None, None)]);
}

#[test]
fn window_7_of_a_row_before_19_of_the_rows_below() {
    assert_refused(&[5, 4, 3, 1, 8, 8, 1, 1], 7, 1);
    assert_windows(&[5, 4, 3, 1, 8, 8, 1, 1], &[(None, Some(5)), (Some(5), None)]);
}

#[test]
fn window_7_where_both_fail() {
    assert_refused(&[2, 2, 2, 1], 7, 1);
    assert_windows(&[2, 2, 2, 1], &[(None, None)]);
    assert_refused(&[5, 5, 1, 1, 4, 4, 3, 1], 7, 2);
    assert_windows(&[5, 5, 1, 1, 4, 4, 3, 1], &[(Some(2), Some(3)), (None, None)]);
}

#[test]
fn windows_at_their_limits() {
    assert_accepted(&[2, 2, 1, 1], &[1, 1, 1]);
    assert_windows(&[2, 2, 1, 1], &[(Some(1), Some(2))]);
}

#[test]
fn hypertasks_of_all_rows_before_19() {
    assert_refused(&[22, 21, 8, 2, 16, 16, 1, 4, 15, 15, 6, 3], 19, 1);
    assert_refused(&[22, 21, 8, 2, 16, 7, 1, 4, 15, 5, 6, 3], 6, 2);
    assert_refused(&[22, 21, 8, 2, 16, 16, 1, 4, 15, 5, 6, 3], 6, 3);
    // WA(1) is 5 and WE(1) is 30.
    assert_refused(&[20, 20, 1, 5, 5, 5, 1, 4], 5, 2);
}

#[test]
fn lengths_that_no_table_has() {
    for length in (0..4).chain([5, 6, 7, 127, 129, 132, 1000]) {
        assert_refused(&vec![1; length], 1, length);
    }
}

#[test]
fn checks_go_by_number() {
    assert_refused_with(0, &[10, 11, 1, 1_000_001], 2, 3);
    assert_refused_with(0, &[10, 11, 1, 1], 3, 1);
    assert_refused_with(0, &[5, 5, 1, 6], 4, 3);
    assert_refused_with(5, &[5, 5, 2, 1, 8, 8, 2, 1], 4, 6);
    assert_refused_with(6, &[5, 5, 2, 1, 8, 8, 2, 1], 19, 2);
    // Task 1's guest doesn't pass, but task 2's hypertask is looked at before it.
    assert_refused(&[100, 100, 99, 1, 5, 5, 1, 6], 5, 2);
}

/// The definition: each candidate in turn.
fn least_by_definition(start: i64, limit: i64, f: impl Fn(i64) -> i64) -> Option<i64> {
    (start..=limit).find(|&x| x == f(x))
}

/// The search passes over candidates; it must find what looking at each of them finds.
#[test]
fn search_finds_the_least_solution() {
    let mut dice = Dice::new(1);
    for _ in 0..20_000 {
        let (a, p, k) = (dice.from_to(0, 9), dice.from_to(1, 9), dice.from_to(1, 9));
        let (r, m) = (dice.from_to(1, 9), dice.from_to(0, 9));
        let (start, limit) = (dice.from_to(0, 30) as i64, dice.from_to(0, 90) as i64);
        let f = |x: i64| (a + (x as u64).div_ceil(p) * k + (x as u64 + m) / r) as i64;
        assert_eq!(least(start, limit, f), least_by_definition(start, limit, f));
    }
}
