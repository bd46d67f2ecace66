//! The analysis of one table: document 01's "Response equations" and refusals 1 to 7, with 19 of
//! document 02's order 1, in the document's order and with its names. Rows are counted from 0 here
//! and tasks from 1, so the task of row i is i + 1.

#![allow(non_snake_case)]

use crate::answer::{refusal, Answer, Refusal};

const LONGEST_TABLE: usize = 128;
const LARGEST_FIELD: u32 = 1_000_000;
const LONGEST_ACTIVE_PERIOD: i64 = 4_000_000;

/// One task: period, deadline, ticks of the guest, ticks of the hypertask.
struct Row {
    T: i64,
    D: i64,
    C: i64,
    K: i64,
}

/// R, E and G of each task on acceptance; on refusal `results` stays as it was.
pub fn analyse(table: &[u32], results: &mut [u32]) -> Answer {
    check_length(table)?;
    check_fields(table)?;
    check_deadlines(table)?;
    check_room(table, results)?;
    let rows = rows_of(table);
    let R = hypertask_responses(&rows)?;
    let E = enforcement_offsets(&rows, &R);
    let G = guest_responses(&rows, &E)?;
    write(results, &R, &E, &G);
    Ok(rows.len() as u64)
}

// Refusals 1 to 4: the shape of what was handed in.

fn check_length(table: &[u32]) -> Result<(), Refusal> {
    let length = table.len();
    if length < 4 || length > LONGEST_TABLE || length % 4 != 0 {
        return Err(refusal(1, length));
    }
    Ok(())
}

fn check_fields(table: &[u32]) -> Result<(), Refusal> {
    for (place, &field) in table.iter().enumerate() {
        if !(1..=LARGEST_FIELD).contains(&field) {
            return Err(refusal(2, place));
        }
    }
    Ok(())
}

fn check_deadlines(table: &[u32]) -> Result<(), Refusal> {
    for (i, row) in table.chunks(4).enumerate() {
        if row[1] > row[0] {
            return Err(refusal(3, i + 1));
        }
    }
    Ok(())
}

fn check_room(table: &[u32], results: &[u32]) -> Result<(), Refusal> {
    let needed = 3 * (table.len() / 4);
    if results.len() < needed {
        return Err(refusal(4, needed));
    }
    Ok(())
}

fn rows_of(table: &[u32]) -> Vec<Row> {
    let row = |f: &[u32]| Row { T: f[0].into(), D: f[1].into(), C: f[2].into(), K: f[3].into() };
    table.chunks(4).map(row).collect()
}

// The search and the sums that the equations share.

/// Division rounded up.
fn up(dividend: i64, divisor: i64) -> i64 {
    debug_assert!(dividend >= 0 && divisor >= 1);
    (dividend + divisor - 1) / divisor
}

/// The least whole x from `start` to `limit` with x = f(x), for an f that never falls.
/// Candidates are looked at in turn, passing over those that can't be it: where f(x) is above
/// x, f is at least f(x) from x on, so nothing before f(x) solves the equation.
pub(crate) fn least(start: i64, limit: i64, f: impl Fn(i64) -> i64) -> Option<i64> {
    let mut x = start;
    while x <= limit {
        let right_side = f(x);
        if right_side == x {
            return Some(x);
        }
        x = right_side.max(x + 1);
    }
    None
}

/// The sum of a term over rows.
fn sum(rows: &[Row], term: impl Fn(&Row) -> i64) -> i64 {
    rows.iter().map(term).sum()
}

// Hypertask: equations 1 to 3, refusals 5 and 6.

/// B(i): the largest K among rows below i, 0 if there are none.
fn B(rows: &[Row], i: usize) -> i64 {
    rows[i + 1..].iter().map(|row| row.K).max().unwrap_or(0)
}

/// t(i), where it is within its limit.
fn active_period(rows: &[Row], i: usize) -> Option<i64> {
    let (above, own, b) = (&rows[..i], &rows[i], B(rows, i));
    least(1, LONGEST_ACTIVE_PERIOD, |t| b + up(t, own.T) * own.K + sum(above, |j| up(t, j.T) * j.K))
}

/// w(i,q), where w + K − (q−1)·T is at most D.
fn start(rows: &[Row], i: usize, q: i64) -> Option<i64> {
    let (above, own, b) = (&rows[..i], &rows[i], B(rows, i));
    let limit = own.D - own.K + (q - 1) * own.T;
    least(0, limit, |w| b + (q - 1) * own.K + sum(above, |j| (up(w, j.T) + 1) * j.K))
}

/// R(i): the largest w(i,q) + K(i) − (q−1)·T(i).
fn R(rows: &[Row], i: usize) -> Result<i64, Refusal> {
    let own = &rows[i];
    let t = active_period(rows, i).ok_or(refusal(5, i + 1))?;
    let mut largest = 0;
    for q in 1..=up(t, own.T) {
        let w = start(rows, i, q).ok_or(refusal(6, i + 1))?;
        let response = w + own.K - (q - 1) * own.T;
        debug_assert!(response >= 0);
        largest = response.max(largest);
    }
    Ok(largest)
}

fn hypertask_responses(rows: &[Row]) -> Result<Vec<i64>, Refusal> {
    (0..rows.len()).map(|i| R(rows, i)).collect()
}

/// E(i) = D(i) − R(i).
fn enforcement_offsets(rows: &[Row], R: &[i64]) -> Vec<i64> {
    rows.iter().zip(R).map(|(row, R)| row.D - R).collect()
}

// Guest: equation 4, refusals 7 and 19.

/// What a row above asks for in a length w that is begun by its hypertask.
fn begun_by_a_hypertask(row: &Row, E: i64, w: i64) -> i64 {
    let guests = if w <= row.T - E { 0 } else { up(w - (row.T - E), row.T) };
    guests * row.C + up(w, row.T) * row.K
}

/// What a row above asks for in a length w that is begun by its guest.
fn begun_by_a_guest(row: &Row, E: i64, w: i64) -> i64 {
    let hypertasks = if w <= E { 0 } else { up(w - E, row.T) };
    up(w, row.T) * row.C + hypertasks * row.K
}

/// The larger of the two bounds.
fn request_bound(row: &Row, E: i64, w: i64) -> i64 {
    begun_by_a_hypertask(row, E, w).max(begun_by_a_guest(row, E, w))
}

/// F(i,w).
fn F(rows: &[Row], E: &[i64], i: usize, w: i64) -> i64 {
    let below = sum(&rows[i + 1..], |j| up(w, j.T) * j.K);
    let above = |j| request_bound(&rows[j], E[j], w);
    below + (0..i).map(above).sum::<i64>()
}

/// WA(i), where it is at most E(i).
fn WA(rows: &[Row], E: &[i64], i: usize) -> Option<i64> {
    let limit = E[i];
    least(1, limit, |w| rows[i].C + F(rows, E, i, w))
}

/// WE(i), where it is at most T(i).
fn WE(rows: &[Row], E: &[i64], i: usize) -> Option<i64> {
    let limit = rows[i].T;
    least(1, limit, |w| rows[i].C + rows[i].K + F(rows, E, i, w))
}

/// G(i), where the guest passes: 7 for the window that it begins, 19 for the one that the task's own
/// hypertask begins.
fn G(rows: &[Row], E: &[i64], i: usize) -> Result<i64, Refusal> {
    let WA = WA(rows, E, i).ok_or(refusal(7, i + 1))?;
    let WE = WE(rows, E, i).ok_or(refusal(19, i + 1))?;
    Ok(WA.max(WE - (rows[i].T - E[i])))
}

/// Row by row: both windows of a row are looked at before the next row's.
fn guest_responses(rows: &[Row], E: &[i64]) -> Result<Vec<i64>, Refusal> {
    (0..rows.len()).map(|i| G(rows, E, i)).collect()
}

/// WA and WE of a task, each where it is within its limit.
pub type Windows = (Option<i64>, Option<i64>);

/// The windows of every task, whichever of them fail, of a table that passes the checks before 7.
pub fn windows(table: &[u32]) -> Result<Vec<Windows>, Refusal> {
    let rows = &rows_of(table);
    let E = enforcement_offsets(rows, &hypertask_responses(rows)?);
    Ok((0..rows.len()).map(|i| (WA(rows, &E, i), WE(rows, &E, i))).collect())
}

/// R, E, G for each task and nothing past them.
fn write(results: &mut [u32], R: &[i64], E: &[i64], G: &[i64]) {
    for i in 0..R.len() {
        results[3 * i] = R[i] as u32;
        results[3 * i + 1] = E[i] as u32;
        results[3 * i + 2] = G[i] as u32;
    }
}
