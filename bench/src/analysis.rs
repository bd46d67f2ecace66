//! The analysis as one would write it in plain Rust: every search starts at its least value and
//! repeats x := f(x).

// What is measured keeps its shape.
#![allow(clippy::needless_range_loop, clippy::manual_div_ceil)]

use crate::answer::{refusal, Answer, Refusal};
use crate::machine::state::PLACES as MOST_TASKS;

pub const LARGEST_FIELD: u32 = 1_000_000;
const LONGEST_ACTIVE_PERIOD: u64 = 4_000_000;

#[derive(Clone, Copy, Default)]
struct Row {
    period: u64,
    deadline: u64,
    guest: u64,
    hyper: u64,
}

/// R, E and G of each task on acceptance; on refusal `results` stays as it was. Never inlined,
/// so that it is called as the library is.
#[inline(never)]
pub fn analyse(table: &[u32], results: &mut [u32]) -> Answer {
    let tasks = checked_shape(table, results)?;
    let mut rows = [Row::default(); MOST_TASKS];
    for (row, f) in rows.iter_mut().zip(table.chunks_exact(4)) {
        *row = Row { period: f[0].into(), deadline: f[1].into(), guest: f[2].into(), hyper: f[3].into() };
    }
    let rows = &rows[..tasks];
    let mut offsets = [0; MOST_TASKS];
    for i in 0..tasks {
        offsets[i] = rows[i].deadline - hypertask_response(rows, i)?;
    }
    let mut guests = [0; MOST_TASKS];
    for i in 0..tasks {
        guests[i] = guest_response(rows, &offsets, i)?;
    }
    for (i, result) in results.chunks_exact_mut(3).take(tasks).enumerate() {
        result[0] = (rows[i].deadline - offsets[i]) as u32;
        result[1] = offsets[i] as u32;
        result[2] = guests[i] as u32;
    }
    Ok(tasks as u64)
}

/// Refusals 1 to 4; the number of tasks where there is none.
fn checked_shape(table: &[u32], results: &[u32]) -> Result<usize, Refusal> {
    if table.is_empty() || table.len() > 4 * MOST_TASKS || table.len() % 4 != 0 {
        return Err(refusal(1, table.len()));
    }
    if let Some(place) = table.iter().position(|field| !(1..=LARGEST_FIELD).contains(field)) {
        return Err(refusal(2, place));
    }
    if let Some(row) = table.chunks_exact(4).position(|f| f[1] > f[0]) {
        return Err(refusal(3, row + 1));
    }
    let tasks = table.len() / 4;
    if results.len() < 3 * tasks {
        return Err(refusal(4, 3 * tasks));
    }
    Ok(tasks)
}

/// Division rounded up; u64::div_ceil measures a little slower here.
fn up(dividend: u64, divisor: u64) -> u64 {
    (dividend + divisor - 1) / divisor
}

/// The least x from `start` to `limit` with x = f(x), for an f that never falls and is at least
/// `start` there.
fn least(start: u64, limit: u64, f: impl Fn(u64) -> u64) -> Option<u64> {
    let mut x = start;
    while x <= limit {
        let next = f(x);
        if next == x {
            return Some(x);
        }
        x = next;
    }
    None
}

/// R of row i, or refusal 5 or 6.
fn hypertask_response(rows: &[Row], i: usize) -> Result<u64, Refusal> {
    let (above, own) = (&rows[..i], rows[i]);
    let blocking = rows[i + 1..].iter().map(|row| row.hyper).max().unwrap_or(0);
    let active = least(1, LONGEST_ACTIVE_PERIOD, |t| {
        let asked = |row: &Row| up(t, row.period) * row.hyper;
        blocking + asked(&own) + above.iter().map(asked).sum::<u64>()
    })
    .ok_or(refusal(5, i + 1))?;
    let mut largest = 0;
    for earlier in 0..up(active, own.period) {
        let released = earlier * own.period;
        let fixed = blocking + earlier * own.hyper;
        let start = (own.deadline + released)
            .checked_sub(own.hyper)
            .and_then(|limit| {
                least(0, limit, |w| {
                    fixed + above.iter().map(|row| (up(w, row.period) + 1) * row.hyper).sum::<u64>()
                })
            })
            .ok_or(refusal(6, i + 1))?;
        largest = largest.max(start + own.hyper - released);
    }
    Ok(largest)
}

/// G of row i, or refusal 7 or 19.
fn guest_response(rows: &[Row], offsets: &[u64; MOST_TASKS], i: usize) -> Result<u64, Refusal> {
    let own = rows[i];
    let alone = least(1, offsets[i], |w| own.guest + interference(rows, offsets, i, w));
    let alone = alone.ok_or(refusal(7, i + 1))?;
    let both = own.guest + own.hyper;
    let enforced = least(1, own.period, |w| both + interference(rows, offsets, i, w));
    let enforced = enforced.ok_or(refusal(19, i + 1))?;
    Ok(alone.max(enforced.saturating_sub(own.period - offsets[i])))
}

/// F: hypertasks of the rows below, and the larger request bound of each row above.
fn interference(rows: &[Row], offsets: &[u64; MOST_TASKS], i: usize, w: u64) -> u64 {
    let below: u64 = rows[i + 1..].iter().map(|row| up(w, row.period) * row.hyper).sum();
    let above: u64 = rows[..i].iter().zip(offsets).map(|(row, &offset)| request_bound(row, offset, w)).sum();
    below + above
}

/// The larger of the bounds begun by a hypertask and begun by a guest.
fn request_bound(row: &Row, offset: u64, w: u64) -> u64 {
    let begun = up(w, row.period);
    let guests = later(w, row.period - offset, row.period);
    let hypertasks = later(w, offset, row.period);
    (guests * row.guest + begun * row.hyper).max(begun * row.guest + hypertasks * row.hyper)
}

/// How many of a period begin in a length w from `gap` on.
fn later(w: u64, gap: u64, period: u64) -> u64 {
    if w <= gap {
        0
    } else {
        up(w - gap, period)
    }
}
