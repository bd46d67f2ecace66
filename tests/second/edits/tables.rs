//! The faults of an analysis.

use super::{edit, Edit, Source};

pub const ANALYSIS: Source =
    Source { file: "src/tables/analysis.rs", edits: EDITS, program: |module| format!("{module}::analyse") };

// Texts that several edits find, and what they put there.

const BOTH_WINDOWS: &str = "let WA = WA(rows, E, i).ok_or(refusal(7, i + 1))?;\n    \
     let WE = WE(rows, E, i).ok_or(refusal(19, i + 1))?;";
const SWAPPED: &str = "let WA = WA(rows, E, i).ok_or(refusal(19, i + 1))?;\n    \
     let WE = WE(rows, E, i).ok_or(refusal(7, i + 1))?;";
const IN_THE_OTHER_ORDER: &str = "let WE = WE(rows, E, i).ok_or(refusal(19, i + 1))?;\n    \
     let WA = WA(rows, E, i).ok_or(refusal(7, i + 1))?;";
const EVERY_GUEST: &str = "(0..rows.len()).map(|i| G(rows, E, i)).collect()";
const EVERY_HYPERTASK: &str = "(0..rows.len()).map(|i| R(rows, i)).collect()";

/// This window of every row before the other window of any row.
macro_rules! window_of_every_guest_first {
    ($window:literal, $number:literal) => {
        concat!(
            "for i in 0..rows.len() { ",
            $window,
            "(rows, E, i).ok_or(refusal(",
            $number,
            ", i + 1))?; }\n    (0..rows.len()).map(|i| G(rows, E, i)).collect()",
        )
    };
}

/// A guest that gets this number is told before the next row's hypertask is looked at.
macro_rules! guest_after_its_hypertask {
    ($number:literal) => {
        concat!(
            "let (mut all, mut E) = (vec![], vec![]);\n    for i in 0..rows.len() {\n        \
             all.push(R(rows, i)?);\n        E.push(rows[i].D - all[i]);\n        \
             let fails = G(rows, &E, i).err().filter(|why| why.number == ",
            $number,
            ");\n        if let Some(why) = fails { return Err(why) }\n    }\n    Ok(all)",
        )
    };
}

const EDITS: &[Edit] = &[
    // The shape of what was handed in.
    edit("33 rows let through", "LONGEST_TABLE: usize = 128", "LONGEST_TABLE: usize = 132"),
    edit(
        "numbers past the last four ignored",
        "check_length(table)?;",
        "let table = &table[..table.len() / 4 * 4];\n    check_length(table)?;",
    ),
    edit("place of 1 is the number of rows", "refusal(1, length)", "refusal(1, length / 4)"),
    edit("no numbers at all let through", "length < 4 ||", "length % 4 != 0 ||"),
    edit("1,000,001 let through", "LARGEST_FIELD: u32 = 1_000_000", "LARGEST_FIELD: u32 = 1_000_001"),
    edit("1,000,000 not let through", "1..=LARGEST_FIELD", "1..LARGEST_FIELD"),
    edit("1 not let through", "1..=LARGEST_FIELD", "2..=LARGEST_FIELD"),
    edit("place of 2 from 1", "refusal(2, place)", "refusal(2, place + 1)"),
    edit(
        "3 before 2",
        "check_fields(table)?;\n    check_deadlines(table)?;",
        "check_deadlines(table)?;\n    check_fields(table)?;",
    ),
    edit("D equal to T not let through", "row[1] > row[0]", "row[1] >= row[0]"),
    edit("place of 3 from 0", "refusal(3, i + 1)", "refusal(3, i)"),
    edit(
        "4 before 3",
        "check_deadlines(table)?;\n    check_room(table, results)?;",
        "check_room(table, results)?;\n    check_deadlines(table)?;",
    ),
    edit(
        "4 after 5 and 6",
        "check_room(table, results)?;\n    let rows = rows_of(table);\n    \
         let R = hypertask_responses(&rows)?;",
        "let rows = rows_of(table);\n    let R = hypertask_responses(&rows)?;\n    \
         check_room(table, results)?;",
    ),
    edit("one place more asked for", "results.len() < needed", "results.len() <= needed"),
    edit("place of 4 is what was lent", "refusal(4, needed)", "refusal(4, results.len())"),
    // Hypertask.
    edit("B left out", ".max().unwrap_or(0)", ".max().unwrap_or(0) * 0"),
    edit("B less 1", ".max().unwrap_or(0)", ".max().map_or(0, |k| k - 1)"),
    edit("B less 2", ".max().unwrap_or(0)", ".max().map_or(0, |k| (k - 2).max(0))"),
    edit("B from the row itself on", "rows[i + 1..].iter()", "rows[i..].iter()"),
    edit("limit of t one too large", "PERIOD: i64 = 4_000_000", "PERIOD: i64 = 4_000_001"),
    edit("limit of t one too small", "PERIOD: i64 = 4_000_000", "PERIOD: i64 = 3_999_999"),
    edit(
        "equation 2 stopped at its first step",
        "least(0, limit, |w|",
        "let first_step = |f: &dyn Fn(i64) -> i64| Some(f(0)).filter(|w| *w <= limit);\n    first_step(&|w|",
    ),
    edit("up(w/T) in place of up(w/T) + 1", "(up(w, j.T) + 1) * j.K", "up(w, j.T) * j.K"),
    edit("limit of w one too large", "own.D - own.K +", "own.D - own.K + 1 +"),
    edit("limit of w one too small", "own.D - own.K +", "own.D - own.K - 1 +"),
    edit("E one later", "row.D - R)", "row.D - R + 1)"),
    edit("6 in place of 5", "refusal(5, i + 1)", "refusal(6, i + 1)"),
    edit("5 in place of 6", "refusal(6, i + 1)", "refusal(5, i + 1)"),
    // Guest.
    edit(
        "only the bound begun by a guest",
        "begun_by_a_hypertask(row, E, w).max(begun_by_a_guest(row, E, w))",
        "begun_by_a_guest(row, E, w)",
    ),
    edit(
        "only the bound begun by a hypertask",
        "begun_by_a_hypertask(row, E, w).max(begun_by_a_guest(row, E, w))",
        "begun_by_a_hypertask(row, E, w)",
    ),
    edit("E in place of T - E", "up(w - (row.T - E), row.T)", "up(w - E.min(w), row.T)"),
    edit(
        "begun by a guest one tick early",
        "if w <= E {",
        "if w < E { 0 } else if w == E { 1 } else if w < E {",
    ),
    edit("rows below left out of F", "below + (0..i)", "below * 0 + (0..i)"),
    edit("limit of WA one too large", "let limit = E[i];", "let limit = E[i] + 1;"),
    edit("limit of WA one too small", "let limit = E[i];", "let limit = E[i] - 1;"),
    edit("limit of WE one too large", "let limit = rows[i].T;", "let limit = rows[i].T + 1;"),
    edit("limit of WE one too small", "let limit = rows[i].T;", "let limit = rows[i].T - 1;"),
    edit("K left out of WE", "rows[i].C + rows[i].K +", "rows[i].C +"),
    edit("WE not looked at", "WE(rows, E, i).ok_or(refusal(19, i + 1))?", "0"),
    edit("WA held to T", "let limit = E[i];", "let limit = rows[i].T;"),
    edit("WE held to E", "let limit = rows[i].T;", "let limit = E[i];"),
    edit("G is WA alone", "Ok(WA.max(WE - (rows[i].T - E[i])))", "Ok(WA.max(WE - WE))"),
    edit("G is WE alone", "Ok(WA.max(WE -", "Ok((WE -"),
    // Which of the two windows is told, and of which row.
    edit("7 and 19 swapped", BOTH_WINDOWS, SWAPPED),
    edit("7 for both windows", "refusal(19, i + 1)", "refusal(7, i + 1)"),
    edit("19 for both windows", "refusal(7, i + 1)", "refusal(19, i + 1)"),
    edit("19 before 7 in a row", BOTH_WINDOWS, IN_THE_OTHER_ORDER),
    edit("19 after 7 of every row", EVERY_GUEST, window_of_every_guest_first!("WA", 7)),
    edit("7 after 19 of every row", EVERY_GUEST, window_of_every_guest_first!("WE", 19)),
    edit(
        "the last guest that fails told",
        EVERY_GUEST,
        "(0..rows.len()).rev().try_for_each(|i| G(rows, E, i).map(|_| ()))?;\n    \
         (0..rows.len()).map(|i| G(rows, E, i)).collect()",
    ),
    edit("place of 7 from 0", "refusal(7, i + 1)", "refusal(7, i)"),
    edit("place of 19 from 0", "refusal(19, i + 1)", "refusal(19, i)"),
    edit("7 before 5 and 6 of the rows below", EVERY_HYPERTASK, guest_after_its_hypertask!(7)),
    edit("19 before 5 and 6 of the rows below", EVERY_HYPERTASK, guest_after_its_hypertask!(19)),
    edit(
        "4 after 7 and 19",
        "check_room(table, results)?;\n    let rows = rows_of(table);\n    \
         let R = hypertask_responses(&rows)?;\n    let E = enforcement_offsets(&rows, &R);\n    \
         let G = guest_responses(&rows, &E)?;",
        "let rows = rows_of(table);\n    let R = hypertask_responses(&rows)?;\n    \
         let E = enforcement_offsets(&rows, &R);\n    let G = guest_responses(&rows, &E)?;\n    \
         check_room(table, results)?;",
    ),
    // What is written.
    edit(
        "one place too many written",
        "results[3 * i + 2] = G[i] as u32;",
        "results[3 * i + 2] = G[i] as u32;\n        \
         results.iter_mut().skip(3 * i + 3).take(1).for_each(|r| *r = 0);",
    ),
    edit(
        "R and E written before 7 is looked at",
        "let G = guest_responses(&rows, &E)?;",
        "write(results, &R, &E, &E);\n    let G = guest_responses(&rows, &E)?;",
    ),
    edit(
        "results cleared up front",
        "let rows = rows_of(table);",
        "let rows = rows_of(table);\n    results.fill(0);",
    ),
    edit("the last task not counted", "Ok(rows.len() as u64)", "Ok(rows.len() as u64 - 1)"),
];
