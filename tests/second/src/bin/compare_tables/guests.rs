//! What a run of the comparison has met of the two refusals that a guest can have, 7 and 19: where,
//! and what a program that looks in another order would have told.

use second::answer::Refusal;
use second::met::{demand, name, Counts, Demand};
use second::tables::analysis::windows;
use second::tables::made_up::{Case, Kind};

/// A table of so many rows has many.
const MANY: usize = 8;

const AT_TASK_1: &str = "at task 1 of several";
const BEFORE_THE_LAST: &str = "at a task before the last";
const OF_MANY_ROWS: &str = "in a table of 8 rows or more";
const BOTH_FAIL: &str = "where the other window fails too";
const LATER_7: &str = "where a later task would get 7";
const LATER_19: &str = "where a later task would get 19";

/// What has to be met of 7 and of 19, and how often.
const OF_7: [(&str, usize); 5] = [
    (AT_TASK_1, 1_000),
    (BEFORE_THE_LAST, 1_000),
    (OF_MANY_ROWS, 1_000),
    (BOTH_FAIL, 1_000),
    (LATER_19, 200),
];
const OF_19: [(&str, usize); 4] =
    [(AT_TASK_1, 100), (BEFORE_THE_LAST, 1_000), (OF_MANY_ROWS, 1_000), (LATER_7, 1_000)];

/// The kinds that 19 has to be met in, and how often in each.
const KINDS_OF_19: [(Kind, usize); 2] = [(Kind::Tight, 500), (Kind::Windows, 1_000)];

#[derive(Default)]
pub struct Guests {
    met: Counts<(u32, &'static str)>,
    of_kind: Counts<(u32, String)>,
}

impl Guests {
    /// A table that is refused with 7 or 19.
    pub fn count(&mut self, case: &Case, refusal: Refusal) {
        let (task, tasks) = (refusal.place as usize, case.table.len() / 4);
        let windows = windows(&case.table).expect("a table with enforcement offsets");
        let (own, later) = (windows[task - 1], &windows[task..]);
        let is_so = [
            (AT_TASK_1, task == 1 && tasks > 1),
            (BEFORE_THE_LAST, task < tasks),
            (OF_MANY_ROWS, tasks >= MANY),
            (BOTH_FAIL, own == (None, None)),
            (LATER_7, later.iter().any(|(wa, _)| wa.is_none())),
            (LATER_19, later.iter().any(|(wa, we)| wa.is_some() && we.is_none())),
        ];
        for (what, _) in is_so.into_iter().filter(|(_, is_so)| *is_so) {
            self.met.meet((refusal.number, what));
        }
        self.of_kind.meet((refusal.number, name(case.kind)));
    }

    /// What has to be met of this number, each under its line.
    pub fn met(&self, number: u32) -> Vec<Demand> {
        let met = |(what, fewest): &(&'static str, usize)| {
            demand(what_of(what), self.met.of((number, *what)), *fewest)
        };
        let of_kind = |(kind, fewest): (Kind, usize)| {
            let count = self.of_kind.of((number, name(kind)));
            demand(what_of(&format!("of the kind {}", name(kind))), count, fewest)
        };
        match number {
            7 => OF_7.iter().map(met).collect(),
            19 => OF_19.iter().map(met).chain(KINDS_OF_19.map(of_kind)).collect(),
            _ => Vec::new(),
        }
    }
}

fn what_of(what: &str) -> String {
    format!("  {what}")
}
