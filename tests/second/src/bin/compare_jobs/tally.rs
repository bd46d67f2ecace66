//! What a run of the comparison has met, and whether that is enough.

use second::jobs::books::Books;
use second::jobs::made_up::{MadeUp, KINDS};
use second::met::{demand, is_good, kinds, name, Counts, Demand};

/// A comparison that meets something less often than this shows too little about it.
const FEWEST_RUNS: usize = 20_000;
const FEWEST_OF_A_KIND: usize = 10_000;
const FEWEST_OF_A_SIZE: usize = 100;
const FEWEST_DUE: usize = 300_000;
const FEWEST_GUEST_OUTPUTS: usize = 100_000;
const FEWEST_HYPERTASK_OUTPUTS: usize = 200_000;
const FEWEST_REFUSED: usize = 100_000;
const FEWEST_OPEN: usize = 10_000;

#[derive(Default)]
pub struct Tally {
    runs: usize,
    of_kind: Counts<String>,
    /// Runs by their number of rows.
    of_rows: Counts<usize>,
    /// Runs in which several jobs of several tasks, or of the only one, were due.
    with_several: usize,
    taken: u64,
    refused: usize,
    jobs: usize,
    due: usize,
    guest_outputs: usize,
    hypertask_outputs: usize,
    open: usize,
    faulty: usize,
}

impl Tally {
    /// Counts a run with its books, if there are any, and whether it is a faulty one.
    pub fn count(&mut self, made_up: &MadeUp, books: Option<&Books>, faulty: bool) {
        self.runs += 1;
        self.of_kind.meet(name(made_up.kind));
        self.of_rows.meet(made_up.table.len() / 4);
        self.faulty += usize::from(faulty);
        if let Some(books) = books {
            self.count_books(books);
        }
    }

    fn count_books(&mut self, books: &Books) {
        let several = books.due.iter().filter(|due| **due > 1).count();
        self.with_several += usize::from(several >= books.due.len().min(2));
        self.taken += books.taken;
        self.refused += books.refused;
        self.jobs += books.jobs;
        self.due += books.due.iter().sum::<usize>();
        self.guest_outputs += books.guest_outputs;
        self.hypertask_outputs += books.hypertask_outputs;
        self.open += books.open;
    }

    fn met(&self) -> Vec<Demand> {
        let rows = self.of_rows.fewest(1..=32);
        let of_jobs = vec![
            demand("  of 1 to 32 rows, each at least", rows, FEWEST_OF_A_SIZE),
            demand("  with several due jobs of several tasks", self.with_several, FEWEST_RUNS),
            demand("ticks taken", self.taken as usize, 0),
            demand("ticks refused", self.refused, FEWEST_REFUSED),
            demand("jobs", self.jobs, 0),
            demand("  due", self.due, FEWEST_DUE),
            demand("  with the guest's output", self.guest_outputs, FEWEST_GUEST_OUTPUTS),
            demand("  with the hypertask's output", self.hypertask_outputs, FEWEST_HYPERTASK_OUTPUTS),
            demand("  open before their deadline at the end", self.open, FEWEST_OPEN),
        ];
        let runs = vec![demand("runs", self.runs, FEWEST_RUNS)];
        [runs, kinds(KINDS, &self.of_kind, FEWEST_OF_A_KIND), of_jobs].concat()
    }

    /// Prints the tally and what is amiss, and answers whether nothing is.
    pub fn is_good(&self) -> bool {
        is_good(&self.met(), &[("faulty runs", self.faulty)])
    }
}
