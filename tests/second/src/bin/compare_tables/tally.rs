//! What a run of the comparison has met, and whether that is enough.

use crate::guests::Guests;
use second::answer::{Answer, Refusal};
use second::met::{demand, is_good, kinds, name, Counts, Demand};
use second::tables::made_up::{Case, KINDS};

/// A run that meets an answer less often than this shows too little about it.
const FEWEST_ACCEPTED: usize = 500;
const FEWEST_OF_A_SIZE: usize = 100;
const FEWEST_TABLES: usize = 200_000;

/// The numbers that a table can be refused with, and how often each has to be met.
const REFUSALS: [(u32, usize); 8] =
    [(1, 500), (2, 500), (3, 500), (4, 500), (5, 500), (6, 500), (7, 1_000), (19, 1_000)];

#[derive(Default)]
pub struct Tally {
    tables: usize,
    of_kind: Counts<String>,
    accepted: usize,
    /// Accepted tables by their number of rows.
    of_rows: Counts<usize>,
    refused: Counts<u32>,
    guests: Guests,
    different: usize,
}

impl Tally {
    pub fn count(&mut self, case: &Case, answer: &Answer, same: bool) {
        self.tables += 1;
        self.of_kind.meet(name(case.kind));
        match answer {
            Ok(tasks) => {
                self.accepted += 1;
                self.of_rows.meet(*tasks as usize);
            }
            Err(refusal) => self.count_refused(case, *refusal),
        }
        self.different += usize::from(!same);
    }

    fn count_refused(&mut self, case: &Case, refusal: Refusal) {
        self.refused.meet(refusal.number);
        if [7, 19].contains(&refusal.number) {
            self.guests.count(case, refusal);
        }
    }

    fn met(&self) -> Vec<Demand> {
        let rows = self.of_rows.fewest(1..=32);
        let refusal = |(number, fewest)| {
            let all = demand(format!("refusal {number}"), self.refused.of(number), fewest);
            [vec![all], self.guests.met(number)].concat()
        };
        [
            vec![demand("tables", self.tables, FEWEST_TABLES)],
            kinds(KINDS.map(|(kind, _)| kind), &self.of_kind, 0),
            vec![demand("accepted", self.accepted, FEWEST_ACCEPTED)],
            vec![demand("  of 1 to 32 rows, each at least", rows, FEWEST_OF_A_SIZE)],
            REFUSALS.into_iter().flat_map(refusal).collect(),
            self.refused_otherwise().lines(),
        ]
        .concat()
    }

    /// With numbers that no table is refused with.
    fn refused_otherwise(&self) -> Counts<u32> {
        self.refused.others(&REFUSALS.map(|(number, _)| number))
    }

    /// Prints the tally and what is amiss, and answers whether nothing is.
    pub fn is_good(&self) -> bool {
        let otherwise = ("refused with another number", self.refused_otherwise().total());
        is_good(&self.met(), &[otherwise, ("different", self.different)])
    }
}
