//! What a run of the comparison has met, and whether that is enough.

use second::answer::{Answer, Refusal};
use second::met::{demand, is_good, kinds, name, Counts, Demand};
use second::plan::file::{rows, script};
use second::plan::made_up::{Case, Kind, KINDS};
use std::ops::RangeInclusive;

const FEWEST_FILES: usize = 1_000_000;
const FEWEST_INPUTS: usize = 100_000;

/// A run that meets an answer less often than this shows too little about it.
const FEWEST_OF_AN_ANSWER: usize = 500;
const FEWEST_OF_A_SIZE: usize = 100;

/// The reader's refusals that have to be met: what it is for, number, places.
const REFUSALS: [(&str, u32, RangeInclusive<u64>); 11] = [
    ("too short", 13, 0..=3),
    ("too long", 13, 65_537..=u64::MAX),
    ("place 0", 14, 0..=0),
    ("entry 1", 14, 1..=1),
    ("entry 2", 14, 2..=2),
    ("entry 1", 15, 1..=1),
    ("entry 2", 15, 2..=2),
    ("entry 1", 16, 1..=1),
    ("entry 2", 16, 2..=2),
    ("first record", 17, 0..=0),
    ("later record", 17, 1..=u64::MAX),
];

/// The writer's refusals that have to be met.
const WRITER_REFUSALS: [u32; 5] = [1, 13, 16, 17, 18];

/// Scripts of accepted files that have to be met, in records, and how often.
const SCRIPTS: [(usize, usize); 4] = [(0, 5_000), (1, 5_000), (8, 5_000), (8_000, 100)];

/// Totals that have to be met: the longest that a sound file has, the limit itself, which no
/// sound file has, one byte past it, and one record more than the longest.
const TOTALS: [usize; 4] = [65_532, 65_536, 65_537, 65_540];

/// Totals of what the writer is to write that have to be met.
const WRITER_TOTALS: [usize; 2] = [65_532, 65_540];

#[derive(Default)]
pub struct Tally {
    files: usize,
    of_kind: Counts<String>,
    of_total: Counts<usize>,
    accepted: usize,
    /// Accepted files by their number of rows, and of records.
    of_rows: Counts<usize>,
    of_records: Counts<usize>,
    /// The reader's refusals by number and place.
    refused: Counts<(u32, u64)>,
    inputs: usize,
    /// What the writer was to write, where that was its place: the total.
    to_write: Counts<usize>,
    written: usize,
    /// The writer's refusals by number.
    not_written: Counts<u32>,
    pub different: usize,
}

impl Tally {
    /// A case with the same outcome on both sides.
    pub fn count(&mut self, case: &Case, answer: &Answer) {
        match case {
            Case::Reading { kind, file } => self.count_file(*kind, file, answer),
            Case::Writing { .. } => self.count_input(answer),
        }
    }

    fn count_file(&mut self, kind: Kind, file: &[u8], answer: &Answer) {
        self.files += 1;
        self.of_kind.meet(name(kind));
        self.of_total.meet(file.len());
        match answer {
            Ok(_) => {
                self.accepted += 1;
                self.of_rows.meet(rows(file).len() / 16);
                self.of_records.meet(script(file).len() / 8);
            }
            Err(Refusal { number, place }) => self.refused.meet((*number, *place)),
        }
    }

    fn count_input(&mut self, answer: &Answer) {
        self.inputs += 1;
        match answer {
            Ok(total) => {
                self.written += 1;
                self.to_write.meet(*total as usize);
            }
            Err(Refusal { number, place }) => {
                self.not_written.meet(*number);
                if *number == 13 {
                    self.to_write.meet(*place as usize);
                }
            }
        }
    }

    fn refused_at(&self, number: u32, places: &RangeInclusive<u64>) -> usize {
        self.refused.within((number, *places.start())..=(number, *places.end()))
    }

    fn met(&self) -> Vec<Demand> {
        [vec![demand("files", self.files, FEWEST_FILES)], self.met_in_files(), self.met_in_writing()].concat()
    }

    fn met_in_files(&self) -> Vec<Demand> {
        let read = KINDS.into_iter().map(|(kind, _)| kind).filter(|kind| *kind != Kind::Writing);
        let total = |n| demand(format!("  of {n} bytes"), self.of_total.of(n), FEWEST_OF_A_SIZE);
        let script = |(n, fewest)| demand(format!("  with {n} records"), self.of_records.of(n), fewest);
        let refusal = |(at, n, places)| {
            demand(format!("refusal {n}, {at}"), self.refused_at(n, &places), FEWEST_OF_AN_ANSWER)
        };
        let rows = self.of_rows.fewest(1..=32);
        [
            kinds(read, &self.of_kind, 0),
            TOTALS.map(total).to_vec(),
            vec![demand("accepted", self.accepted, 0)],
            vec![demand("  of 1 to 32 rows, each at least", rows, FEWEST_OF_A_SIZE)],
            SCRIPTS.map(script).to_vec(),
            REFUSALS.map(refusal).to_vec(),
        ]
        .concat()
    }

    fn met_in_writing(&self) -> Vec<Demand> {
        let refusal = |n| demand(format!("  refusal {n}"), self.not_written.of(n), FEWEST_OF_AN_ANSWER);
        let total = |n| demand(format!("  of {n} bytes to write"), self.to_write.of(n), FEWEST_OF_A_SIZE);
        [
            vec![demand("writer's inputs", self.inputs, FEWEST_INPUTS)],
            vec![demand("  written", self.written, FEWEST_OF_AN_ANSWER)],
            WRITER_REFUSALS.map(refusal).to_vec(),
            WRITER_TOTALS.map(total).to_vec(),
        ]
        .concat()
    }

    /// Prints the tally and what is amiss, and answers whether nothing is.
    pub fn is_good(&self) -> bool {
        is_good(&self.met(), &[("different", self.different)])
    }
}
