//! What a run of the comparison has met, told from the second program's texts, and whether that
//! is enough.

use second::met::{demand, is_good, kinds, name, Counts, Demand};
use second::plan::file::script;
use second::text::made_up::{Case, KINDS};

const FEWEST_PLANS: usize = 20_000;
const FEWEST_TICKS: usize = 1_000_000;
/// A run that meets something less often than this shows too little about it.
const FEWEST_OF_A_SIZE: usize = 100;
const FEWEST_OF_A_REFUSAL: usize = 100;
const FEWEST_OF_A_WORD: usize = 1_000;
const FEWEST_LONG: usize = 50;

/// The numbers that a plan or its table can be refused with: 1 and 4 come before or behind no
/// plan file.
const REFUSALS: [u32; 11] = [2, 3, 5, 6, 7, 19, 13, 14, 15, 16, 17];
/// The numbers that a tick can be refused with in a run from a fresh start. A machine that has
/// been started stays well formed, no script is 2^40 long, and a hypertask of an accepted table
/// is done before its period is.
const REFUSED_TICKS: [u32; 2] = [10, 11];
const WHO: [char; 3] = ['I', 'G', 'H'];
const MARKS: [&str; 3] = ["-", "O", "S"];

#[derive(Default)]
pub struct Tally {
    pub same: usize,
    pub different: usize,
    of_kind: Counts<String>,
    accepted: usize,
    /// Accepted plans by their number of rows.
    of_rows: Counts<usize>,
    without_script: usize,
    with_8_000_records: usize,
    refused: Counts<u32>,
    too_long: usize,
    ticks: usize,
    who: Counts<char>,
    marks: Counts<String>,
    ignored: usize,
    refused_ticks: Counts<u32>,
    /// Tasks with a job still open at the end, and with totals of four digits.
    open: usize,
    large_totals: usize,
    longest_text: usize,
}

impl Tally {
    /// A plan whose text is the same on both sides, or isn't.
    pub fn count(&mut self, case: &Case, text: &[u8], same: bool) {
        self.same += usize::from(same);
        self.different += usize::from(!same);
        self.of_kind.meet(name(case.kind));
        self.too_long += usize::from(case.file.len() > 65_536);
        self.longest_text = self.longest_text.max(text.len());
        for line in std::str::from_utf8(text).unwrap().lines() {
            self.count_line(case, &line.split(' ').collect::<Vec<_>>());
        }
    }

    fn count_line(&mut self, case: &Case, words: &[&str]) {
        match words {
            ["ACCEPT", tasks] => self.count_accepted(case, tasks.parse().unwrap()),
            ["REFUSE", number, _] => self.refused.meet(number.parse().unwrap()),
            [_, "REFUSE", number, _] => self.refused_ticks.meet(number.parse().unwrap()),
            [_, who, mark, ignored] => {
                self.ticks += 1;
                self.who.meet(who.chars().next().unwrap());
                self.marks.meet(mark.to_string());
                self.ignored += usize::from(*ignored == "1");
            }
            ["TASK", _, arrived, _, _, open] => {
                self.open += usize::from(*open == "1");
                self.large_totals += usize::from(arrived.len() >= 4);
            }
            _ => {}
        }
    }

    fn count_accepted(&mut self, case: &Case, tasks: usize) {
        self.accepted += 1;
        self.of_rows.meet(tasks);
        let records = script(&case.file).len() / 8;
        self.without_script += usize::from(records == 0);
        self.with_8_000_records += usize::from(records >= 8_000);
    }

    fn met(&self) -> Vec<Demand> {
        let refusal = |n| demand(format!("refused with {n}"), self.refused.of(n), FEWEST_OF_A_REFUSAL);
        let rows = self.of_rows.fewest(1..=32);
        [
            vec![demand("plans", self.same + self.different, FEWEST_PLANS)],
            kinds(KINDS.map(|(kind, _)| kind), &self.of_kind, 0),
            vec![demand("accepted", self.accepted, 0)],
            vec![demand("  of 1 to 32 rows, each at least", rows, FEWEST_OF_A_SIZE)],
            vec![demand("  without a script", self.without_script, FEWEST_OF_A_SIZE)],
            vec![demand("  with 8,000 records or more", self.with_8_000_records, FEWEST_LONG)],
            REFUSALS.map(refusal).to_vec(),
            vec![demand("longer than 65,536 bytes", self.too_long, FEWEST_OF_A_REFUSAL)],
            self.met_in_ticks(),
            vec![demand("tasks with an open job", self.open, FEWEST_OF_A_WORD)],
            vec![demand("tasks with 1,000 jobs or more", self.large_totals, FEWEST_LONG / 5)],
            vec![demand("bytes of the longest text", self.longest_text, 0)],
            vec![demand("plans the same", self.same, FEWEST_PLANS)],
        ]
        .concat()
    }

    fn met_in_ticks(&self) -> Vec<Demand> {
        let who = |who| demand(format!("  {who} ran"), self.who.of(who), FEWEST_OF_A_WORD);
        let mark =
            |mark: &str| demand(format!("  mark {mark}"), self.marks.of(mark.to_string()), FEWEST_OF_A_WORD);
        let refusal =
            |n| demand(format!("ticks refused with {n}"), self.refused_ticks.of(n), FEWEST_OF_A_WORD);
        [
            vec![demand("ticks", self.ticks, FEWEST_TICKS)],
            WHO.map(who).to_vec(),
            MARKS.map(mark).to_vec(),
            vec![demand("  a signal ignored", self.ignored, FEWEST_OF_A_WORD)],
            REFUSED_TICKS.map(refusal).to_vec(),
        ]
        .concat()
    }

    /// Prints the tally and what is amiss, and answers whether nothing is.
    pub fn is_good(&self) -> bool {
        let otherwise = ("refused with another number", self.refused.others(&REFUSALS).total());
        is_good(&self.met(), &[otherwise, ("different", self.different)])
    }
}
