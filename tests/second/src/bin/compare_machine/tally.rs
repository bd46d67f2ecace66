//! What a run of the comparison has met, and whether that is enough.

use crate::outcome::{Called, Outcome};
use crate::steps::{self, Steps};
use second::answer::refusal;
use second::lent::Lent;
use second::machine::damages::{DAMAGES, READABLE};
use second::machine::made_up::{Begin, Call, Case, KINDS};
use second::machine::numbers::{ANSWER, RECORD};
use second::machine::scripts::Met;
use second::met::{demand, is_good, kinds, name, Counts, Demand};

/// A run that meets something less often than this shows too little about it.
const FEWEST_OF_ANYTHING: usize = 200;
const FEWEST_OF_A_SIZE: usize = 100;
const FEWEST_OF_AN_ANSWER: usize = 1_000;
const FEWEST_MACHINES: usize = 20_000;
const FEWEST_TICKS: usize = 2_000_000;

const WHO: [&str; 3] = ["nobody", "guest", "hypertask"];
const MARKS: [&str; 3] = ["neither", "output", "budget used up"];
/// The numbers that a start can be refused with.
const OF_A_START: [u32; 8] = [1, 2, 3, 5, 6, 7, 19, 18];

#[derive(Default)]
pub struct Tally {
    machines: usize,
    of_kind: Counts<String>,
    started: usize,
    /// Starts that are accepted, by their number of rows.
    of_rows: Counts<usize>,
    start_refused: Counts<u32>,
    calls: usize,
    /// Calls that answer fewer ticks than there are records.
    cut_short: usize,
    ticks: usize,
    accepted: usize,
    /// By the place in WHO and in MARKS.
    who: Counts<usize>,
    marks: Counts<usize>,
    ignored: usize,
    refused: Counts<u32>,
    steps: Steps,
    of_damage: Counts<usize>,
    /// Damaged machines that are not answered with 8 at place 0 and given back as they were.
    damage_unseen: usize,
    /// What the scripts have brought about.
    met: Counts<String>,
    different: usize,
}

impl Tally {
    /// Counts what the second program makes of the case.
    pub fn count(&mut self, case: &Case, expected: &Outcome, same: bool) {
        self.machines += 1;
        self.of_kind.meet(name(case.kind));
        self.different += usize::from(!same);
        self.count_start(expected);
        for (called, call) in expected.calls.iter().zip(&case.calls) {
            self.count_call(case, call, called);
        }
        for (name, times) in case.met.counts() {
            self.met.meet_times(name, times);
        }
        if let Some(damage) = case.damage {
            self.of_damage.meet(damage);
            self.damage_unseen += usize::from(!is_refused_with_8_throughout(case, expected));
        }
    }

    fn count_start(&mut self, expected: &Outcome) {
        match expected.start {
            Some(Ok(tasks)) => {
                self.started += 1;
                self.of_rows.meet(tasks as usize);
            }
            Some(Err(refusal)) => self.start_refused.meet(refusal.number),
            None => {}
        }
    }

    fn count_call(&mut self, case: &Case, call: &Call, called: &Called) {
        let ticks = called.returned.unwrap_or(0) as usize;
        self.calls += 1;
        self.ticks += ticks;
        self.cut_short += usize::from(ticks < call.records.len().div_ceil(RECORD));
        for answer in called.answers.part().chunks_exact(ANSWER).take(ticks) {
            self.count_answer(answer);
        }
        if let (Some(step), Some(stepped)) = (call.step, &called.stepped) {
            self.steps.count(case, step, stepped);
        }
    }

    fn count_answer(&mut self, answer: &[u8]) {
        let [who, task_or_number, mark, ignored] = [8, 9, 10, 11].map(|place| usize::from(answer[place]));
        if who == 3 {
            self.refused.meet(task_or_number as u32);
            return;
        }
        self.accepted += 1;
        self.who.meet(who);
        self.marks.meet(mark);
        self.ignored += ignored;
    }

    fn met(&self) -> Vec<Demand> {
        let refused =
            |n| demand(format!("  start refused with {n}"), self.start_refused.of(n), FEWEST_OF_ANYTHING);
        let rows = self.of_rows.fewest(1..=32);
        [
            vec![demand("machines", self.machines, FEWEST_MACHINES)],
            kinds(KINDS.map(|(kind, _)| kind), &self.of_kind, 0),
            vec![demand("started", self.started, 0)],
            vec![demand("  of 1 to 32 rows, each at least", rows, FEWEST_OF_A_SIZE)],
            OF_A_START.map(refused).to_vec(),
            vec![demand("calls", self.calls, 0)],
            vec![demand("  with fewer answers than records", self.cut_short, FEWEST_OF_ANYTHING)],
            self.met_in_ticks(),
            self.met_damages(),
            self.steps.met(),
        ]
        .concat()
    }

    fn met_in_ticks(&self) -> Vec<Demand> {
        let who = |i: usize| demand(format!("  {} ran", WHO[i]), self.who.of(i), FEWEST_OF_AN_ANSWER);
        let mark = |i: usize| demand(format!("  mark: {}", MARKS[i]), self.marks.of(i), FEWEST_OF_AN_ANSWER);
        let refusal = |n| demand(format!("  refusal {n}"), self.refused.of(n), FEWEST_OF_AN_ANSWER);
        let met =
            |(name, _): (String, usize)| demand(format!("  {name}"), self.met.of(name), FEWEST_OF_ANYTHING);
        [
            vec![demand("ticks", self.ticks, FEWEST_TICKS)],
            vec![demand("  accepted", self.accepted, 0)],
            (0..WHO.len()).map(who).collect(),
            (0..MARKS.len()).map(mark).collect(),
            vec![demand("  a signal ignored", self.ignored, FEWEST_OF_AN_ANSWER)],
            (8..=12).map(refusal).collect(),
            Met::default().counts().into_iter().map(met).collect(),
        ]
        .concat()
    }

    /// Each is answered with 8 and given back unchanged.
    fn met_damages(&self) -> Vec<Demand> {
        let damage = |i: usize| {
            let name = format!("  {}", DAMAGES[i].name);
            demand(name, self.of_damage.of(i), FEWEST_OF_ANYTHING)
        };
        let all = vec![demand("damaged machines, answered with 8", self.of_damage.within(0..=usize::MAX), 0)];
        [all, (0..DAMAGES.len()).map(damage).collect()].concat()
    }

    /// Prints the tally and what is amiss, and answers whether nothing is.
    pub fn is_good(&self) -> bool {
        let unseen = ("damaged machines not answered with 8", self.damage_unseen);
        let otherwise =
            ("starts refused with another number", self.start_refused.others(&OF_A_START).total());
        is_good(&self.met(), &[unseen, otherwise, ("different", self.different)])
    }
}

fn is_refused_with_8_throughout(case: &Case, expected: &Outcome) -> bool {
    let (Begin::Numbers(numbers), Some(damage)) = (&case.begin, case.damage) else {
        return false;
    };
    let numbers = Lent::holding(numbers);
    let readable = DAMAGES[damage].clause != READABLE;
    expected.calls.iter().zip(&case.calls).all(|(called, call)| {
        let said = if readable { says_8(called) } else { is_refused_with_8(call, called) };
        let mut steps = called.stepped.iter().zip(call.step);
        let stepped = steps.all(|(stepped, step)| steps::is_refused(case, step, stepped, &numbers));
        said && stepped && called.state == numbers
    })
}

/// Every tick is answered with 8.
fn says_8(called: &Called) -> bool {
    let mut answers = called.answers.part().chunks_exact(ANSWER);
    called.returned.is_ok() && answers.all(|answer| answer[4..] == [0, 0, 0, 0, 3, 8, 0, 0])
}

/// No tick is answered.
fn is_refused_with_8(call: &Call, called: &Called) -> bool {
    called.returned == Err(refusal(8, 0)) && called.answers == Lent::new(call.answers)
}
