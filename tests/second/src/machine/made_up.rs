//! Made-up machines and scripts for the comparison: a table or the numbers of a machine to begin
//! with, and the tick records of each call.

#![allow(non_snake_case)]

use crate::dice::Dice;
use crate::machine::damages::{Damaged, DAMAGES};
use crate::machine::numbers::{given_by, numbers_of, ANSWER, NUMBERS, RECORD};
use crate::machine::rules::start;
use crate::machine::scripts::{script, Met};
use crate::machine::state::{Given, Machine, Row, Stage, LAST_CLOCK, WITHOUT_ROWS};
use crate::tables::made_up as tables;
use crate::turns::in_turns;

/// How many machines of each kind one run hands on.
pub const KINDS: [(Kind, usize); 6] = [
    (Kind::Accepted, 7_000),
    (Kind::AnyTable, 8_000),
    (Kind::HandBuilt, 10_000),
    (Kind::NearTheLastClock, 3_000),
    (Kind::Damaged, 300 * DAMAGES.len()),
    (Kind::Lent, 8_000),
];

/// Where a machine comes from.
#[derive(Clone, Copy, Debug, PartialEq, Eq)]
pub enum Kind {
    /// Started with an accepted table whose jobs come and go within the script.
    Accepted,
    /// Started with any table, accepted or refused.
    AnyTable,
    /// Well formed, but in a state that may be no table's.
    HandBuilt,
    /// Hand-built, with a clock that reaches 2^40.
    NearTheLastClock,
    /// Well formed but for one clause, or numbers that can't be read.
    Damaged,
    /// With lent memory or records that are too short or too long.
    Lent,
}

pub enum Begin {
    /// A table to start with, and how many numbers are lent for the machine.
    Table(Vec<u32>, usize),
    /// The lent numbers.
    Numbers(Vec<u64>),
}

/// The records of one call, and how many bytes are lent for its answers.
pub struct Call {
    pub records: Vec<u8>,
    pub answers: usize,
    /// A tick by itself before the call, on a copy of the machine: it may be refused where the
    /// same record in a run of them is taken.
    pub step: Option<Step>,
}

/// One tick, and how many bytes are lent for its answer.
#[derive(Clone, Copy)]
pub struct Step {
    pub given: Given,
    pub answer: usize,
}

pub struct Case {
    pub kind: Kind,
    /// The place in DAMAGES, for the damaged ones.
    pub damage: Option<usize>,
    pub begin: Begin,
    pub calls: Vec<Call>,
    pub met: Met,
}

const TURNS: usize = 50;

/// Clocks at which every stage has room for its arrival: one beyond all fields, one where 32
/// bits are full, one in the middle, and the last.
pub const LATE_CLOCKS: [u64; 4] = [3_000_000, (1 << 32) + 10, 1 << 39, LAST_CLOCK];

/// Hands on every case of one run, until `take` answers false.
pub fn hand_on(seed: u64, take: &mut dyn FnMut(&Case) -> bool) {
    let mut dice = Dice::new(seed);
    let mut tables = any_tables(seed).into_iter();
    let mut damage = 0;
    for kind in in_turns(TURNS, &KINDS) {
        let case = match kind {
            Kind::Accepted => accepted(&mut dice),
            Kind::AnyTable => any_table(&mut dice, tables.next().unwrap()),
            Kind::HandBuilt => on_hand_built(&mut dice),
            Kind::NearTheLastClock => near_the_last_clock(&mut dice),
            Kind::Damaged => {
                damage = (damage + 1) % DAMAGES.len();
                damaged(&mut dice, damage)
            }
            Kind::Lent => lent(&mut dice),
        };
        if !take(&case) {
            return;
        }
    }
}

/// The script's records in one call mostly, in calls of a few records or of one at times: so the
/// machine is looked at within the script too. Those that go record by record go by steps too.
fn calls(dice: &mut Dice, records: Vec<u8>) -> Vec<Call> {
    match dice.from_to(0, 19) {
        0 => stepped(dice, calls_of(1, &records)),
        1 => calls_of(dice.from_to(2, 9) as usize, &records),
        _ => calls_of(usize::MAX / RECORD, &records),
    }
}

fn calls_of(in_a_call: usize, records: &[u8]) -> Vec<Call> {
    let call =
        |part: &[u8]| Call { records: part.to_vec(), answers: part.len() / RECORD * ANSWER, step: None };
    records.chunks(RECORD * in_a_call).map(call).collect()
}

/// Each call with its first record as a step.
fn stepped(dice: &mut Dice, calls: Vec<Call>) -> Vec<Call> {
    let step =
        |call: Call| Call { step: call.records.get(..RECORD).map(|record| step_of(dice, record)), ..call };
    calls.into_iter().map(step).collect()
}

/// With room for its answer mostly, too little at times or more.
fn step_of(dice: &mut Dice, record: &[u8]) -> Step {
    let any = dice.from_to(0, ANSWER as u64 + 1) as usize;
    Step { given: given_by(record), answer: if dice.percent(80) { ANSWER } else { any } }
}

fn on_machine(dice: &mut Dice, kind: Kind, machine: Machine, ticks: u64) -> Case {
    let (records, met) = script(dice, machine, ticks);
    let calls = calls(dice, records);
    Case { kind, damage: None, begin: Begin::Numbers(numbers_of(&machine).to_vec()), calls, met }
}

fn on_table(dice: &mut Dice, kind: Kind, table: Vec<u32>, ticks: u64) -> Case {
    let (records, met) = script(dice, start(&table).0, ticks);
    let calls = calls(dice, records);
    let numbers = if dice.percent(90) { NUMBERS } else { dice.from_to(NUMBERS as u64, 300) as usize };
    Case { kind, damage: None, begin: Begin::Table(table, numbers), calls, met }
}

// Machines that are started.

fn accepted(dice: &mut Dice) -> Case {
    let rows = if dice.percent(50) { dice.from_to(1, 32) } else { dice.of_any_size(1, 32) };
    let table = accepted_table(dice, rows);
    let longest = table.chunks(4).map(|row| u64::from(row[0])).max().unwrap();
    let ticks = dice.from_to(longest, 3 * longest).min(400);
    on_table(dice, Kind::Accepted, table, ticks)
}

/// Short periods, made longer until the table is accepted.
pub fn accepted_table(dice: &mut Dice, rows: u64) -> Vec<u32> {
    table_accepted_by(dice, rows, &|table| start(table).1.is_ok())
}

/// The same with the word of another analysis.
pub fn table_accepted_by(dice: &mut Dice, rows: u64, accepts: &dyn Fn(&[u32]) -> bool) -> Vec<u32> {
    let (longest_guest, longest_hypertask) = (dice.from_to(1, 6), dice.one_of(&[1, 1, 2, 3, 5]));
    let mut periods: Vec<u64> = (0..rows).map(|_| dice.from_to(2, 6 * rows + 2)).collect();
    if dice.percent(70) {
        periods.sort_unstable();
    }
    let long_deadlines = dice.from_to(0, 100);
    let mut row = |T: u64| {
        let D = if dice.percent(long_deadlines) { T } else { dice.from_to(T * 2 / 3, T).max(1) };
        [T, D, dice.from_to(1, longest_guest), dice.from_to(1, longest_hypertask)]
    };
    let mut table: Vec<[u64; 4]> = periods.into_iter().map(&mut row).collect();
    loop {
        let fields: Vec<u32> = table.iter().flatten().map(|field| *field as u32).collect();
        if !asks_for_too_much(&table) && accepts(&fields) {
            return fields;
        }
        for [T, D, ..] in &mut table {
            (*T, *D) = (*T + *T / 8 + 1, *D + *D / 8 + 1);
            *D = (*D).min(*T);
        }
    }
}

/// More than all of the time, or nearly all. Such a table may take long to be refused.
fn asks_for_too_much(table: &[[u64; 4]]) -> bool {
    table.iter().map(|[T, _, C, K]| (C + K) as f64 / *T as f64).sum::<f64>() > 0.99
}

fn any_table(dice: &mut Dice, table: Vec<u32>) -> Case {
    let ticks = dice.from_to(1, 12);
    on_table(dice, Kind::AnyTable, table, ticks)
}

fn any_tables(seed: u64) -> Vec<Vec<u32>> {
    let (_, needed) = KINDS.into_iter().find(|(kind, _)| *kind == Kind::AnyTable).unwrap();
    tables::some_of_a_run(seed, needed, 4)
}

// Machines that are built by hand.

fn on_hand_built(dice: &mut Dice) -> Case {
    let (machine, ticks) = (hand_built(dice), dice.of_any_size(1, 200));
    on_machine(dice, Kind::HandBuilt, machine, ticks)
}

fn near_the_last_clock(dice: &mut Dice) -> Case {
    let (clock, rows) = (LAST_CLOCK - dice.from_to(0, 60), dice.from_to(1, 32));
    let machine = hand_built_at(dice, clock, rows);
    on_machine(dice, Kind::NearTheLastClock, machine, 70)
}

/// Any well formed machine.
pub fn hand_built(dice: &mut Dice) -> Machine {
    let clock = match dice.from_to(0, 9) {
        0..=2 => dice.from_to(0, 30),
        3..=5 => dice.from_to(0, 3_000),
        6 => dice.one_of(&LATE_CLOCKS) - dice.from_to(0, 60),
        7 => (1 << 32) - dice.from_to(0, 60),
        _ => dice.from_to(0, LAST_CLOCK),
    };
    let rows = if dice.percent(50) { dice.from_to(1, 32) } else { dice.of_any_size(1, 8) };
    hand_built_at(dice, clock, rows)
}

/// A machine with this clock, well formed unless the clock is too late.
pub fn hand_built_at(dice: &mut Dice, clock: u64, rows: u64) -> Machine {
    let mut machine = WITHOUT_ROWS;
    (machine.count, machine.clock) = (rows, clock);
    let small = dice.percent(80);
    let table = dice.percent(25).then(|| accepted_table(dice, rows));
    let from_table = table.map(|table| start(&table).0);
    let mut may_start = true;
    for i in 0..rows as usize {
        let mut row = match &from_table {
            Some(machine) => machine.places[i],
            None if small => small_row(dice),
            None => any_row(dice),
        };
        row.stage = any_stage(dice, &row, clock, &mut may_start);
        machine.places[i] = row;
    }
    machine
}

/// Numbers so small that much happens in few ticks.
fn small_row(dice: &mut Dice) -> Row {
    let T = dice.from_to(2, 24);
    let D = dice.from_to(2, T);
    let (C, K, E) = (dice.from_to(1, 8), dice.from_to(1, 6), dice.from_to(1, D - 1));
    row_of([T, D, C, K, E])
}

/// Any row within the limits, and any E that it may have.
pub fn any_row(dice: &mut Dice) -> Row {
    let T = dice.of_any_size(2, tables::LARGEST);
    let D = dice.from_to(2, T);
    let E = dice.from_to(1, D - 1);
    let (C, K) = (dice.of_any_size(1, tables::LARGEST), dice.of_any_size(1, tables::LARGEST));
    row_of([T, D, C, K, E])
}

fn row_of(fields: [u64; 5]) -> Row {
    let [T, D, C, K, E] = fields.map(|field| field as u32);
    Row { T, D, C, K, E, stage: Stage::Never }
}

/// Any stage that is well formed at this clock, mostly at an edge of what it may be. One
/// hypertask at most is a started one.
fn any_stage(dice: &mut Dice, row: &Row, clock: u64, may_start: &mut bool) -> Stage {
    let [T, C, K, E] = [row.T, row.C, row.K, row.E].map(u64::from);
    let age = |age: u64| clock - age.min(clock);
    let any = |dice: &mut Dice| dice.from_to(0, clock.min(2 * T));
    match dice.from_to(0, 9) {
        0 => Stage::Never,
        1..=4 => {
            let choices = [0, E, E - 1, dice.from_to(0, E)];
            let used = [0, C - 1, C, dice.from_to(0, C)];
            Stage::Guest { arrival: age(dice.one_of(&choices)), used: dice.one_of(&used) }
        }
        5..=7 if clock > E => {
            let choices = [E + 1, E + 2, T - 1, T, T + 1, dice.from_to(E + 1, E + 2 * T)];
            let left = if *may_start && K > 1 && dice.percent(30) {
                *may_start = false;
                dice.from_to(1, K - 1)
            } else {
                K
            };
            Stage::Hyper { arrival: age(dice.one_of(&choices).max(E + 1)), left }
        }
        _ => {
            let choices = [0, T - 1, T, T + 1, clock, any(dice)];
            Stage::Closed { arrival: age(dice.one_of(&choices)) }
        }
    }
}

fn damaged(dice: &mut Dice, damage: usize) -> Case {
    let Damaged { machine, numbers } = DAMAGES[damage].damaged(dice);
    let ticks = dice.from_to(1, 4);
    let (records, met) = script(dice, machine, ticks);
    let calls = calls(dice, records);
    let calls = stepped(dice, calls);
    Case { kind: Kind::Damaged, damage: Some(damage), begin: Begin::Numbers(numbers), calls, met }
}

// Lent memory that is not as it should be.

fn lent(dice: &mut Dice) -> Case {
    let rows = dice.from_to(1, 8);
    if dice.percent(15) {
        return short_start(dice, rows);
    }
    let machine = if dice.percent(70) { hand_built(dice) } else { WITHOUT_ROWS };
    let ticks = dice.from_to(0, 6);
    let (records, met) = script(dice, machine, ticks);
    let step = records.get(..RECORD).map(|record| step_of(dice, record));
    let mut call = Call { answers: records.len() / RECORD * ANSWER, records, step };
    let mut numbers = numbers_of(&machine).to_vec();
    match dice.from_to(0, 3) {
        0 => numbers.resize(dice.one_of(&[258, 259, 300]), 77),
        1 => call.answers = call.answers.saturating_sub(dice.one_of(&[1, 11, 12, 13, 24])),
        2 => call.answers += dice.from_to(1, 30) as usize,
        _ => change_length(dice, &mut call.records),
    }
    Case { kind: Kind::Lent, damage: None, begin: Begin::Numbers(numbers), calls: vec![call], met }
}

/// A start with too few numbers lent, whatever the table.
fn short_start(dice: &mut Dice, rows: u64) -> Case {
    let table = if dice.percent(70) { accepted_table(dice, rows) } else { vec![1; rows as usize % 4] };
    let case = on_table(dice, Kind::Lent, table.clone(), 3);
    Case { begin: Begin::Table(table, dice.one_of(&[0, 1, 2, 10, 256, 257])), ..case }
}

/// Records that are not in eights.
fn change_length(dice: &mut Dice, records: &mut Vec<u8>) {
    if dice.percent(50) {
        records.truncate(records.len().saturating_sub(dice.from_to(1, 9) as usize));
    } else {
        records.resize(records.len() + dice.from_to(1, 9) as usize, 0);
    }
}
