//! Made-up plans for the comparison of texts: whole files, most of them with a run.

use crate::dice::Dice;
use crate::machine::made_up::accepted_table;
use crate::machine::rules::start;
use crate::machine::scripts::script;
use crate::plan::file::file_of as plan;
use crate::plan::made_up as plan_files;
use crate::tables::made_up as tables;
use crate::turns::in_turns;

/// How many plans of each kind one run hands on.
pub const KINDS: [(Kind, usize); 7] = [
    (Kind::Run, 12_000),
    (Kind::LongRun, 120),
    (Kind::AnyTable, 6_000),
    (Kind::Damaged, 5_000),
    (Kind::AnyFile, 3_000),
    (Kind::TooLong, 200),
    (Kind::Written, 0),
];

/// Where a plan comes from.
#[derive(Clone, Copy, Debug, PartialEq, Eq)]
pub enum Kind {
    /// An accepted table whose jobs come and go within the script, up to a few hundred records.
    Run,
    /// The same with as many records as a file may have, or nearly so many.
    LongRun,
    /// Any table, accepted or refused, with a few records.
    AnyTable,
    /// A plan with a run, damaged in one place or two.
    Damaged,
    /// Any file that the comparison of plan files has.
    AnyFile,
    /// Longer than a file may be.
    TooLong,
    /// Chosen by hand, once in a run.
    Written,
}

pub struct Case {
    pub kind: Kind,
    pub file: Vec<u8>,
}

const LONGEST_FILE: usize = 65_536;
const RECORD: usize = 8;

const TURNS: usize = 20;

/// Hands on every plan of one run, until `take` answers false.
pub fn hand_on(seed: u64, take: &mut dyn FnMut(&Case) -> bool) {
    let mut dice = Dice::new(seed);
    let mut tables = tables::some_of_a_run(seed, number_of(Kind::AnyTable), 5).into_iter();
    let mut files = any_files(seed).into_iter();
    if !written().into_iter().all(|file| take(&Case { kind: Kind::Written, file })) {
        return;
    }
    for kind in in_turns(TURNS, &KINDS) {
        let file = match kind {
            Kind::LongRun => long_run(&mut dice),
            Kind::AnyTable => any_table(&mut dice, tables.next().unwrap()),
            Kind::Damaged => damaged(&mut dice),
            Kind::AnyFile => files.next().unwrap(),
            Kind::TooLong => too_long(&mut dice),
            _ => run(&mut dice),
        };
        if !take(&Case { kind, file }) {
            return;
        }
    }
}

fn number_of(kind: Kind) -> usize {
    KINDS.into_iter().find(|(other, _)| *other == kind).unwrap().1
}

// Plans with a run.

/// The records of a script for this table, as a plan file holds them: the early mark 0 or 1, the
/// spare bytes zero.
fn records(dice: &mut Dice, table: &[u32], ticks: u64) -> Vec<u8> {
    let (mut records, _) = script(dice, start(table).0, ticks);
    for record in records.chunks_exact_mut(RECORD) {
        record[5] = u8::from(record[5] == 1);
        record[6..].fill(0);
    }
    records
}

fn run(dice: &mut Dice) -> Vec<u8> {
    let rows = if dice.percent(50) { dice.from_to(1, 32) } else { dice.of_any_size(1, 32) };
    let table = accepted_table(dice, rows);
    let longest = table.chunks(4).map(|row| u64::from(row[0])).max().unwrap();
    let ticks = match dice.from_to(0, 19) {
        0 => 0,
        1 => dice.from_to(1, 9),
        _ => dice.from_to(longest, 3 * longest).min(400),
    };
    let script = records(dice, &table, ticks);
    plan(&table, &script)
}

/// Few rows with short periods half of the time: their totals have several digits.
fn long_run(dice: &mut Dice) -> Vec<u8> {
    let rows = if dice.percent(50) { dice.from_to(1, 2) } else { dice.from_to(1, 32) };
    let table = if dice.percent(30) { vec![2, 2, 1, 1] } else { accepted_table(dice, rows) };
    let most = (LONGEST_FILE - 28 - 4 * table.len()) / RECORD;
    let any = dice.from_to(7_000, most as u64) as usize;
    let ticks = dice.one_of(&[8_000, most, most, any]);
    let script = records(dice, &table, ticks as u64);
    plan(&table, &script)
}

fn any_table(dice: &mut Dice, table: Vec<u32>) -> Vec<u8> {
    let ticks = dice.from_to(0, 12);
    let script = records(dice, &table, ticks);
    plan(&table, &script)
}

// Damaged files.

fn damaged(dice: &mut Dice) -> Vec<u8> {
    let mut file = run(dice);
    for _ in 0..dice.one_of(&[1, 1, 2]) {
        damage(dice, &mut file);
    }
    file
}

fn damage(dice: &mut Dice, file: &mut Vec<u8>) {
    let place = |dice: &mut Dice, length: usize| dice.from_to(0, length as u64 - 1) as usize;
    match dice.from_to(0, 7) {
        0..=2 => {
            let (byte, bit) = (place(dice, file.len().min(28)), dice.from_to(0, 7));
            file[byte] ^= 1 << bit;
        }
        3 => {
            let (byte, bit) = (place(dice, file.len()), dice.from_to(0, 7));
            file[byte] ^= 1 << bit;
        }
        4 => file.truncate(place(dice, file.len()).max(1)),
        5 => file.extend(vec![0; dice.one_of(&[1, 4, 8, 16])]),
        _ => spoil_a_record(dice, file),
    }
}

/// The early mark or a spare byte of one record, where the file has some.
fn spoil_a_record(dice: &mut Dice, file: &mut [u8]) {
    let records = file.len().saturating_sub(28 + 512) / RECORD;
    if records > 0 {
        let record = file.len() - RECORD * dice.from_to(1, records as u64) as usize;
        file[record + dice.from_to(5, 7) as usize] = dice.one_of(&[2, 3, 128, 255]);
    }
}

/// One in seven of the files that the comparison of plan files begins with.
fn any_files(seed: u64) -> Vec<Vec<u8>> {
    let (mut found, mut given) = (Vec::new(), 0);
    plan_files::hand_on(seed, &mut |case| {
        if let plan_files::Case::Reading { file, .. } = case {
            given += 1;
            if given % 7 == 0 {
                found.push(file.to_vec());
            }
        }
        found.len() < number_of(Kind::AnyFile)
    });
    found
}

/// Sound but for its length, or nothing but bytes.
fn too_long(dice: &mut Dice) -> Vec<u8> {
    if dice.percent(30) {
        let length = dice.of_any_size(LONGEST_FILE as u64 + 1, 4 * LONGEST_FILE as u64) as usize;
        return vec![dice.number() as u8; length];
    }
    let table = accepted_table(dice, 1);
    let fits = (LONGEST_FILE - 28 - 4 * table.len()) / RECORD;
    plan(&table, &vec![0; RECORD * (fits + dice.of_any_size(1, 400) as usize)])
}

// Plans chosen by hand.

/// Document 01's example, its cases, the edges of a file's length, and the longest plan.
fn written() -> Vec<Vec<u8>> {
    let mut quiet = vec![0; 64];
    quiet[0] = 1;
    let tables = || tables::CASES.into_iter().chain(MORE_TABLES);
    let mut files: Vec<Vec<u8>> = tables().map(|table| plan(table, &quiet)).collect();
    files.extend(tables().map(|table| plan(table, &[])));
    files.extend(
        [0, 1, 3, 4, 16, 28, 65_535, 65_536, 65_537, 65_538, 1_000_000].map(|length| vec![0; length]),
    );
    files.extend([1, 2].map(|count| plan(&[2, 2, 1, 1].repeat(count), &vec![0; RECORD * 8_000])));
    files.push(plan(&vec![1_000_000; 128], &[0; 8]));
    files
}

const MORE_TABLES: [&[u32]; 3] = [
    &[1_000_000, 1_000_000, 499_999, 500_000],
    &[1, 1, 1, 1, 5, 5, 1, 1],
    &[u32::MAX, u32::MAX, u32::MAX, u32::MAX],
];
