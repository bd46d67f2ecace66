//! Made-up plan files for the comparison, sound and damaged, and inputs for the writer.

use crate::dice::Dice;
use crate::plan::file::{lay_out, ROWS, SCRIPT};

/// How many files or inputs of each kind one run hands on, at least.
pub const KINDS: [(Kind, usize); 13] = [
    (Kind::Sound, 80_000),
    (Kind::Large, 2_000),
    (Kind::Flipped, 200_000),
    (Kind::Truncated, 200_000),
    (Kind::Renumbered, 200_000),
    (Kind::Swapped, 20_000),
    (Kind::Shifted, 80_000),
    (Kind::Resized, 80_000),
    (Kind::Marked, 60_000),
    (Kind::Mixed, 160_000),
    (Kind::Random, 20_000),
    (Kind::Writing, 250_000),
    (Kind::Written, 0),
];

/// Where a file comes from.
#[derive(Clone, Copy, Debug, PartialEq, Eq)]
pub enum Kind {
    /// As the writer would make it.
    Sound,
    /// About as long as a file may be, sound and damaged.
    Large,
    /// A sound one with one bit of its contents flipped: each in turn.
    Flipped,
    /// A sound one cut off: at each length in turn.
    Truncated,
    /// A sound one with another number in its contents: each place in turn.
    Renumbered,
    /// A sound one with entries, kinds or bodies in each other's place.
    Swapped,
    /// A sound one with gaps, overlaps and bytes too many.
    Shifted,
    /// Bodies of any length, laid out as they should be.
    Resized,
    /// A sound one with records that aren't.
    Marked,
    /// A sound one damaged several times.
    Mixed,
    /// Nothing but small numbers, or bytes of any value.
    Random,
    /// Not a file: a table, a script and lent output for the writer.
    Writing,
    /// Chosen by hand, once in a run: the shortest files, document 01's, a large one cut off at
    /// each length.
    Written,
}

pub enum Case<'a> {
    Reading { kind: Kind, file: &'a [u8] },
    Writing { table: &'a [u32], script: &'a [u8], output: usize },
}

const LONGEST_FILE: usize = 65_536;
const MOST_ROWS: usize = 32;

/// Every kind has its turn this many times, so that a short look at a run sees them all.
const TURNS: usize = 50;

/// Hands on every case of one run, until `take` answers false.
pub fn hand_on(seed: u64, take: &mut dyn FnMut(&Case) -> bool) {
    let mut maker = Maker { dice: Dice::new(seed), kind: Kind::Sound, given: 0, stopped: false, take };
    for turn in 0..TURNS {
        for (kind, least) in KINDS {
            maker.kind = kind;
            if kind != Kind::Written {
                maker.made_up(least / TURNS);
            } else if turn == 0 {
                maker.written();
            }
        }
    }
}

struct Maker<'a> {
    dice: Dice,
    kind: Kind,
    /// Cases handed on in this turn.
    given: usize,
    stopped: bool,
    take: &'a mut dyn FnMut(&Case) -> bool,
}

impl Maker<'_> {
    fn made_up(&mut self, least: usize) {
        self.given = 0;
        while self.given < least && !self.stopped {
            match self.kind {
                Kind::Large => self.large(),
                Kind::Flipped => self.flipped(),
                Kind::Truncated => self.truncated(),
                Kind::Renumbered => self.renumbered(),
                Kind::Swapped => self.swapped(),
                Kind::Shifted => self.shifted(),
                Kind::Writing => self.writing(),
                _ => self.one(),
            }
        }
    }

    fn one(&mut self) {
        let file = match self.kind {
            Kind::Resized => resized(&mut self.dice),
            Kind::Marked => marked(&mut self.dice),
            Kind::Mixed => mixed(&mut self.dice),
            Kind::Random => random(&mut self.dice),
            _ => sound(&mut self.dice),
        };
        self.give(&file);
    }

    fn give(&mut self, file: &[u8]) {
        self.hand(&Case::Reading { kind: self.kind, file });
    }

    fn hand(&mut self, case: &Case) {
        if !self.stopped {
            self.given += 1;
            self.stopped = !(self.take)(case);
        }
    }

    fn flipped(&mut self) {
        let mut file = sound(&mut self.dice);
        for bit in 0..8 * contents_length(&file) {
            file[bit / 8] ^= 1 << (bit % 8);
            self.give(&file);
            file[bit / 8] ^= 1 << (bit % 8);
        }
    }

    fn truncated(&mut self) {
        let file = sound(&mut self.dice);
        for length in 0..file.len() {
            self.give(&file[..length]);
        }
    }

    fn renumbered(&mut self) {
        let file = sound(&mut self.dice);
        for place in 0..contents_length(&file) / 4 {
            for number in numbers_to_try(&file, number(&file, place)) {
                self.give(&with(&file, place, number));
            }
        }
    }

    fn swapped(&mut self) {
        let plan = Plan::with_a_script(&mut self.dice);
        let file = plan.file();
        let entries = [&file[..4], &file[16..28], &file[4..16], &file[28..]].concat();
        self.give(&entries);
        self.give(&with(&with(&file, 1, SCRIPT), 4, ROWS));
        self.give(&with(&with(&file, 2, number(&file, 5)), 5, number(&file, 2)));
        self.give(&lay_out(&[(SCRIPT, &plan.script), (ROWS, &plan.rows)]));
        self.give(&lay_out(&[(ROWS, &plan.script), (SCRIPT, &plan.rows)]));
        self.give(&lay_out(&[(SCRIPT, &plan.script)]));
    }

    fn shifted(&mut self) {
        let file = sound(&mut self.dice);
        let last = number(&file, 0) as usize;
        for entry in 1..=last {
            self.gaps_and_overlaps(&file, entry);
        }
        let too_many = self.dice.from_to(2, 40) as usize;
        for bytes in [1, 8, 16, too_many] {
            let longer = [&file[..], &vec![0; bytes]].concat();
            self.give(&longer);
            // The last body takes them as its own.
            self.give(&with(&longer, 3 * last, number(&file, 3 * last) + bytes as u32));
        }
        if last == 2 {
            let file = wrapping(&mut self.dice, &file);
            self.give(&file);
        }
    }

    /// One byte between this body and what precedes it, or one byte that both have.
    fn gaps_and_overlaps(&mut self, file: &[u8], entry: usize) {
        let (offset, length) = (number(file, 3 * entry - 1), number(file, 3 * entry));
        let start = offset as usize;
        let with_a_byte_more = [&file[..start], &[0], &file[start..]].concat();
        let with_a_byte_less = [&file[..start - 1], &file[start..]].concat();
        self.give(&with_a_byte_more);
        self.give(&moved(&with_a_byte_more, entry, 1));
        self.give(&with_a_byte_less);
        self.give(&moved(&with_a_byte_less, entry, -1));
        self.give(&with(&with(file, 3 * entry - 1, offset + 1), 3 * entry, length - 1));
        self.give(&with(&with(file, 3 * entry - 1, offset - 1), 3 * entry, length + 1));
    }

    fn large(&mut self) {
        let rows = rows_of(&mut self.dice);
        let most = (LONGEST_FILE - 28 - rows.len()) / 8;
        let over = most + self.dice.from_to(2, 400) as usize;
        let script = script_of(&mut self.dice, over);
        for records in [8_000, most - 1, most, most + 1, over] {
            self.give(&lay_out(&[(ROWS, &rows), (SCRIPT, &script[..8 * records])]));
        }
        self.around_the_limit(&rows, &script[..8 * most]);
        self.marked_far_behind(&rows, &script[..8 * most]);
    }

    /// Totals from the longest sound one to past the limit, the bytes too many stated as the
    /// script's and not. No sound file has a total of the limit itself: 28 + 16·rows +
    /// 8·records is no multiple of 8.
    fn around_the_limit(&mut self, rows: &[u8], script: &[u8]) {
        let file = lay_out(&[(ROWS, rows), (SCRIPT, script)]);
        for total in [LONGEST_FILE - 1, LONGEST_FILE, LONGEST_FILE + 1, LONGEST_FILE + 8] {
            let longer = [&file[..], &vec![0; total - file.len()]].concat();
            self.give(&longer);
            self.give(&with(&longer, 6, (total - 28 - rows.len()) as u32));
        }
        self.give(&[0; LONGEST_FILE]);
    }

    fn marked_far_behind(&mut self, rows: &[u8], script: &[u8]) {
        let last = script.len() / 8 - 1;
        for record in [last, self.dice.from_to(0, last as u64) as usize] {
            let mut script = script.to_vec();
            spoil(&mut self.dice, &mut script[8 * record..8 * record + 8]);
            self.give(&lay_out(&[(ROWS, rows), (SCRIPT, &script)]));
        }
    }

    fn written(&mut self) {
        for length in 0..=64 {
            for first in 0..=3 {
                let mut file = vec![0; length];
                file.iter_mut().take(1).for_each(|byte| *byte = first);
                self.give(&file);
            }
            self.give(&vec![255; length]);
        }
        self.give(&document_example());
        for (record, byte, value) in (0..24).map(|i| (i / 3, 5 + i % 3, [2, 255, 1][i % 3])) {
            let mut file = document_example();
            file[44 + 8 * record + byte] = value;
            self.give(&file);
        }
        let rows = rows_of(&mut self.dice);
        let script = script_of(&mut self.dice, (LONGEST_FILE - 28 - rows.len()) / 8);
        let large = lay_out(&[(ROWS, &rows), (SCRIPT, &script)]);
        for length in 0..=large.len() {
            self.give(&large[..length]);
        }
    }

    fn writing(&mut self) {
        if self.dice.percent(1) {
            return self.large_writing();
        }
        let numbers = table_length(&mut self.dice);
        let table = table_of(&mut self.dice, numbers);
        let script = script_to_write(&mut self.dice);
        self.give_inputs(&table, &script);
    }

    /// Totals up to the longest file and past it, with scripts that have other faults as well.
    fn large_writing(&mut self) {
        let rows = self.dice.from_to(1, MOST_ROWS as u64) as usize;
        let table = table_of(&mut self.dice, 4 * rows);
        let most = (LONGEST_FILE - 28 - 16 * rows) / 8;
        let over = most + self.dice.from_to(2, 400) as usize;
        let mut script = script_of(&mut self.dice, over);
        for records in [8_000, most, most + 1, over] {
            self.give_inputs(&table, &script[..8 * records]);
        }
        self.give_inputs(&table, &script[..8 * most + 4]);
        spoil_some(&mut self.dice, &mut script);
        self.give_inputs(&table, &script);
        self.give_inputs(&table, &script[..8 * over - 1]);
    }

    /// With no output, with too little by one byte or more, with all that is needed, and more.
    fn give_inputs(&mut self, table: &[u32], script: &[u8]) {
        let contents = if script.is_empty() { 16 } else { 28 };
        let needed = contents + 4 * table.len() + script.len();
        let longer = needed + self.dice.from_to(2, 80) as usize;
        let shorter = self.dice.from_to(0, needed as u64) as usize;
        for output in [needed - 1, needed, needed + 1, longer, shorter, 0] {
            self.hand(&Case::Writing { table, script, output });
        }
    }
}

// Sound files.

/// The bodies of a file before it is laid out.
struct Plan {
    rows: Vec<u8>,
    script: Vec<u8>,
}

impl Plan {
    fn new(dice: &mut Dice) -> Plan {
        let records = records_of_a_script(dice);
        Plan { rows: rows_of(dice), script: script_of(dice, records) }
    }

    fn with_a_script(dice: &mut Dice) -> Plan {
        let records = records_of_a_script(dice).max(1);
        Plan { rows: rows_of(dice), script: script_of(dice, records) }
    }

    fn file(&self) -> Vec<u8> {
        if self.script.is_empty() {
            lay_out(&[(ROWS, &self.rows)])
        } else {
            lay_out(&[(ROWS, &self.rows), (SCRIPT, &self.script)])
        }
    }
}

fn sound(dice: &mut Dice) -> Vec<u8> {
    Plan::new(dice).file()
}

fn rows_of(dice: &mut Dice) -> Vec<u8> {
    let rows = dice.from_to(1, MOST_ROWS as u64) as usize;
    table_of(dice, 4 * rows).into_iter().flat_map(u32::to_le_bytes).collect()
}

fn table_of(dice: &mut Dice, numbers: usize) -> Vec<u32> {
    (0..numbers).map(|_| field(dice)).collect()
}

/// Any number: field ranges are not the file's concern.
fn field(dice: &mut Dice) -> u32 {
    if dice.percent(20) {
        dice.one_of(&[0, 1, 1_000_000, 1_000_001, u32::MAX])
    } else {
        dice.number() as u32
    }
}

fn records_of_a_script(dice: &mut Dice) -> usize {
    let few = dice.from_to(2, 12) as usize;
    let more = dice.from_to(13, 60) as usize;
    dice.one_of(&[0, 0, 1, 1, 8, 8, few, more])
}

fn script_of(dice: &mut Dice, records: usize) -> Vec<u8> {
    (0..records).flat_map(|_| record(dice)).collect()
}

fn record(dice: &mut Dice) -> [u8; 8] {
    let any = dice.number().to_le_bytes();
    [any[0], any[1], any[2], any[3], any[4], any[5] % 2, 0, 0]
}

/// Document 01's plan: P2 with eight records, the first with mask 1.
fn document_example() -> Vec<u8> {
    let rows: Vec<u8> = [10u32, 8, 3, 2].into_iter().flat_map(u32::to_le_bytes).collect();
    let mut script = [0; 64];
    script[0] = 1;
    lay_out(&[(ROWS, &rows), (SCRIPT, &script)])
}

// The numbers of the contents: 0 is the count; kind, offset and length of entry e are
// 3·e − 2, 3·e − 1 and 3·e.

fn contents_length(sound: &[u8]) -> usize {
    4 + 12 * sound[0] as usize
}

fn number(file: &[u8], place: usize) -> u32 {
    u32::from_le_bytes(file[4 * place..4 * place + 4].try_into().unwrap())
}

fn with(file: &[u8], place: usize, number: u32) -> Vec<u8> {
    let mut file = file.to_vec();
    file[4 * place..4 * place + 4].copy_from_slice(&number.to_le_bytes());
    file
}

/// The offsets from this entry on moved by so many bytes.
fn moved(file: &[u8], entry: usize, bytes: i32) -> Vec<u8> {
    let mut file = file.to_vec();
    for entry in entry..=file[0] as usize {
        let offset = number(&file, 3 * entry - 1);
        file = with(&file, 3 * entry - 1, offset.wrapping_add_signed(bytes));
    }
    file
}

/// Numbers that stand for a limit, or nearly for what stood there.
fn numbers_to_try(file: &[u8], old: u32) -> [u32; 20] {
    let length = file.len() as u32;
    let near = |change: i32| old.wrapping_add_signed(change);
    [
        0,
        1,
        2,
        3,
        16,
        28,
        1 << 31,
        u32::MAX,
        length - 1,
        length,
        length + 1,
        near(1),
        near(-1),
        near(8),
        near(-8),
        near(16),
        near(-16),
        near(i32::MIN),
        old.swap_bytes(),
        old << 8,
    ]
}

/// Two entries that would fit if offset + length were reckoned in 32 bits.
fn wrapping(dice: &mut Dice, file: &[u8]) -> Vec<u8> {
    let end = dice.from_to(0, 27) as u32;
    let file = with(file, 3, u32::MAX - 27 + end);
    let rest = file.len() as u32 - end;
    with(&with(&file, 5, end), 6, rest)
}

// Damaged files that take no turns.

fn resized(dice: &mut Dice) -> Vec<u8> {
    let any = dice.from_to(0, 600) as usize;
    let sixteens = 16 * dice.from_to(1, 40) as usize;
    let rows = dice.one_of(&[0, 8, 15, 16, 17, 32, 496, 512, 513, 520, 528, any, sixteens]);
    let any = dice.from_to(0, 100) as usize;
    let eights = 8 * dice.from_to(1, 12) as usize;
    let script = dice.one_of(&[0, 0, 1, 4, 7, 8, 9, any, eights]);
    let rows: Vec<u8> = (0..rows).map(|_| dice.number() as u8).collect();
    let mut script = script_of(dice, script / 8 + 1)[..script].to_vec();
    if dice.percent(20) {
        spoil_some(dice, &mut script);
    }
    if dice.percent(20) {
        lay_out(&[(ROWS, &rows)])
    } else {
        lay_out(&[(ROWS, &rows), (SCRIPT, &script)])
    }
}

fn marked(dice: &mut Dice) -> Vec<u8> {
    let mut plan = Plan::with_a_script(dice);
    spoil_some(dice, &mut plan.script);
    plan.file()
}

/// One record mostly, several at times.
fn spoil_some(dice: &mut Dice, script: &mut [u8]) {
    for _ in 0..dice.one_of(&[1, 1, 1, 2, 5]) {
        let records = script.len() as u64 / 8;
        if records > 0 {
            let start = 8 * dice.from_to(0, records - 1) as usize;
            spoil(dice, &mut script[start..start + 8]);
        }
    }
}

/// An early mark above 1, or a spare byte that isn't zero.
fn spoil(dice: &mut Dice, record: &mut [u8]) {
    let any = dice.from_to(1, 255) as u8;
    match dice.from_to(0, 2) {
        0 => record[5] = dice.one_of(&[2, 2, 3, 128, 255, any.max(2)]),
        1 => record[6] = dice.one_of(&[1, 255, any]),
        _ => record[7] = dice.one_of(&[1, 255, any]),
    }
}

/// Several damages to one file show the order of the checks.
fn mixed(dice: &mut Dice) -> Vec<u8> {
    let mut file = if dice.percent(30) { resized(dice) } else { sound(dice) };
    for _ in 0..dice.one_of(&[1, 2, 2, 3]) {
        file = damaged(dice, &file);
    }
    file
}

fn damaged(dice: &mut Dice, file: &[u8]) -> Vec<u8> {
    let mut file = file.to_vec();
    let numbers = (file.len() / 4).min(7);
    match dice.from_to(0, 9) {
        0..=5 if numbers > 0 => {
            let place = dice.from_to(0, numbers as u64 - 1) as usize;
            let number = dice.one_of(&numbers_to_try(&file, number(&file, place)));
            file = with(&file, place, number);
        }
        6 => file.truncate(file.len() - dice.from_to(0, file.len().min(20) as u64) as usize),
        7 => file.extend(vec![0; dice.one_of(&[1, 4, 8, 16])]),
        8 if file.len() >= 28 => {
            let (first, second) = file[4..28].split_at_mut(12);
            first.swap_with_slice(second);
        }
        _ if file.len() >= 36 => {
            let last_record = file.len() - 8;
            spoil(dice, &mut file[last_record..]);
        }
        _ => {}
    }
    file
}

fn random(dice: &mut Dice) -> Vec<u8> {
    let length = dice.from_to(0, 80) as usize;
    if dice.percent(20) {
        return (0..length).map(|_| dice.number() as u8).collect();
    }
    let largest = dice.one_of(&[2, 3, 16, 64]);
    let numbers = (0..length.div_ceil(4)).flat_map(|_| (dice.from_to(0, largest) as u32).to_le_bytes());
    numbers.take(length).collect()
}

// The writer's inputs.

/// Mostly one that a table may have.
fn table_length(dice: &mut Dice) -> usize {
    let fours = 4 * dice.from_to(1, MOST_ROWS as u64) as usize;
    let any = dice.from_to(0, 140) as usize;
    let more = 4 * dice.from_to(33, 300) as usize;
    match dice.from_to(0, 19) {
        0 => dice.one_of(&[0, 1, 3, 127, 129, 132, more]),
        1 => any,
        2..=4 => 128,
        _ => fours,
    }
}

/// Sound mostly; not in eights, or with records that aren't sound, at times.
fn script_to_write(dice: &mut Dice) -> Vec<u8> {
    let records = records_of_a_script(dice);
    let mut script = script_of(dice, records);
    if dice.percent(10) {
        spoil_some(dice, &mut script);
    }
    if dice.percent(10) {
        script.extend(vec![0; dice.from_to(1, 7) as usize]);
    }
    script
}
