//! Made-up tables for the comparison. Each is handed on with the length of the results to lend.

#![allow(non_snake_case)]

use crate::answer::{Answer, Refusal};
use crate::dice::Dice;
use crate::tables::analysis::{analyse, windows};

/// How many tables of each kind one run hands on, at least.
pub const KINDS: [(Kind, usize); 8] = [
    (Kind::Light, 40_000),
    (Kind::Tight, 75_000),
    (Kind::Windows, 25_000),
    (Kind::Small, 40_000),
    (Kind::Overloaded, 40_000),
    (Kind::Planted, 25_000),
    (Kind::Length, 10_000),
    (Kind::Written, 0),
];

/// Where a table comes from.
#[derive(Clone, Copy, Debug, PartialEq, Eq)]
pub enum Kind {
    /// Little to do for the processor.
    Light,
    /// On the way to, and on either side of, a place where the answer changes.
    Tight,
    /// With one hypertask so long that its guest's two windows mostly fail at different lengths of the
    /// guest: on either side of them.
    Windows,
    /// Few rows of small numbers, where every rounding shows.
    Small,
    /// More to do than there is time for.
    Overloaded,
    /// With numbers at and past the limits of a field, or with D above T.
    Planted,
    /// Of any length, mostly one that no table may have.
    Length,
    /// Written down by hand: document 01's cases and the edges of the limits.
    Written,
}

/// A table, and how many numbers are lent for its results.
pub struct Case {
    pub kind: Kind,
    pub table: Vec<u32>,
    pub results: usize,
}

pub const LARGEST: u64 = 1_000_000;

/// Numbers at the limits of a field, and past them.
const EDGE_NUMBERS: [u32; 5] = [0, 1, 1_000_000, 1_000_001, u32::MAX];

/// Tables whose search climbs by small steps up to its limit take long; a few are enough.
const SLOW_TABLES: usize = 20;
const MANY_TURNS: usize = 20_000;

/// Every kind has its turn this many times, so that a short look at a run sees them all.
const TURNS: usize = 50;

/// Hands on every case of one run, until `take` answers false.
pub fn hand_on(seed: u64, take: &mut dyn FnMut(&Case) -> bool) {
    let mut maker = Maker::new(seed, take);
    for turn in 0..TURNS {
        for (kind, least) in KINDS {
            if kind != Kind::Written {
                maker.made_up(kind, least / TURNS);
            } else if turn == 0 {
                maker.written();
            }
        }
    }
}

/// So many of the tables that a run begins with: all that are planted, of two windows, written by hand
/// or of any length, and one in so many of the others.
pub fn some_of_a_run(seed: u64, number: usize, one_in: usize) -> Vec<Vec<u32>> {
    let (mut found, mut given) = (Vec::new(), 0);
    hand_on(seed, &mut |case| {
        given += 1;
        let is_rare = matches!(case.kind, Kind::Length | Kind::Planted | Kind::Windows | Kind::Written);
        if is_rare || given % one_in == 0 {
            found.push(case.table.clone());
        }
        found.len() < number
    });
    found
}

struct Maker<'a> {
    dice: Dice,
    slow_left: usize,
    /// Whose turn it is, and the cases handed on in it.
    kind: Kind,
    given: usize,
    stopped: bool,
    take: &'a mut dyn FnMut(&Case) -> bool,
}

impl Maker<'_> {
    fn new(seed: u64, take: &mut dyn FnMut(&Case) -> bool) -> Maker<'_> {
        let dice = Dice::new(seed);
        Maker { dice, slow_left: SLOW_TABLES, kind: Kind::Written, given: 0, stopped: false, take }
    }

    fn made_up(&mut self, kind: Kind, least: usize) {
        (self.kind, self.given) = (kind, 0);
        while self.given < least && !self.stopped {
            match kind {
                Kind::Tight => self.tight(),
                Kind::Windows => self.windows(),
                _ => self.one(),
            }
        }
    }

    fn one(&mut self) {
        let table = match self.kind {
            Kind::Light => light(&mut self.dice),
            Kind::Small => small(&mut self.dice),
            Kind::Overloaded => overloaded(&mut self.dice),
            Kind::Length => of_any_length(&mut self.dice),
            _ => planted(&mut self.dice),
        };
        self.give(table);
    }

    /// A made-up table, with results lent that mostly suffice.
    fn give(&mut self, table: Vec<u32>) {
        if self.affordable(&table) {
            let results = results_to_lend(&mut self.dice, table.len());
            self.give_with(table, results);
        }
    }

    fn give_with(&mut self, table: Vec<u32>, results: usize) {
        if !self.stopped {
            self.given += 1;
            self.stopped = !(self.take)(&Case { kind: self.kind, table, results });
        }
    }

    fn affordable(&mut self, table: &[u32]) -> bool {
        if !climbs_slowly(table) {
            return true;
        }
        let affordable = self.slow_left > 0;
        self.slow_left = self.slow_left.saturating_sub(1);
        affordable
    }

    fn written(&mut self) {
        self.kind = Kind::Written;
        for table in CASES.iter().chain(WRITTEN) {
            let needed = 3 * (table.len() / 4);
            for results in [0, needed.saturating_sub(1), needed, needed + 1, needed + 5] {
                self.give_with(table.to_vec(), results);
            }
        }
    }

    /// A shape whose load is raised until the answer changes, then single numbers of it.
    fn tight(&mut self) {
        let shape = Shape::new(&mut self.dice);
        let met = self.close_in(0, 4000, &|scale| shape.loaded(scale), &quick_answer);
        self.move_single_numbers(met, is_accepted);
    }

    /// The guest of a long hypertask made as long as the window that it begins allows; then, where the
    /// other window fails, single numbers of the table.
    fn windows(&mut self) {
        let (table, row) = one_long_hypertask(&mut self.dice);
        let longer = |C: u32| with(&table, 4 * row + 2, C);
        let in_time = |table: &[u32]| windows(table).is_ok_and(|of_task| of_task[row].0.is_some());
        let met = self.close_in(1, table[4 * row], &longer, &in_time);
        self.move_single_numbers(met, is_refused_with_19);
    }

    /// Goes on with the first of these tables that is answered as wanted, if one is: moves a number of
    /// it until the answer changes, and then another one.
    fn move_single_numbers(&mut self, tables: [Vec<u32>; 2], is_wanted: fn(&[u32]) -> bool) {
        let mut wanted = tables.into_iter().find(|table| is_wanted(table));
        for _ in 0..6 {
            let Some(table) = &wanted else { return };
            let (low, high, numbered) = single_number(&mut self.dice, table);
            let met = self.close_in(low, high, &|number| numbered(table, number), &quick_answer);
            wanted = met.into_iter().find(|table| is_wanted(table)).or(wanted);
        }
    }

    /// Halves the way between two numbers whose tables look different until they are next to each
    /// other, and hands on every table met. Gives the last two.
    fn close_in<Look: PartialEq>(
        &mut self,
        mut low: u32,
        mut high: u32,
        table_of: &dyn Fn(u32) -> Vec<u32>,
        look: &dyn Fn(&[u32]) -> Look,
    ) -> [Vec<u32>; 2] {
        let at_low = self.give_and_look(table_of(low), look);
        let at_high = self.give_and_look(table_of(high), look);
        while at_low != at_high && high - low > 1 && !self.stopped {
            let middle = low + (high - low) / 2;
            if self.give_and_look(table_of(middle), look) == at_low {
                low = middle;
            } else {
                high = middle;
            }
        }
        [low, high].map(table_of)
    }

    fn give_and_look<Look>(&mut self, table: Vec<u32>, look: &dyn Fn(&[u32]) -> Look) -> Look {
        let seen = look(&table);
        self.give(table);
        seen
    }
}

/// The second program's answer, unless it takes long.
fn quick_answer(table: &[u32]) -> Option<Answer> {
    (!climbs_slowly(table)).then(|| analyse(table, &mut [0; 96]))
}

fn is_accepted(table: &[u32]) -> bool {
    matches!(quick_answer(table), Some(Ok(_)))
}

fn is_refused_with_19(table: &[u32]) -> bool {
    matches!(quick_answer(table), Some(Err(Refusal { number: 19, .. })))
}

/// Exact or longer mostly; too short by one, none at all or any shorter length at times.
fn results_to_lend(dice: &mut Dice, table_length: usize) -> usize {
    let needed = 3 * (table_length / 4);
    match dice.from_to(0, 99) {
        0..=54 => needed,
        55..=69 => needed + 1,
        70..=84 => needed + dice.from_to(2, 8) as usize,
        85..=89 => needed + dice.from_to(9, 60) as usize,
        90..=95 => needed.saturating_sub(1),
        96..=97 => 0,
        _ => dice.from_to(0, needed as u64) as usize,
    }
}

/// Whether the search for some t(i) takes very many turns. It can only where hypertasks down to
/// that row take nearly all of the time, or hardly more than all.
fn climbs_slowly(table: &[u32]) -> bool {
    let mut part = 0.0;
    (0..table.len() / 4).any(|i| {
        part += f64::from(table[4 * i + 3]) / f64::from(table[4 * i].max(1));
        (part - 1.0_f64).abs() < 0.0005 && active_period_takes_many_turns(table, i)
    })
}

fn active_period_takes_many_turns(table: &[u32], i: usize) -> bool {
    let (to_own, below) = table.split_at(4 * i + 4);
    let blocking = below.chunks_exact(4).map(|row| u64::from(row[3])).max().unwrap_or(0);
    let asked = |row: &[u32], t: u64| t.div_ceil(row[0].max(1).into()) * u64::from(row[3]);
    let mut t = 1;
    for _ in 0..MANY_TURNS {
        let next = blocking + to_own.chunks_exact(4).map(|row| asked(row, t)).sum::<u64>();
        if next <= t || next > 4 * LARGEST {
            return false;
        }
        t = next;
    }
    true
}

// Light tables.

fn light(dice: &mut Dice) -> Vec<u32> {
    let tasks = dice.from_to(1, 32);
    let longest = dice.of_any_size(20 * tasks, LARGEST);
    light_rows(dice, tasks, longest)
}

/// Rows whose guests take at most about half of the time and whose hypertasks little of it.
fn light_rows(dice: &mut Dice, tasks: u64, longest: u64) -> Vec<u32> {
    let mut periods: Vec<u64> = (0..tasks).map(|_| dice.of_any_size(20 * tasks, longest)).collect();
    if dice.percent(80) {
        periods.sort_unstable();
    }
    let shortest = *periods.iter().min().unwrap();
    let mut table = Vec::new();
    for T in periods {
        let D = dice.from_to(T - T / 3, T);
        let C = dice.from_to(1, T / (2 * tasks));
        let K = dice.from_to(1, shortest / (12 * tasks) + 1);
        push(&mut table, T, D, C, K);
    }
    table
}

fn push(table: &mut Vec<u32>, T: u64, D: u64, C: u64, K: u64) {
    table.extend([T, D, C, K].map(|field| field.clamp(1, LARGEST) as u32));
}

// Tight tables.

/// Periods and deadlines, with the part that each row has in a load still to be chosen.
struct Shape {
    rows: Vec<(u64, u64, f64, f64)>,
}

impl Shape {
    fn new(dice: &mut Dice) -> Shape {
        let tasks = dice.from_to(1, 32);
        let mut periods = shape_periods(dice, tasks);
        if dice.percent(70) {
            periods.sort_unstable();
        }
        let shortest = *periods.iter().min().unwrap() as f64;
        let hyper = if dice.percent(50) { 0.0 } else { dice.part() * dice.part() };
        let long_deadlines = dice.from_to(0, 100);
        let mut row = |T: u64| {
            let D = if dice.percent(long_deadlines) { T } else { dice.from_to(T / 2 + 1, T) };
            let C = dice.part() * 2.0 * T as f64 / tasks as f64;
            let K = dice.part() * 2.0 * hyper * shortest / tasks as f64;
            (T, D, C, K)
        };
        let mut rows: Vec<_> = periods.into_iter().map(&mut row).collect();
        if hyper == 0.0 {
            // WE decides where a long hypertask is the lowest and those above it are short.
            rows[tasks as usize - 1].3 = dice.part() * shortest / 2.0;
        }
        Shape { rows }
    }

    /// The table with this many thousandths of the load.
    fn loaded(&self, thousandths: u32) -> Vec<u32> {
        let scale = f64::from(thousandths) / 1000.0;
        let mut table = Vec::new();
        for &(T, D, C, K) in &self.rows {
            push(&mut table, T, D, (C * scale) as u64, (K * scale) as u64);
        }
        table
    }
}

/// Periods of any size, of few sizes, or each a multiple of one.
fn shape_periods(dice: &mut Dice, tasks: u64) -> Vec<u64> {
    let shortest = dice.of_any_size(2 + 4 * tasks, LARGEST / 10);
    let longest = dice.of_any_size(shortest, LARGEST);
    match dice.from_to(0, 3) {
        0 => (0..tasks).map(|_| (shortest * dice.from_to(1, 12)).min(LARGEST)).collect(),
        1 => {
            let few = [0; 3].map(|_| dice.from_to(shortest, longest));
            (0..tasks).map(|_| dice.one_of(&few)).collect()
        }
        _ => (0..tasks).map(|_| dice.of_any_size(shortest, longest)).collect(),
    }
}

type Numbered = fn(&[u32], usize, u32) -> Vec<u32>;

/// One number of one row, with the ends between which it is moved.
fn single_number(dice: &mut Dice, table: &[u32]) -> (u32, u32, impl Fn(&[u32], u32) -> Vec<u32>) {
    let last = table.len() as u64 / 4 - 1;
    let first = if dice.percent(30) { last } else { 0 };
    let row = 4 * dice.from_to(first, last) as usize;
    let (T, D, C, K) = (table[row], table[row + 1], table[row + 2], table[row + 3]);
    let choices: [(u32, u32, Numbered); 6] = [
        (1, T, |table, row, T| with_period(table, row, T)),
        (T, LARGEST as u32, |table, row, T| with_period(table, row, T)),
        (1, D, |table, row, D| with(table, row + 1, D)),
        (C, (2 * C + 50).min(LARGEST as u32), |table, row, C| with(table, row + 2, C)),
        (K, (2 * K + 50).min(LARGEST as u32), |table, row, K| with(table, row + 3, K)),
        (K, LARGEST as u32, |table, row, K| with(table, row + 3, K)),
    ];
    let (low, high, numbered) = dice.one_of(&choices);
    (low, high, move |table: &[u32], number: u32| numbered(table, row, number))
}

fn with(table: &[u32], place: usize, number: u32) -> Vec<u32> {
    let mut table = table.to_vec();
    table[place] = number;
    table
}

/// With this period, and the deadline within it.
fn with_period(table: &[u32], row: usize, T: u32) -> Vec<u32> {
    let D = table[row + 1].min(T);
    with(&with(table, row, T), row + 1, D)
}

// Tables of two windows.

/// A table whose hypertasks are short but for one, and the row of that one. Its own hypertask adds to
/// the window that it begins, so that one can fail where the window begun by the guest doesn't.
fn one_long_hypertask(dice: &mut Dice) -> (Vec<u32>, usize) {
    let tasks = if dice.percent(50) { dice.from_to(1, 32) } else { dice.of_any_size(1, 32) };
    let most = if dice.percent(40) { 40 * tasks } else { LARGEST / 8 };
    let shortest = dice.of_any_size(4 * tasks + 2, most);
    let long = if dice.percent(10) { 0 } else { dice.from_to(0, tasks - 1) as usize };
    let (guests, parts) = (0.4 + dice.part(), dice.from_to(2, 16));
    let mut table = Vec::new();
    for (row, T) in window_periods(dice, tasks, shortest, long).into_iter().enumerate() {
        let D = if row == long || dice.percent(80) { T } else { dice.from_to(3 * T / 4, T) };
        let C = (dice.part() * guests * T as f64 / tasks as f64) as u64;
        let (least, most) =
            if row == long { (shortest / 12, shortest / 4) } else { (0, shortest / (parts * tasks)) };
        push(&mut table, T, D, C, 1 + dice.from_to(least, most));
    }
    plant_a_guest_below(dice, &mut table, long);
    (table, long)
}

/// Mostly rising. A row of a longer period than those below it has several of their hypertasks in a
/// window: without guests above it, they alone make one fail.
fn window_periods(dice: &mut Dice, tasks: u64, shortest: u64, long: usize) -> Vec<u64> {
    let mut periods: Vec<u64> = (0..tasks).map(|_| dice.from_to(shortest, 3 * shortest)).collect();
    if dice.percent(70) {
        periods.sort_unstable();
    }
    if long == 0 || dice.percent(40) {
        periods[long] = dice.from_to(2 * shortest, 6 * shortest);
    }
    periods
}

/// At times a guest below that is as long as its period: it can't pass, and row by row it comes later.
fn plant_a_guest_below(dice: &mut Dice, table: &mut [u32], row: usize) {
    let below = table.len() / 4 - 1 - row;
    if below > 0 && dice.percent(30) {
        let row = row + dice.from_to(1, below as u64) as usize;
        table[4 * row + 2] = table[4 * row];
    }
}

// Small tables.

fn small(dice: &mut Dice) -> Vec<u32> {
    let tasks = dice.from_to(1, 4);
    let longest = dice.from_to(4, 40);
    let (longest_guest, longest_hypertask) = (dice.from_to(1, longest / 2), dice.from_to(1, 4));
    let long_deadlines = dice.from_to(0, 100);
    let mut table = Vec::new();
    for _ in 0..tasks {
        let T = dice.from_to(1, longest);
        let D = if dice.percent(long_deadlines) { T } else { dice.from_to(1, T) };
        let C = dice.of_any_size(1, longest_guest);
        let K = dice.of_any_size(1, longest_hypertask);
        push(&mut table, T, D, C, K);
    }
    table
}

// Overloaded tables.

fn overloaded(dice: &mut Dice) -> Vec<u32> {
    match dice.from_to(0, 2) {
        0 => overloaded_at_once(dice),
        1 => overloaded_hypertask(dice),
        _ => overloaded_guest(dice),
    }
}

/// Guests and hypertasks of any size up to their periods, and above.
fn overloaded_at_once(dice: &mut Dice) -> Vec<u32> {
    let tasks = dice.from_to(1, 32);
    let longest = dice.of_any_size(2, LARGEST);
    let mut table = Vec::new();
    for _ in 0..tasks {
        let T = dice.of_any_size(1, longest);
        let D = dice.from_to(T / 2 + 1, T);
        let C = dice.of_any_size(1, 2 * T);
        let K = dice.of_any_size(1, 2 * T);
        push(&mut table, T, D, C, K);
    }
    table
}

/// A light table with one row that comes too often for its hypertask.
fn overloaded_hypertask(dice: &mut Dice) -> Vec<u32> {
    let mut table = light(dice);
    let row = 4 * dice.from_to(0, table.len() as u64 / 4 - 1) as usize;
    let K = u64::from(table[row + 3]);
    let T = dice.from_to(1, 2 * K + 1) as u32;
    table[row] = T;
    table[row + 1] = dice.from_to(1, T.into()) as u32;
    table
}

/// A light table with one guest, or several, that take too long.
fn overloaded_guest(dice: &mut Dice) -> Vec<u32> {
    let mut table = light(dice);
    for row in table.chunks_mut(4) {
        if dice.percent(30) {
            row[2] = dice.from_to(u64::from(row[0]) / 4 + 1, row[0].into()) as u32;
        }
    }
    table
}

// Tables with planted numbers.

fn planted(dice: &mut Dice) -> Vec<u32> {
    let mut table = match dice.from_to(0, 4) {
        0 => small(dice),
        1 => overloaded(dice),
        _ => light(dice),
    };
    match dice.from_to(0, 5) {
        0..=2 => plant_numbers(dice, &mut table),
        3..=4 => plant_deadlines(dice, &mut table),
        _ => {
            plant_numbers(dice, &mut table);
            plant_deadlines(dice, &mut table);
        }
    }
    table
}

fn plant_numbers(dice: &mut Dice, table: &mut [u32]) {
    for _ in 0..dice.from_to(1, 4) {
        let place = dice.from_to(0, table.len() as u64 - 1) as usize;
        table[place] = dice.one_of(&EDGE_NUMBERS);
    }
}

/// D at T, just above it or far above it.
fn plant_deadlines(dice: &mut Dice, table: &mut [u32]) {
    for _ in 0..dice.from_to(1, 3) {
        let row = 4 * dice.from_to(0, table.len() as u64 / 4 - 1) as usize;
        let T = table[row];
        let far = dice.from_to(T.into(), LARGEST.max(T.into())) as u32;
        table[row + 1] = dice.one_of(&[T, T.saturating_add(1), far]);
    }
}

// Tables of any length.

/// Rows that would do, cut off somewhere, or more of them than a table may have.
fn of_any_length(dice: &mut Dice) -> Vec<u32> {
    let length = match dice.from_to(0, 9) {
        0 => 0,
        1 => 128,
        2 => 132,
        3 => 4 * dice.from_to(33, 300) as usize,
        _ => dice.from_to(0, 140) as usize,
    };
    let mut table = light_rows(dice, length as u64 / 4 + 1, LARGEST);
    table.truncate(length);
    table
}

// Tables written by hand.

/// P1 to P11 of document 01; P12 is P2 with short results.
pub const CASES: [&[u32]; 11] = [
    &[],
    &[10, 8, 3, 2],
    &[10, 8, 6, 2],
    &[10, 8, 7, 2],
    &[5, 2, 1, 2],
    &[5, 2, 1, 3],
    &[5, 5, 1, 6],
    &[10, 11, 1, 1],
    &[10, 10, 2, 1, 20, 20, 4, 2],
    &[5, 5, 1, 2, 7, 7, 1, 2, 7, 7, 1, 2],
    &[10, 8, 0, 2],
];

const WRITTEN: &[&[u32]] = &[
    // t(1) is 4,000,000 in the first and 4,000,001 in the second.
    &[4, 4, 1, 3, 1_000_000, 1_000_000, 1, 1_000_000],
    &[41, 41, 1, 40, 1_000_000, 1_000_000, 1, 97_561],
    // Climbs one by one to 4,000,000.
    &[1, 1, 1, 1, 5, 5, 1, 1],
    // WA is in time and WE is not: at the last task.
    &[5, 5, 2, 1, 8, 8, 2, 1],
    &[6, 6, 3, 1, 10, 10, 2, 1],
    &[12, 12, 5, 1, 15, 15, 1, 2, 19, 19, 3, 1],
    // The same at task 1, at task 1 and at task 2, and WA fails below.
    &[23, 23, 8, 7, 19, 19, 4, 2, 21, 21, 4, 3],
    &[20, 20, 4, 1, 13, 13, 4, 4, 17, 17, 1, 5],
    &[12, 11, 5, 1, 19, 18, 4, 1, 17, 15, 2, 2],
    // The same at task 1; then with hypertasks below that are too late: at task 2, at task 3, at both.
    &[22, 21, 8, 2, 16, 16, 1, 4, 15, 15, 6, 3],
    &[22, 21, 8, 2, 16, 7, 1, 4, 15, 15, 6, 3],
    &[22, 21, 8, 2, 16, 16, 1, 4, 15, 5, 6, 3],
    &[22, 21, 8, 2, 16, 7, 1, 4, 15, 5, 6, 3],
    // The same at task 1, with no active period at task 2.
    &[20, 20, 1, 5, 5, 5, 1, 4],
    // Neither window is in time: at task 1, and at task 2.
    &[2, 2, 2, 1],
    &[5, 5, 1, 1, 4, 4, 3, 1],
    // Of task 1 WA alone is too late, and of task 2 WE alone.
    &[5, 4, 3, 1, 8, 8, 1, 1],
    // Everything at its largest, and at its least.
    &[1_000_000, 1_000_000, 1_000_000, 1_000_000],
    &[1_000_000, 1_000_000, 500_000, 500_000],
    &[1_000_000, 1_000_000, 499_999, 500_000],
    &[1, 1, 1, 1],
    &[2, 2, 1, 1],
];
