//! Machines that are well formed but for one clause, and numbers that would be a well formed machine
//! but for one of them.

use crate::dice::Dice;
use crate::machine::made_up::{any_row, hand_built_at, LATE_CLOCKS};
use crate::machine::numbers::numbers_of;
use crate::machine::state::{Machine, Row, Stage, LAST_CLOCK, NO_ROW, PLACES, WITHOUT_ROWS};

/// Beyond 32 bits: a number that is cut down to them is a small one again.
const BEYOND: u64 = 1 << 32;
const PAST_A_FIELD: [u32; 3] = [1_000_001, 1 << 31, u32::MAX];

pub struct Damage {
    pub name: &'static str,
    /// The clause of "well formed" that it breaks, or READABLE.
    pub clause: &'static str,
    /// Whether every other clause holds. Some can't be broken alone.
    pub alone: bool,
    how: How,
}

enum How {
    /// The whole machine is made so.
    Whole(fn(&mut Dice) -> Machine),
    /// A row with this stage, which is well formed so far, is changed at this clock.
    OfRow(fn(&mut Dice, &mut Row, u64), Wanted),
    /// A place past the last row is changed.
    OfPlace(fn(&mut Dice, &mut Row)),
    /// One number of a place with this stage becomes one of these.
    OfNumber { of: Of, wanted: Wanted, at: usize, to: &'static [u64] },
    /// There are so many numbers.
    TooFew(&'static [usize]),
}

/// Whose place it is.
#[derive(Clone, Copy)]
enum Of {
    Row,
    PastTheLastRow,
    NoRows,
}

#[derive(Clone, Copy)]
enum Wanted {
    Never,
    Guest,
    Hyper,
    Closed,
    /// Any but Hyper: its numbers would break together with K or E.
    NotHyper,
}

/// The lent numbers, and the machine that they are, or were before one of them was changed.
#[derive(Debug)]
pub struct Damaged {
    pub machine: Machine,
    pub numbers: Vec<u64>,
}

impl Damage {
    pub fn damaged(&self, dice: &mut Dice) -> Damaged {
        match &self.how {
            How::Whole(make) => as_numbers(make(dice)),
            How::OfRow(change, wanted) => {
                let (mut machine, i) = machine_with_a(dice, *wanted);
                change(dice, &mut machine.places[i], machine.clock);
                as_numbers(machine)
            }
            How::OfPlace(change) => {
                let (mut machine, place) = machine_with_room(dice);
                change(dice, &mut machine.places[place]);
                as_numbers(machine)
            }
            How::OfNumber { of, wanted, at, to } => {
                let (machine, i) = match of {
                    Of::Row => machine_with_a(dice, *wanted),
                    Of::PastTheLastRow => room_with_a(dice, *wanted),
                    Of::NoRows => (WITHOUT_ROWS, dice.from_to(0, PLACES as u64 - 1) as usize),
                };
                let mut damaged = as_numbers(machine);
                damaged.numbers[2 + 8 * i + at] = dice.one_of(to);
                damaged
            }
            How::TooFew(lengths) => {
                let mut damaged = as_numbers(late_machine(dice));
                damaged.numbers.truncate(dice.one_of(lengths));
                damaged
            }
        }
    }
}

fn as_numbers(machine: Machine) -> Damaged {
    Damaged { machine, numbers: numbers_of(&machine).to_vec() }
}

/// A row of a machine has this stage; which one.
fn machine_with_a(dice: &mut Dice, wanted: Wanted) -> (Machine, usize) {
    let mut machine = late_machine(dice);
    let i = dice.from_to(0, machine.count - 1) as usize;
    machine.places[i].stage = stage_of(dice, &machine.places[i], wanted, machine.clock);
    (machine, i)
}

/// A machine has places past its last row; one of them.
fn machine_with_room(dice: &mut Dice) -> (Machine, usize) {
    let mut machine = late_machine(dice);
    machine.count = machine.count.min(PLACES as u64 - 1);
    machine.places[machine.count as usize..].fill(NO_ROW);
    let place = dice.from_to(machine.count, PLACES as u64 - 1) as usize;
    (machine, place)
}

/// The same with this stage there.
fn room_with_a(dice: &mut Dice, wanted: Wanted) -> (Machine, usize) {
    let (mut machine, place) = machine_with_room(dice);
    machine.places[place].stage = stage_of(dice, &NO_ROW, wanted, machine.clock);
    (machine, place)
}

const fn whole(name: &'static str, clause: &'static str, make: fn(&mut Dice) -> Machine) -> Damage {
    Damage { name, clause, alone: true, how: How::Whole(make) }
}

const fn row(
    name: &'static str,
    clause: &'static str,
    wanted: Wanted,
    change: fn(&mut Dice, &mut Row, u64),
) -> Damage {
    Damage { name, clause, alone: true, how: How::OfRow(change, wanted) }
}

const fn place(name: &'static str, change: fn(&mut Dice, &mut Row)) -> Damage {
    Damage { name, clause: PAST, alone: true, how: How::OfPlace(change) }
}

const fn number(name: &'static str, of: Of, wanted: Wanted, at: usize, to: &'static [u64]) -> Damage {
    Damage { name, clause: READABLE, alone: true, how: How::OfNumber { of, wanted, at, to } }
}

const fn not_alone(damage: Damage) -> Damage {
    Damage { alone: false, ..damage }
}

/// Numbers that can't be read are no machine: no clause is looked at.
pub const READABLE: &str = "the numbers can be read";

const COUNT: &str = "1 to 32 rows";
const LIMITS: &str = "rows within the limits";
const OFFSET: &str = "1 <= E < D";
const CLOCK: &str = "clock at most 2^40";
const ARRIVAL: &str = "every arrival at or before the clock";
const USED: &str = "Guest has used <= C";
const GUEST: &str = "Guest has clock <= arrival + E";
const LEFT: &str = "Hyper has 1 to K left";
const HYPER: &str = "Hyper has clock > arrival + E";
const STARTED: &str = "at most one Hyper has fewer than K left";
const PAST: &str = "places past the last row zero and Never";

pub const DAMAGES: &[Damage] = &[
    whole("no rows", COUNT, |dice| Machine { clock: late_clock(dice), ..WITHOUT_ROWS }),
    whole("more than 32 rows", COUNT, |dice| Machine {
        count: dice.one_of(&[33, 64, BEYOND, BEYOND + 1, BEYOND + 32, u64::MAX]),
        ..full_machine(dice)
    }),
    not_alone(row("T is 0", LIMITS, Wanted::Never, |_, row, _| row.T = 0)),
    row("T above 1,000,000", LIMITS, Wanted::NotHyper, |dice, row, _| row.T = dice.one_of(&PAST_A_FIELD)),
    not_alone(row("D is 0", LIMITS, Wanted::Never, |_, row, _| row.D = 0)),
    row("D above 1,000,000 and T", LIMITS, Wanted::NotHyper, |dice, row, _| {
        row.D = dice.one_of(&PAST_A_FIELD);
    }),
    row("D one above T", LIMITS, Wanted::NotHyper, |_, row, _| row.T = row.D - 1),
    row("C is 0", LIMITS, Wanted::NotHyper, |_, row, _| {
        row.C = 0;
        if let Stage::Guest { used, .. } = &mut row.stage {
            *used = 0;
        }
    }),
    row("C above 1,000,000", LIMITS, Wanted::NotHyper, |dice, row, _| row.C = dice.one_of(&PAST_A_FIELD)),
    row("K is 0", LIMITS, Wanted::NotHyper, |_, row, _| row.K = 0),
    row("K above 1,000,000", LIMITS, Wanted::NotHyper, |dice, row, _| row.K = dice.one_of(&PAST_A_FIELD)),
    row("E is 0", OFFSET, Wanted::NotHyper, |_, row, clock| {
        row.E = 0;
        if let Stage::Guest { arrival, .. } = &mut row.stage {
            *arrival = clock;
        }
    }),
    row("E is D", OFFSET, Wanted::NotHyper, |_, row, _| row.E = row.D),
    row("E above D", OFFSET, Wanted::NotHyper, |dice, row, _| {
        row.E = dice.one_of(&[row.D + 1, row.D + 1000, u32::MAX]);
    }),
    whole("clock above 2^40", CLOCK, |dice| {
        let clock = dice.one_of(&[LAST_CLOCK + 1, LAST_CLOCK + 2, LAST_CLOCK << 1, u64::MAX]);
        let rows = dice.from_to(1, 32);
        hand_built_at(dice, clock, rows)
    }),
    row("Guest arrived after the clock", ARRIVAL, Wanted::Guest, |dice, row, clock| {
        set_arrival(row, after(dice, clock));
    }),
    not_alone(row("Hyper arrived after the clock", ARRIVAL, Wanted::Hyper, |dice, row, clock| {
        set_arrival(row, after(dice, clock));
    })),
    row("Closed arrived after the clock", ARRIVAL, Wanted::Closed, |dice, row, clock| {
        set_arrival(row, after(dice, clock));
    }),
    row("Guest used more than C", USED, Wanted::Guest, |dice, row, _| {
        let c = u64::from(row.C);
        set_last(row, dice.one_of(&[c + 1, c + 2, BEYOND, BEYOND + c, u64::MAX]));
    }),
    row("Guest one past arrival + E", GUEST, Wanted::Guest, |_, row, clock| {
        set_arrival(row, clock - u64::from(row.E) - 1);
    }),
    row("Guest far past arrival + E", GUEST, Wanted::Guest, |dice, row, clock| {
        set_arrival(row, dice.from_to(0, clock - u64::from(row.E) - 1));
    }),
    whole("Hyper with none left", LEFT, |dice| {
        // With none left it is a started one: no other may be.
        let (mut machine, i) = machine_with_a_hyper(dice);
        set_last(&mut machine.places[i], 0);
        machine
    }),
    row("Hyper with more than K left", LEFT, Wanted::Hyper, |dice, row, _| {
        let k = u64::from(row.K);
        set_last(row, dice.one_of(&[k + 1, k + 2, BEYOND, BEYOND + k, u64::MAX]));
    }),
    row("Hyper at arrival + E", HYPER, Wanted::Hyper, |_, row, clock| {
        set_arrival(row, clock - u64::from(row.E));
    }),
    row("Hyper before arrival + E", HYPER, Wanted::Hyper, |dice, row, clock| {
        set_arrival(row, clock - dice.from_to(0, u64::from(row.E) - 1));
    }),
    whole("two started hypertasks", STARTED, |dice| two_started(dice, 2)),
    whole("three started hypertasks", STARTED, |dice| two_started(dice, 3)),
    place("T past the last row", |dice, row| row.T = dice.from_to(1, 1_000_000) as u32),
    place("D past the last row", |dice, row| row.D = dice.from_to(1, 1_000_000) as u32),
    place("C past the last row", |dice, row| row.C = dice.from_to(1, 1_000_000) as u32),
    place("K past the last row", |dice, row| row.K = dice.from_to(1, 1_000_000) as u32),
    place("E past the last row", |dice, row| row.E = dice.from_to(1, 1_000_000) as u32),
    place("Guest past the last row", |_, row| row.stage = Stage::Guest { arrival: 0, used: 0 }),
    place("Hyper past the last row", |_, row| row.stage = Stage::Hyper { arrival: 0, left: 0 }),
    place("Closed past the last row", |_, row| row.stage = Stage::Closed { arrival: 0 }),
    place("a whole row past the last row", |dice, row| *row = any_row(dice)),
    Damage {
        name: "too few numbers",
        clause: READABLE,
        alone: true,
        how: How::TooFew(&[0, 1, 2, 10, 256, 257]),
    },
    number("T of 2^32 or more", Of::Row, Wanted::NotHyper, 0, WIDE),
    number("D of 2^32 or more", Of::Row, Wanted::NotHyper, 1, WIDE),
    number("C of 2^32 or more", Of::Row, Wanted::NotHyper, 2, WIDE),
    number("K of 2^32 or more", Of::Row, Wanted::NotHyper, 3, WIDE),
    number("E of 2^32 or more", Of::Row, Wanted::NotHyper, 4, WIDE),
    number("T of 2^32 past the last row", Of::PastTheLastRow, Wanted::Never, 0, WIDE),
    number("D of 2^32 past the last row", Of::PastTheLastRow, Wanted::Never, 1, WIDE),
    number("C of 2^32 past the last row", Of::PastTheLastRow, Wanted::Never, 2, WIDE),
    number("K of 2^32 past the last row", Of::PastTheLastRow, Wanted::Never, 3, WIDE),
    number("E of 2^32 past the last row", Of::PastTheLastRow, Wanted::Never, 4, WIDE),
    number("stage above 3", Of::Row, Wanted::Closed, 5, NO_STAGE),
    number("stage above 3 past the last row", Of::PastTheLastRow, Wanted::Never, 5, NO_STAGE),
    number("arrival of a Never", Of::Row, Wanted::Never, 6, STRAY),
    number("ticks of a Never", Of::Row, Wanted::Never, 7, STRAY),
    number("ticks of a Closed", Of::Row, Wanted::Closed, 7, STRAY),
    number("arrival of a Never past the last row", Of::PastTheLastRow, Wanted::Never, 6, STRAY),
    number("ticks of a Never past the last row", Of::PastTheLastRow, Wanted::Never, 7, STRAY),
    not_alone(number("ticks of a Closed past the last row", Of::PastTheLastRow, Wanted::Closed, 7, STRAY)),
    not_alone(number("arrival of a Never of no rows", Of::NoRows, Wanted::Never, 6, STRAY)),
];

/// Fields that have no room in 32 bits; cut down to them they are small.
const WIDE: &[u64] = &[BEYOND, BEYOND + 1, BEYOND + 1_000, 1 << 40, u64::MAX];
/// Numbers of no stage; cut down to 8 or 32 bits some are.
const NO_STAGE: &[u64] = &[4, 5, 255, 256, 257, BEYOND, BEYOND + 3, u64::MAX];
/// Numbers where the stage has no use for one.
const STRAY: &[u64] = &[1, 77, 123, 1 << 40, u64::MAX];

/// So late that every stage has room for its arrival.
fn late_clock(dice: &mut Dice) -> u64 {
    dice.one_of(&LATE_CLOCKS) - dice.from_to(0, 20)
}

fn late_machine(dice: &mut Dice) -> Machine {
    let (clock, rows) = (late_clock(dice), dice.from_to(1, 32));
    hand_built_at(dice, clock, rows)
}

/// Every place is a row, so that none is past the last.
fn full_machine(dice: &mut Dice) -> Machine {
    let clock = late_clock(dice);
    hand_built_at(dice, clock, PLACES as u64)
}

fn stage_of(dice: &mut Dice, row: &Row, wanted: Wanted, clock: u64) -> Stage {
    let arrival = clock - dice.from_to(0, row.E.into());
    match wanted {
        Wanted::Never => Stage::Never,
        Wanted::Guest => Stage::Guest { arrival, used: dice.from_to(0, row.C.into()) },
        Wanted::Hyper => hyper(row, clock, row.K.into()),
        Wanted::Closed => Stage::Closed { arrival },
        Wanted::NotHyper => {
            let one = dice.one_of(&[Wanted::Never, Wanted::Guest, Wanted::Closed]);
            stage_of(dice, row, one, clock)
        }
    }
}

fn hyper(row: &Row, clock: u64, left: u64) -> Stage {
    Stage::Hyper { arrival: clock - u64::from(row.E) - 1, left }
}

fn after(dice: &mut Dice, clock: u64) -> u64 {
    dice.one_of(&[clock + 1, clock + 2, clock + BEYOND, u64::MAX])
}

fn set_arrival(row: &mut Row, to: u64) {
    match &mut row.stage {
        Stage::Guest { arrival, .. } | Stage::Hyper { arrival, .. } | Stage::Closed { arrival } => {
            *arrival = to
        }
        Stage::Never => unreachable!(),
    }
}

fn set_last(row: &mut Row, to: u64) {
    match &mut row.stage {
        Stage::Guest { used: last, .. } | Stage::Hyper { left: last, .. } => *last = to,
        _ => unreachable!(),
    }
}

/// No hypertask is started, and one at least is there.
fn machine_with_a_hyper(dice: &mut Dice) -> (Machine, usize) {
    let mut machine = late_machine(dice);
    for row in &mut machine.places {
        if let Stage::Hyper { left, .. } = &mut row.stage {
            *left = row.K.into();
        }
    }
    let i = dice.from_to(0, machine.count - 1) as usize;
    let row = &mut machine.places[i];
    row.stage = hyper(row, machine.clock, row.K.into());
    (machine, i)
}

/// That many rows at least are started hypertasks.
fn two_started(dice: &mut Dice, number: u64) -> Machine {
    let (clock, rows) = (late_clock(dice), dice.from_to(number, 32));
    let mut machine = hand_built_at(dice, clock, rows);
    let first = dice.from_to(0, rows - number) as usize;
    let last = dice.from_to(first as u64 + number - 1, rows - 1) as usize;
    for i in [first, last, first + 1].into_iter().take(number as usize) {
        let row = &mut machine.places[i];
        row.K = row.K.max(2);
        let left = dice.from_to(1, u64::from(row.K) - 1);
        row.stage = hyper(row, clock, left);
    }
    machine
}
