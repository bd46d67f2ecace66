//! Made-up scripts: what arrives, what the guests signal and when hypertasks end early, each in
//! the light of the machine as it stands, which the second program tells.

use crate::dice::Dice;
use crate::machine::rules::step;
use crate::machine::state::{Machine, Row, Stage, Tick, Who, LAST_CLOCK, PLACES};

/// Signals that are at the edges of what a task's number can be.
pub const EDGE_SIGNALS: [u8; 5] = [0, 1, 32, 33, 255];

/// What a script has brought about that its answers don't tell.
#[derive(Clone, Copy, Default)]
pub struct Met {
    /// Arrivals T - 1 after the last that are refused, and exactly T after it that are taken.
    pub arrivals_one_too_soon: usize,
    pub arrivals_at_t: usize,
    pub masks_past_the_last_row: usize,
    /// Refused with 11 where a lower task is refused with 12, and the other way round.
    pub eleven_above_a_twelve: usize,
    /// Signals of EDGE_SIGNALS that no running guest has as its number.
    pub foreign_signals: [usize; EDGE_SIGNALS.len()],
    /// A task's own signal in tick arrival + E.
    pub signals_at_enforcement: usize,
    /// Early marks in a hypertask's first tick of several, in a middle one, in its last.
    pub early_first: usize,
    pub early_middle: usize,
    pub early_last: usize,
    pub early_with_no_hypertask: usize,
    /// A higher hypertask waits for a lower one that has started.
    pub higher_waits: usize,
    /// Ticks at 2^40 - 1 that are taken, and ticks at 2^40.
    pub taken_before_the_last_clock: usize,
    pub at_the_last_clock: usize,
}

impl Met {
    /// Every count with its name.
    pub fn counts(&self) -> Vec<(String, usize)> {
        let named = [
            ("arrivals at T - 1", self.arrivals_one_too_soon),
            ("arrivals at T", self.arrivals_at_t),
            ("masks past the last row", self.masks_past_the_last_row),
            ("11 at a task above a 12", self.eleven_above_a_twelve),
            ("own signal in arrival + E", self.signals_at_enforcement),
            ("early mark, first tick", self.early_first),
            ("early mark, middle tick", self.early_middle),
            ("early mark, last tick", self.early_last),
            ("early mark, no hypertask", self.early_with_no_hypertask),
            ("a higher hypertask waits", self.higher_waits),
            ("taken at 2^40 - 1", self.taken_before_the_last_clock),
            ("at 2^40", self.at_the_last_clock),
        ];
        let signals = EDGE_SIGNALS.iter().zip(self.foreign_signals);
        let signals = signals.map(|(signal, count)| (format!("foreign signal {signal}"), count));
        named.into_iter().map(|(name, count)| (name.to_string(), count)).chain(signals).collect()
    }
}

#[derive(Clone, Copy)]
enum Arrivals {
    AsSoonAsAllowed,
    /// As soon as allowed, and at times one tick sooner.
    OneTooSoon,
    /// Where allowed, in one tick of ten.
    Leisurely,
    /// As soon as allowed, and at times while Hyper, with the period over or not.
    WhileHyper,
    /// Allowed or not.
    AtRandom,
    None,
}

#[derive(Clone, Copy)]
enum Guests {
    Silent,
    /// In the first tick.
    Prompt,
    /// In the last tick of the budget.
    AtTheLast,
    /// In the tick that makes the task Hyper.
    Late,
    AtRandom,
}

#[derive(Clone, Copy)]
enum Early {
    Never,
    First,
    Middle,
    Last,
    AtRandom,
    Always,
}

/// How everyone behaves for a while.
struct Habits {
    arrivals: Arrivals,
    guests: Guests,
    early: Early,
    /// Of a hundred ticks, those with a foreign signal or a stray mask.
    strays: u64,
}

impl Habits {
    fn any(dice: &mut Dice) -> Habits {
        use Arrivals::*;
        Habits {
            arrivals: dice.one_of(&[
                AsSoonAsAllowed,
                AsSoonAsAllowed,
                OneTooSoon,
                OneTooSoon,
                Leisurely,
                WhileHyper,
                AtRandom,
                None,
            ]),
            guests: dice.one_of(&[
                Guests::Silent,
                Guests::Silent,
                Guests::Prompt,
                Guests::AtTheLast,
                Guests::Late,
                Guests::AtRandom,
            ]),
            early: dice.one_of(&[
                Early::Never,
                Early::First,
                Early::Middle,
                Early::Last,
                Early::AtRandom,
                Early::Always,
            ]),
            strays: dice.one_of(&[0, 2, 10, 30]),
        }
    }
}

const RECORDS_OF_A_HABIT: u64 = 64;

/// The records of that many ticks from this machine on, refused ones included.
pub fn script(dice: &mut Dice, machine: Machine, ticks: u64) -> (Vec<u8>, Met) {
    let (mut machine, mut met, mut records) = (machine, Met::default(), Vec::new());
    let mut habits = Habits::any(dice);
    for number in 0..ticks {
        if number % RECORDS_OF_A_HABIT == RECORDS_OF_A_HABIT - 1 {
            habits = Habits::any(dice);
        }
        let tick = tick(dice, &machine, &habits);
        let (next, answer) = step(machine, tick);
        met.count(&machine, tick, &next, answer.ok().map(|ran| ran.who));
        records.extend(record(dice, tick));
        machine = next;
    }
    (records, met)
}

/// The records of that many ticks in which guests are silent and hypertasks run to their end. Tasks
/// arrive at leisure at first, so that they get out of step, and then as soon as allowed.
pub fn pressing_script(dice: &mut Dice, machine: Machine, ticks: u64) -> Vec<u8> {
    let (mut machine, mut records) = (machine, Vec::new());
    let at_leisure = dice.from_to(0, ticks / 2);
    for number in 0..ticks {
        let arrivals = if number < at_leisure { Arrivals::Leisurely } else { Arrivals::AsSoonAsAllowed };
        let habits = Habits { arrivals, guests: Guests::Silent, early: Early::Never, strays: 0 };
        let tick = Tick { mask: mask(dice, &machine, &habits), signal: 0, early: false };
        machine = step(machine, tick).0;
        records.extend(record(dice, tick));
    }
    records
}

/// The byte 1 is the early mark and no other byte is; the last two bytes are not looked at.
fn record(dice: &mut Dice, tick: Tick) -> [u8; 8] {
    let [a, b, c, d] = tick.mask.to_le_bytes();
    let early = if tick.early { 1 } else { dice.one_of(&[0, 0, 0, 0, 0, 0, 0, 2, 128, 255]) };
    let spare = if dice.percent(10) { dice.number().to_le_bytes() } else { [0; 8] };
    [a, b, c, d, tick.signal, early, spare[0], spare[1]]
}

fn tick(dice: &mut Dice, machine: &Machine, habits: &Habits) -> Tick {
    let mask = mask(dice, machine, habits);
    let silent = Tick { mask, signal: 0, early: false };
    // Who runs depends on neither the signal nor the early mark.
    let (next, answer) = step(*machine, silent);
    let who = answer.map_or(Who::Nobody, |ran| ran.who);
    let signal = if dice.percent(habits.strays) {
        stray_signal(dice, machine)
    } else {
        signal(dice, machine, habits.guests, who, &next)
    };
    Tick { mask, signal, early: early(dice, habits.early, who, &next) }
}

fn mask(dice: &mut Dice, machine: &Machine, habits: &Habits) -> u32 {
    if dice.percent(habits.strays) && dice.percent(20) {
        return stray_mask(dice, machine);
    }
    let mut mask = 0;
    for (i, row) in machine.rows().iter().enumerate() {
        if arrives(dice, row, machine.clock, habits.arrivals) {
            mask |= 1 << i;
        }
    }
    mask
}

/// The ticks since the last arrival, where there was one before the clock.
fn age(row: &Row, clock: u64) -> Option<u64> {
    row.arrival().and_then(|arrival| clock.checked_sub(arrival))
}

fn arrives(dice: &mut Dice, row: &Row, clock: u64, habit: Arrivals) -> bool {
    let t = u64::from(row.T);
    let age = age(row, clock);
    let is_hyper = matches!(row.stage, Stage::Hyper { .. });
    let is_allowed = age.is_none_or(|age| age >= t) && !is_hyper;
    match habit {
        Arrivals::AsSoonAsAllowed => is_allowed,
        Arrivals::OneTooSoon => is_allowed || (age == t.checked_sub(1) && dice.percent(10)),
        Arrivals::WhileHyper => is_allowed || (is_hyper && dice.percent(20)),
        Arrivals::Leisurely => is_allowed && dice.percent(10),
        Arrivals::AtRandom => dice.percent(3),
        Arrivals::None => false,
    }
}

/// Past the last row, the last row and the next, a single task, all tasks of the table, or any.
fn stray_mask(dice: &mut Dice, machine: &Machine) -> u32 {
    let rows = machine.rows().len();
    let any = dice.number() as u32;
    let within = if rows == PLACES { u32::MAX } else { (1 << rows) - 1 };
    let one = 1u32 << dice.from_to(0, PLACES as u64 - 1);
    let past = any & any.rotate_left(7) & !within;
    dice.one_of(&[any, one, within, any & within, past, past & past.wrapping_neg(), !within, 1 << 31])
}

fn stray_signal(dice: &mut Dice, machine: &Machine) -> u8 {
    if dice.percent(70) {
        dice.one_of(&EDGE_SIGNALS)
    } else {
        dice.from_to(1, machine.rows().len() as u64 + 1) as u8
    }
}

fn signal(dice: &mut Dice, machine: &Machine, habit: Guests, who: Who, next: &Machine) -> u8 {
    let enforced = machine.rows().iter().position(|row| is_enforced_at(row, machine.clock));
    match (habit, who, enforced) {
        (Guests::Late, _, Some(i)) => i as u8 + 1,
        (Guests::Prompt, Who::Guest(task), _) => task as u8,
        (Guests::AtTheLast, Who::Guest(task), _) if has_no_budget_left(&next.places[task - 1]) => task as u8,
        (Guests::AtRandom, Who::Guest(task), _) if dice.percent(20) => task as u8,
        _ => 0,
    }
}

fn is_enforced_at(row: &Row, clock: u64) -> bool {
    matches!(row.stage, Stage::Guest { arrival, .. } if clock.checked_sub(arrival) == Some(row.E.into()))
}

fn has_no_budget_left(row: &Row) -> bool {
    matches!(row.stage, Stage::Guest { used, .. } if used == row.C.into())
}

/// How many ticks the hypertask that runs has left before it, told from the silent tick.
fn left_before(row: &Row) -> u64 {
    match row.stage {
        Stage::Hyper { left, .. } => left + 1,
        _ => 1,
    }
}

fn early(dice: &mut Dice, habit: Early, who: Who, next: &Machine) -> bool {
    let Who::Hypertask(task) = who else {
        return matches!(habit, Early::Always) || dice.percent(3);
    };
    let row = &next.places[task - 1];
    let (left, k) = (left_before(row), u64::from(row.K));
    match habit {
        Early::Never => false,
        Early::First => left == k,
        Early::Middle => 1 < left && left < k,
        Early::Last => left == 1,
        Early::AtRandom => dice.percent(30),
        Early::Always => true,
    }
}

impl Met {
    /// What one tick adds: the machine before it and after it, and who ran if it was accepted.
    fn count(&mut self, machine: &Machine, tick: Tick, next: &Machine, ran: Option<Who>) {
        let clock = machine.clock;
        let rows = machine.rows();
        let named = |i: usize| tick.mask >> i & 1 == 1;
        let ages =
            || rows.iter().enumerate().filter(|(i, _)| named(*i)).map(|(_, row)| (row, age(row, clock)));
        self.at_the_last_clock += usize::from(clock == LAST_CLOCK);
        self.masks_past_the_last_row += usize::from((rows.len()..PLACES).any(named));
        let Some(who) = ran else {
            let at_t_less_1 = |(row, age): (&Row, Option<u64>)| {
                age.is_some_and(|age| age.checked_add(1) == Some(row.T.into()))
            };
            self.arrivals_one_too_soon += usize::from(ages().any(at_t_less_1));
            self.eleven_above_a_twelve += usize::from(has_eleven_above_a_twelve(ages()));
            return;
        };
        let at_t = |(row, age): &(&Row, Option<u64>)| age.is_some_and(|age| age == row.T.into());
        self.arrivals_at_t += ages().filter(at_t).count();
        self.taken_before_the_last_clock += usize::from(clock == LAST_CLOCK - 1);
        self.count_signal(machine, tick.signal, who);
        match who {
            Who::Hypertask(task) => self.count_hypertask(machine, tick, task - 1, next),
            _ => self.early_with_no_hypertask += usize::from(tick.early),
        }
    }

    fn count_signal(&mut self, machine: &Machine, signal: u8, who: Who) {
        if who == Who::Guest(signal.into()) {
            return;
        }
        if let Some(i) = EDGE_SIGNALS.iter().position(|edge| *edge == signal) {
            self.foreign_signals[i] += 1;
        }
        let its_row = machine.rows().get(usize::from(signal).wrapping_sub(1));
        self.signals_at_enforcement +=
            usize::from(its_row.is_some_and(|row| is_enforced_at(row, machine.clock)));
    }

    fn count_hypertask(&mut self, machine: &Machine, tick: Tick, i: usize, next: &Machine) {
        let row = &machine.places[i];
        let k = u64::from(row.K);
        let left = match row.stage {
            Stage::Hyper { left, .. } => left,
            _ => k,
        };
        let waits = next.rows()[..i].iter().any(|row| matches!(row.stage, Stage::Hyper { .. }));
        self.higher_waits += usize::from(waits);
        if tick.early && k > 1 {
            match left {
                1 => self.early_last += 1,
                left if left == k => self.early_first += 1,
                _ => self.early_middle += 1,
            }
        }
    }
}

/// Whether the lowest task that is too soon stands above one that is Hyper but late enough.
fn has_eleven_above_a_twelve<'a>(named: impl Iterator<Item = (&'a Row, Option<u64>)>) -> bool {
    let mut twelve = false;
    for (row, age) in named {
        let too_soon = age.is_some_and(|age| age < row.T.into());
        if too_soon {
            return twelve;
        }
        twelve |= matches!(row.stage, Stage::Hyper { .. });
    }
    false
}
