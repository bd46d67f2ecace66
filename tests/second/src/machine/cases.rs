//! Document 01's cases of the machine, and the edges of its refusals.

use crate::answer::{refusal, Answer};
use crate::dice::Dice;
use crate::machine::damages::{Damaged, DAMAGES, READABLE};
use crate::machine::made_up::hand_built;
use crate::machine::numbers::{self, given_by, numbers_of, read, ticks, write, ANSWER, NUMBERS, RECORD};
use crate::machine::rules::{is_well_formed, start, step, RULES, WELL_FORMED};
use crate::machine::state::*;

const UNTOUCHED: u8 = 0xA5;

const P2: [u32; 4] = [10, 8, 3, 2];
const P3: [u32; 4] = [10, 8, 6, 2];
const P9: [u32; 8] = [10, 10, 2, 1, 20, 20, 4, 2];

fn started(table: &[u32]) -> Machine {
    let (machine, answer) = start(table);
    assert_eq!(answer, Ok(table.len() as u64 / 4));
    assert!(is_well_formed(&machine));
    machine
}

fn mask(mask: u32) -> Tick {
    Tick { mask, signal: 0, early: false }
}

fn signal(signal: u8) -> Tick {
    Tick { mask: 0, signal, early: false }
}

const NOTHING: Tick = Tick { mask: 0, signal: 0, early: false };
const EARLY: Tick = Tick { mask: 0, signal: 0, early: true };

/// Takes the tick, which must be accepted, and gives its answer.
fn take(machine: &mut Machine, tick: Tick) -> Ran {
    let (next, answer) = step(*machine, tick);
    assert_eq!(next.clock, machine.clock + 1);
    assert!(is_well_formed(&next));
    *machine = next;
    answer.unwrap()
}

fn take_all(machine: &mut Machine, ticks: &[Tick]) {
    for tick in ticks {
        take(machine, *tick);
    }
}

/// The tick is refused so, and the machine comes back as it was.
fn assert_refused(machine: &Machine, tick: Tick, number: u32, place: usize) {
    let refused: TickAnswer = Err(refusal(number, place));
    assert_eq!(step(*machine, tick), (*machine, refused));
}

fn ran(who: Who, mark: Mark, ignored: bool) -> Ran {
    Ran { who, mark, ignored }
}

/// As the run program prints it.
fn line(ran: Ran) -> String {
    let who = match ran.who {
        Who::Nobody => "I".to_string(),
        Who::Guest(task) => format!("G{task}"),
        Who::Hypertask(task) => format!("H{task}"),
    };
    let mark = match ran.mark {
        Mark::Neither => '-',
        Mark::Output => 'O',
        Mark::BudgetUsedUp => 'S',
    };
    format!("{who} {mark} {}", u8::from(ran.ignored))
}

#[test]
fn a_machine_starts_at_clock_0_with_every_task_never() {
    let machine = started(&P9);
    assert_eq!((machine.count, machine.clock), (2, 0));
    assert_eq!(machine.rows().iter().map(|row| row.E).collect::<Vec<_>>(), [7, 16]);
    assert!(machine.places.iter().all(|row| row.stage == Stage::Never));
}

#[test]
fn a_refused_start_gives_the_machine_with_no_rows() {
    for (table, number, place) in [
        (&[][..], 1, 0),
        (&[10, 8, 0, 2], 2, 2),
        (&[10, 11, 1, 1], 3, 1),
        (&[5, 5, 1, 6], 5, 1),
        (&[5, 2, 1, 3], 6, 1),
        (&[10, 8, 7, 2], 7, 1),
        (&[5, 5, 2, 1, 8, 8, 2, 1], 19, 2),
        (&[23, 23, 8, 7, 19, 19, 4, 2, 21, 21, 4, 3], 19, 1),
    ] {
        assert_eq!(start(table), (WITHOUT_ROWS, Err(refusal(number, place))));
    }
}

#[test]
fn the_machine_with_no_rows_answers_8() {
    for tick in [NOTHING, mask(1), mask(u32::MAX), signal(1), EARLY] {
        assert_refused(&WITHOUT_ROWS, tick, 8, 0);
    }
}

#[test]
fn p2_silent_as_the_run_program_prints_it() {
    let mut machine = started(&P2);
    let mut lines = vec![line(take(&mut machine, mask(1)))];
    lines.extend((1..8).map(|_| line(take(&mut machine, NOTHING))));
    assert_eq!(lines, ["G1 - 0", "G1 - 0", "G1 S 0", "I - 0", "I - 0", "I - 0", "H1 - 0", "H1 O 0"]);
    assert_eq!(machine.places[0].stage, Stage::Closed { arrival: 0 });
}

#[test]
fn p3_signal_in_tick_5_gives_the_guests_output() {
    let mut machine = started(&P3);
    take_all(&mut machine, &[mask(1), NOTHING, NOTHING, NOTHING, NOTHING]);
    assert_eq!(take(&mut machine, signal(1)), ran(Who::Guest(1), Mark::Output, false));
    assert_eq!(machine.places[0].stage, Stage::Closed { arrival: 0 });
}

#[test]
fn p3_silent_till_then_tick_6_runs_the_hypertask_and_ignores_the_signal() {
    let mut machine = started(&P3);
    take_all(&mut machine, &[mask(1), NOTHING, NOTHING, NOTHING, NOTHING]);
    assert_eq!(take(&mut machine, NOTHING), ran(Who::Guest(1), Mark::BudgetUsedUp, false));
    assert_eq!(take(&mut machine, signal(1)), ran(Who::Hypertask(1), Mark::Neither, true));
}

#[test]
fn p3_second_arrival_at_9_and_at_10() {
    let mut machine = started(&P3);
    take_all(&mut machine, &[mask(1)]);
    take_all(&mut machine, &[NOTHING; 8]);
    assert_refused(&machine, mask(1), 11, 1);
    take(&mut machine, NOTHING);
    assert_eq!(take(&mut machine, mask(1)), ran(Who::Guest(1), Mark::Neither, false));
    assert_eq!(machine.places[0].stage, Stage::Guest { arrival: 10, used: 1 });
}

#[test]
fn a_started_hypertask_is_not_broken_in_on() {
    let mut machine = started(&P9);
    machine.clock = 100;
    machine.places[1].stage = Stage::Hyper { arrival: 80, left: 1 };
    machine.places[0].stage = Stage::Guest { arrival: 93, used: 2 };
    assert_eq!(take(&mut machine, NOTHING), ran(Who::Hypertask(2), Mark::Output, false));
    assert_eq!(take(&mut machine, NOTHING), ran(Who::Hypertask(1), Mark::Output, false));
}

#[test]
fn the_first_of_the_hypertasks_runs_where_none_is_started() {
    let mut machine = started(&P9);
    machine.clock = 100;
    machine.places[1].stage = Stage::Hyper { arrival: 80, left: 2 };
    machine.places[0].stage = Stage::Guest { arrival: 93, used: 2 };
    assert_eq!(take(&mut machine, NOTHING), ran(Who::Hypertask(1), Mark::Output, false));
    assert_eq!(take(&mut machine, EARLY), ran(Who::Hypertask(2), Mark::Output, false));
}

#[test]
fn signals_that_are_not_the_running_guests() {
    let mut machine = started(&P9);
    assert_eq!(take(&mut machine, signal(1)), ran(Who::Nobody, Mark::Neither, true));
    assert_eq!(take(&mut machine, EARLY), ran(Who::Nobody, Mark::Neither, false));
    take(&mut machine, mask(3));
    // Task 2 is ready too, but it doesn't run.
    assert_eq!(take(&mut machine, signal(2)), ran(Who::Guest(1), Mark::BudgetUsedUp, true));
    // Task 1 waits with C used.
    assert_eq!(take(&mut machine, signal(1)), ran(Who::Guest(2), Mark::Neither, true));
    assert_eq!(take(&mut machine, signal(33)), ran(Who::Guest(2), Mark::Neither, true));
    let early_and_signal = Tick { mask: 0, signal: 2, early: true };
    assert_eq!(take(&mut machine, early_and_signal), ran(Who::Guest(2), Mark::Output, false));
}

#[test]
fn a_signal_in_the_last_tick_of_the_budget_is_an_output() {
    let mut machine = started(&P2);
    take_all(&mut machine, &[mask(1), NOTHING]);
    assert_eq!(take(&mut machine, signal(1)), ran(Who::Guest(1), Mark::Output, false));
}

#[test]
fn the_lowest_task_past_the_last_row() {
    let machine = started(&P9);
    assert_refused(&machine, mask(0b1100), 10, 3);
    assert_refused(&machine, mask(1 << 31), 10, 32);
    assert_refused(&machine, mask(u32::MAX), 10, 3);
}

#[test]
fn refusal_10_before_11_before_12() {
    let mut machine = started(&P9);
    machine.clock = 100;
    // An arrival of task 1 is refused with 12, one of task 2 with 11.
    machine.places[0].stage = Stage::Hyper { arrival: 90, left: 1 };
    machine.places[1].stage = Stage::Closed { arrival: 81 };
    assert_refused(&machine, mask(0b001), 12, 1);
    assert_refused(&machine, mask(0b010), 11, 2);
    assert_refused(&machine, mask(0b011), 11, 2);
    assert_refused(&machine, mask(0b111), 10, 3);
}

#[test]
fn refusals_look_at_the_machine_as_it_was_handed_in() {
    let mut machine = started(&P9);
    machine.clock = 100;
    // Task 1 becomes Hyper in this tick; its arrival is too soon, and that is what is said.
    machine.places[0].stage = Stage::Guest { arrival: 93, used: 0 };
    assert_refused(&machine, mask(1), 11, 1);
    // Task 2 would be Closed by this tick, but it is Hyper still.
    machine.places[1].stage = Stage::Hyper { arrival: 70, left: 1 };
    assert_refused(&machine, mask(2), 12, 2);
}

#[test]
fn the_last_clock() {
    let mut machine = started(&P9);
    machine.clock = LAST_CLOCK - 1;
    assert_eq!(take(&mut machine, mask(1)), ran(Who::Guest(1), Mark::Neither, false));
    assert_eq!(machine.clock, LAST_CLOCK);
    assert_refused(&machine, NOTHING, 9, 0);
    assert_refused(&machine, mask(u32::MAX), 9, 0);
    machine.clock += 1;
    assert_refused(&machine, NOTHING, 8, 0);
}

#[test]
fn every_damage_breaks_its_clause_alone() {
    let mut dice = Dice::new(1);
    for damage in DAMAGES {
        for _ in 0..200 {
            let damaged = damage.damaged(&mut dice);
            let broken = broken_clauses(&damaged);
            let alone = broken.len() == 1 || !damage.alone;
            assert!(alone && broken[0] == damage.clause, "{}: {damaged:?}", damage.name);
            assert_refused_with_8(&damaged.numbers, dice.number() as u32);
        }
    }
}

/// The clauses of "well formed" that don't hold; before them whether the numbers can be read, which
/// only one of them is in the way of.
fn broken_clauses(damaged: &Damaged) -> Vec<&'static str> {
    let Damaged { machine, numbers } = damaged;
    let sound = numbers_of(machine);
    let changed = sound.iter().zip(numbers).filter(|(sound, number)| sound != number).count();
    let broken = WELL_FORMED.iter().filter(|(_, holds)| !holds(machine)).map(|(clause, _)| *clause);
    if read(numbers).is_some() {
        assert_eq!((read(numbers), changed), (Some(*machine), 0));
        return broken.collect();
    }
    assert!(changed == 1 || numbers.len() < NUMBERS);
    [READABLE].into_iter().chain(broken).collect()
}

/// By itself and in a run of ticks; nothing is touched.
fn assert_refused_with_8(numbers: &[u64], mask: u32) {
    let mut state = numbers.to_vec();
    let mut answer = [UNTOUCHED; ANSWER];
    assert_eq!(numbers::step(&RULES, &mut state, given(mask, 0), &mut answer), Err(refusal(8, 0)));
    assert_eq!(answer, [UNTOUCHED; ANSWER]);
    let answered = ticks(&RULES, &mut state, &[0; RECORD], &mut answer);
    match read(numbers) {
        None => assert_eq!((answered, answer), (Err(refusal(8, 0)), [UNTOUCHED; ANSWER])),
        Some(_) => assert_eq!((answered, &answer[4..]), (Ok(1), &[0, 0, 0, 0, 3, 8, 0, 0][..])),
    }
    assert_eq!(state, numbers);
}

#[test]
fn every_clause_is_damaged_alone() {
    let clauses = WELL_FORMED.iter().map(|(clause, _)| *clause).chain([READABLE]);
    for clause in clauses {
        assert!(DAMAGES.iter().any(|damage| damage.clause == clause && damage.alone), "{clause}");
    }
}

/// A fresh P3 with a number in an arrival past its last row: a tick that names that task must not
/// clear it.
#[test]
fn a_stray_number_is_no_machines() {
    for stray in [77, 123] {
        let mut state = numbers_of(&started(&P3));
        state[48] = stray;
        assert_eq!(read(&state), None);
        assert_refused_with_8(&state, 1 << 5);
    }
}

fn given(mask: u32, early: u8) -> Given {
    Given { mask, signal: 0, early }
}

/// The answer, and whether anything was touched.
fn stepped(machine: &Machine, given: Given, length: usize) -> (Answer, bool) {
    let (mut state, mut answer) = (numbers_of(machine), vec![UNTOUCHED; length]);
    let answered = numbers::step(&RULES, &mut state, given, &mut answer);
    (answered, state != numbers_of(machine) || answer != vec![UNTOUCHED; length])
}

#[test]
fn a_step_is_refused_by_number_17_18_8_and_by_the_tick_rule() {
    let (fresh, none) = (started(&P3), WITHOUT_ROWS);
    for (machine, mask, early, length, number, place) in [
        (none, 2, 2, 11, 17, 0),
        (fresh, 0, 255, 12, 17, 0),
        (none, 2, 1, 11, 18, 12),
        (fresh, 0, 0, 0, 18, 12),
        (none, 2, 1, 12, 8, 0),
        (fresh, 2, 1, 12, 10, 2),
    ] {
        let refused = Err(refusal(number, place));
        assert_eq!(stepped(&machine, given(mask, early), length), (refused, false));
    }
    assert_eq!(stepped(&fresh, given(1, 1), 12), (Ok(0), true));
}

/// Steps leave the machine and the answers that a run of the same ticks leaves; the byte past an
/// answer stays as it was.
#[test]
fn steps_are_a_run_of_ticks() {
    let records: [u8; 3 * RECORD] = [1, 0, 0, 0, 0, 0, 0, 0, 0, 0, 0, 0, 7, 1, 0, 0, 0, 0, 0, 0, 1, 0, 0, 0];
    let (mut run, mut answers) = (numbers_of(&started(&P3)), [0; 3 * ANSWER]);
    let mut by_steps = run;
    assert_eq!(ticks(&RULES, &mut run, &records, &mut answers), Ok(3));
    for (record, expected) in records.chunks(RECORD).zip(answers.chunks(ANSWER)) {
        let mut answer = [UNTOUCHED; ANSWER + 1];
        assert_eq!(numbers::step(&RULES, &mut by_steps, given_by(record), &mut answer), Ok(0));
        assert_eq!(answer, [expected, &[UNTOUCHED]].concat()[..]);
    }
    assert_eq!(by_steps, run);
}

#[test]
fn a_well_formed_machine_stays_so() {
    let mut dice = Dice::new(1);
    for _ in 0..3_000 {
        let machine = hand_built(&mut dice);
        assert!(is_well_formed(&machine), "{machine:?}");
        let tick = Tick { mask: 0, signal: dice.from_to(0, 33) as u8, early: dice.percent(20) };
        let (next, _) = step(machine, tick);
        assert!(is_well_formed(&next), "{machine:?}");
    }
}

#[test]
fn a_machine_is_its_numbers() {
    let mut dice = Dice::new(1);
    for _ in 0..1_000 {
        let machine = hand_built(&mut dice);
        let mut numbers = [u64::MAX; NUMBERS];
        write(&machine, &mut numbers);
        assert_eq!((read(&numbers), numbers), (Some(machine), numbers_of(&machine)));
    }
}
