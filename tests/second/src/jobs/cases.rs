//! The booking of outputs: document 01's runs of P3, and every fault that a run can have.

#![allow(non_snake_case)]

use crate::jobs::books::{books, Books, Fault, Job, Run};
use crate::jobs::made_up::made_up;
use crate::machine::broken::SECOND;
use crate::machine::numbers::{numbers_of, ANSWER, NUMBERS, RECORD};
use crate::tables::analysis::analyse;

/// P3 and P9 of document 01, each with the E of its rows.
const P3: (&[u32], &[u32]) = (&[10, 8, 6, 2], &[6]);
const P9: (&[u32], &[u32]) = (&[10, 10, 2, 1, 20, 20, 4, 2], &[7, 16]);

const FIRST: Job = Job { task: 1, arrival: 0 };
const REFUSED: &str = "R11 -";

/// A mask, and the answer to its tick with the words of the run program: who ran and the mark.
type Tick = (u32, &'static str);

fn bytes_of(clock: u32, said: &str) -> Vec<u8> {
    let mut words = said.split(' ');
    let (who, task) = words.next().unwrap().split_at(1);
    let who = "IGHR".find(who).unwrap() as u8;
    let mark = "-OS".find(words.next().unwrap()).unwrap() as u8;
    let place = u32::from(who == 3);
    let last = [who, task.parse().unwrap_or(0), mark, 0];
    [&clock.to_le_bytes()[..], &place.to_le_bytes(), &last].concat()
}

/// The books of these ticks, with answers whose clocks are right.
fn books_of(table: (&[u32], &[u32]), ticks: &[Tick]) -> Books {
    let (mut records, mut answers, mut clock) = (Vec::new(), Vec::new(), 0);
    for (mask, said) in ticks {
        records.extend([mask.to_le_bytes(), [0; 4]].concat());
        answers.extend(bytes_of(clock, said));
        clock += u32::from(!said.starts_with('R'));
    }
    books(&Run { table: table.0, E: table.1, records: &records, answers: &answers })
}

/// An arrival of task 1 in the first tick and none in the others.
fn arrived(said: &[&'static str]) -> Vec<Tick> {
    said.iter().enumerate().map(|(number, said)| (u32::from(number == 0), *said)).collect()
}

fn faults(table: (&[u32], &[u32]), ticks: &[Tick]) -> Vec<Fault> {
    books_of(table, ticks).faults
}

/// The counts of a run without a fault: jobs, due, guest's and hypertask's outputs, open.
fn counts(ticks: &[Tick]) -> [usize; 5] {
    let books = books_of(P3, ticks);
    assert_eq!(books.faults, []);
    [books.jobs, books.due.iter().sum(), books.guest_outputs, books.hypertask_outputs, books.open]
}

/// P3 with signal 1 in tick 5, and then nobody runs up to its deadline.
const SIGNAL_IN_TICK_5: [&str; 8] = ["G1 -", "G1 -", "G1 -", "G1 -", "G1 -", "G1 O", "I -", "I -"];
/// P3 silent till then.
const SILENT: [&str; 8] = ["G1 -", "G1 -", "G1 -", "G1 -", "G1 -", "G1 S", "H1 -", "H1 O"];

#[test]
fn p3_signal_in_tick_5_is_the_guests_output() {
    assert_eq!(counts(&arrived(&SIGNAL_IN_TICK_5)), [1, 1, 1, 0, 0]);
    assert_eq!(counts(&arrived(&SIGNAL_IN_TICK_5[..7])), [1, 0, 1, 0, 0]);
    assert_eq!(counts(&arrived(&SIGNAL_IN_TICK_5[..5])), [1, 0, 0, 0, 1]);
}

#[test]
fn p3_silent_till_then_is_the_hypertasks_output() {
    assert_eq!(counts(&arrived(&SILENT)), [1, 1, 0, 1, 0]);
    assert_eq!(counts(&arrived(&SILENT[..7])), [1, 0, 0, 0, 1]);
}

#[test]
fn p3_second_arrival_at_9_refused_and_at_10_taken() {
    let mut ticks = arrived(&SILENT);
    ticks.extend([(0, "I -"), (1, REFUSED), (0, "I -"), (1, "G1 -")]);
    let books = books_of(P3, &ticks);
    assert_eq!((books.taken, books.refused), (11, 1));
    assert_eq!(counts(&ticks), [2, 1, 0, 1, 1]);
    ticks.extend(arrived(&SIGNAL_IN_TICK_5)[1..].iter());
    assert_eq!(counts(&ticks), [2, 2, 1, 1, 0]);
}

#[test]
fn the_second_programs_runs_of_p3_are_booked_so() {
    let answers_to = |records: &[u8]| {
        let (mut state, mut answers) = ([0; NUMBERS], vec![0; records.len() / RECORD * ANSWER]);
        (SECOND.start)(&SECOND.rules, P3.0, &mut state).unwrap();
        (SECOND.ticks)(&SECOND.rules, &mut state, records, &mut answers).unwrap();
        answers
    };
    let mut records = [0; 8 * RECORD];
    records[0] = 1;
    let silent: Vec<u8> = (0..8).flat_map(|clock| bytes_of(clock, SILENT[clock as usize])).collect();
    assert_eq!(answers_to(&records), silent);
    records[5 * RECORD + 4] = 1;
    let signal = (0..8).flat_map(|clock| bytes_of(clock, SIGNAL_IN_TICK_5[clock as usize]));
    assert_eq!(answers_to(&records), signal.collect::<Vec<u8>>());
}

#[test]
fn an_output_in_the_arrivals_own_tick_is_its_jobs() {
    let mut ticks = arrived(&["G1 O", "I -", "I -", "I -", "I -", "I -", "I -", "I -", "I -", "I -"]);
    ticks.extend(arrived(&["G1 O", "I -"]));
    assert_eq!(counts(&ticks), [2, 1, 2, 0, 0]);
}

#[test]
fn each_task_has_its_own_jobs() {
    let ticks = [(3, "G1 O"), (0, "G2 -"), (0, "G2 O")];
    let books = books_of(P9, &[&ticks[..], &[(0, "I -"); 7]].concat());
    assert_eq!((books.faults, books.due, books.guest_outputs), (vec![], vec![1, 0], 2));
}

#[test]
fn no_output_when_due() {
    let mut said = SILENT;
    said[7] = "H1 -";
    assert_eq!(faults(P3, &arrived(&said)), [Fault::None { job: FIRST, due: 8 }]);
}

#[test]
fn one_output_more() {
    let mut said = SILENT;
    said[6] = "H1 O";
    assert_eq!(faults(P3, &arrived(&said)), [Fault::MoreThanOne { job: FIRST, tick: 7 }]);
    assert_eq!(faults(P3, &arrived(&said[..7])), []);
}

#[test]
fn a_guest_in_tick_arrival_plus_E() {
    let mut said = SILENT;
    (said[6], said[7]) = ("G1 O", "I -");
    let late = Fault::LateGuest { job: FIRST, tick: 6, enforcement: 6 };
    assert_eq!(faults(P3, &arrived(&said)), [late]);
}

#[test]
fn a_hypertask_in_tick_arrival_plus_D() {
    let mut said = SILENT.to_vec();
    said[7] = "H1 -";
    said.push("H1 O");
    let late = Fault::LateHypertask { job: FIRST, tick: 8, due: 8 };
    assert_eq!(faults(P3, &arrived(&said)), [late]);
}

#[test]
fn an_output_with_no_arrival() {
    assert_eq!(faults(P3, &[(0, "H1 O")]), [Fault::NoArrival { task: 1, tick: 0 }]);
    assert_eq!(faults(P3, &[(0, "I -"), (3, "G2 O")]), [Fault::NoArrival { task: 2, tick: 1 }]);
    assert_eq!(faults(P9, &[(1, "G2 O")]), [Fault::NoArrival { task: 2, tick: 0 }]);
    assert_eq!(faults(P3, &[(1, REFUSED), (0, "G1 O")]), [Fault::NoArrival { task: 1, tick: 0 }]);
}

#[test]
fn no_answer_to_a_tick() {
    assert_eq!(faults(P3, &[(1, "I O")]), [Fault::NoAnswer { record: 0 }]);
}

#[test]
fn a_clock_that_is_not_the_number_of_ticks_taken() {
    let answers = [bytes_of(0, "I -"), bytes_of(1, REFUSED), bytes_of(2, "I -")].concat();
    let run = Run { table: P3.0, E: P3.1, records: &[0; 3 * RECORD], answers: &answers };
    assert_eq!(books(&run).faults, [Fault::Clock { record: 2, reads: 2, taken: 1 }]);
}

#[test]
fn a_guest_that_is_cut_off() {
    let mut said = SILENT;
    said[5] = "I -";
    let cut_off = Fault::CutOff { job: FIRST, ran: 5, enforcement: 6 };
    assert_eq!(faults(P3, &arrived(&said)), [cut_off]);
    assert!(!cut_off.breaks_demand_3());
    assert_eq!(faults(P3, &arrived(&said[..5])), []);
}

#[test]
fn refusal_8() {
    assert_eq!(faults(P3, &[(1, "R8 -")]), [Fault::Eight { record: 0 }]);
}

#[test]
fn jobs_are_the_outputs_and_those_still_open() {
    for number in 0..200 {
        let made_up = made_up(1, number, analyse);
        let mut state = numbers_of(&made_up.machine);
        let mut answers = vec![0; made_up.records.len() / RECORD * ANSWER];
        (SECOND.ticks)(&SECOND.rules, &mut state, &made_up.records, &mut answers).unwrap();
        let (table, E, records) = (&made_up.table, &made_up.E(), &made_up.records);
        let books = books(&Run { table, E, records, answers: &answers });
        assert_eq!(books.faults, []);
        assert_eq!(books.jobs, books.guest_outputs + books.hypertask_outputs + books.open);
        assert_eq!(books.taken, state[1]);
    }
}
