//! Programs with one fault each, every one of which the look at the jobs has to notice. A fault
//! that shows in the jobs of no run from a fresh start, or of hardly any, is not listed.

use crate::jobs::books::{books, Books, Fault, Run};
use crate::jobs::made_up::{made_up, MadeUp};
use crate::machine::broken::{Program, BROKEN as MACHINES, SECOND};
use crate::machine::numbers::{numbers_of, ANSWER, NUMBERS, RECORD};
use crate::tables::broken::{Analyse, BROKEN as ANALYSES};

const MACHINES_THAT_BREAK_DEMAND_3: &[&str] = &[
    "a guest signal in tick arrival + E counts",
    "a guest signal in tick arrival + E holds the enforcement off",
    "a hypertask's output booked to the newest job",
    "a guest's output booked to the newest job",
    "a guest's arrival lost",
    "a refused tick moves the clock",
    "enforced with one more left",
    "enforcement by D",
    "the last task's arrival lost",
    "a guest goes before a hypertask",
    "the lowest hypertask first",
    "no output at the early mark",
    "the clock stays when nobody ran",
    "E from the wrong result",
    "started at clock 1",
    "the clock after the tick answered",
];

const MACHINES_THAT_CUT_A_GUEST_OFF: &[&str] = &["an arrival has one used", "the lowest guest first"];

const MACHINES_THAT_MEET_8: &[&str] = &[
    "a higher hypertask breaks in on a started one",
    "a refused tick enforces",
    "the budget check left out",
    "D equal to T not well formed",
    "used of C not well formed",
    "a guest at arrival + E not well formed",
    "left of K not well formed",
    "a hypertask one past arrival + E not well formed",
    "two hypertasks not well formed",
];

/// Analyses that accept too much or enforce too late for a hypertask.
const ANALYSES_THAT_BREAK_DEMAND_3: &[&str] =
    &["B left out", "B less 2", "up(w/T) in place of up(w/T) + 1", "E one later"];

/// Analyses that accept too much for a guest. The hypertask makes up for it, so they keep demand 3.
const ANALYSES_THAT_CUT_A_GUEST_OFF: &[&str] = &[
    "only the bound begun by a guest",
    "only the bound begun by a hypertask",
    "E in place of T - E",
    "rows below left out of F",
    "limit of WA one too large",
    "K left out of WE",
    "WE not looked at",
];

/// A change of the answers to a sound run on a table of so many rows.
type Change = fn(&mut [u8], usize);

const ANSWERS: &[(&str, Change)] = &[
    ("an output given twice", give_twice),
    ("an output dropped", drop_output),
    ("an output of another task", give_to_another),
    ("an output one tick later", give_later),
    ("a hypertask's output said to be the guest's", give_as_guest),
    ("a taken tick said to be refused", say_refused),
];

enum Part {
    Machine(Program),
    /// Of the machine that is started with its E on a table that it accepts.
    Analysis(Analyse),
    Answers(Change),
}

type Shows = fn(&Fault) -> bool;

/// A program with a fault in one part, and the faults of a run that count for having noticed it.
pub struct Broken {
    part: Part,
    shows: Shows,
}

/// All that are to be noticed, by their names.
pub fn all() -> Vec<(&'static str, Broken)> {
    let cut_off: Shows = |fault| matches!(fault, Fault::CutOff { .. });
    let eight: Shows = |fault| matches!(fault, Fault::Eight { .. });
    let answers =
        |(name, change)| (name, Broken { part: Part::Answers(change), shows: Fault::breaks_demand_3 });
    [
        broken(MACHINES_THAT_BREAK_DEMAND_3, &MACHINES, Part::Machine, Fault::breaks_demand_3),
        broken(MACHINES_THAT_CUT_A_GUEST_OFF, &MACHINES, Part::Machine, cut_off),
        broken(MACHINES_THAT_MEET_8, &MACHINES, Part::Machine, eight),
        broken(ANALYSES_THAT_BREAK_DEMAND_3, &ANALYSES, Part::Analysis, Fault::breaks_demand_3),
        broken(ANALYSES_THAT_CUT_A_GUEST_OFF, &ANALYSES, Part::Analysis, cut_off),
        ANSWERS.iter().copied().map(answers).collect(),
    ]
    .into_iter()
    .flatten()
    .collect()
}

/// The programs of these names, each with its fault in that part.
fn broken<P: Copy>(
    names: &[&'static str],
    programs: &[(&str, P)],
    part: fn(P) -> Part,
    shows: Shows,
) -> Vec<(&'static str, Broken)> {
    let one = |name: &&'static str| (*name, Broken { part: part(named(programs, name)), shows });
    names.iter().map(one).collect()
}

fn named<P: Copy>(programs: &[(&str, P)], name: &str) -> P {
    let program = programs.iter().find(|(its_name, _)| *its_name == name);
    program.unwrap_or_else(|| panic!("there is no broken program '{name}'")).1
}

impl Broken {
    /// How the fault shows in the run of this number, if it does.
    pub fn shown_by(&self, seed: u64, number: u64, sound: &MadeUp) -> Option<Fault> {
        let books = match self.part {
            Part::Machine(machine) => books_of(sound, &answers_from_a_start(sound, &machine)),
            Part::Analysis(analyse) => sound_books(&made_up(seed, number, analyse)),
            Part::Answers(change) => {
                let mut answers = sound_answers(sound);
                change(&mut answers, sound.table.len() / 4);
                books_of(sound, &answers)
            }
        };
        books.faults.into_iter().find(self.shows)
    }
}

fn books_of(made_up: &MadeUp, answers: &[u8]) -> Books {
    books(&Run { table: &made_up.table, E: &made_up.E(), records: &made_up.records, answers })
}

/// The books of the second program's machine.
pub fn sound_books(made_up: &MadeUp) -> Books {
    books_of(made_up, &sound_answers(made_up))
}

fn sound_answers(made_up: &MadeUp) -> Vec<u8> {
    answers(&SECOND, &mut numbers_of(&made_up.machine), &made_up.records)
}

fn answers_from_a_start(made_up: &MadeUp, machine: &Program) -> Vec<u8> {
    let mut state = [0; NUMBERS];
    (machine.start)(&machine.rules, &made_up.table, &mut state).expect("an accepted table");
    answers(machine, &mut state, &made_up.records)
}

fn answers(machine: &Program, state: &mut [u64], records: &[u8]) -> Vec<u8> {
    let mut answers = vec![0; records.len() / RECORD * ANSWER];
    (machine.ticks)(&machine.rules, state, records, &mut answers).expect("a machine's numbers");
    answers
}

// Faults in the answers themselves. An answer's last bytes: who, task, mark, ignored.

const WHO: usize = 8;
const TASK: usize = 9;
const MARK: usize = 10;

/// The first output and all answers to taken ticks after it.
fn from_the_first_output(answers: &mut [u8]) -> Vec<&mut [u8]> {
    let taken = answers.chunks_exact_mut(ANSWER).filter(|answer| answer[WHO] != 3);
    taken.skip_while(|answer| answer[MARK] != 1).collect()
}

fn give_twice(answers: &mut [u8], _: usize) {
    if let [output, next, ..] = &mut from_the_first_output(answers)[..] {
        next[WHO..].copy_from_slice(&output[WHO..]);
    }
}

fn drop_output(answers: &mut [u8], _: usize) {
    if let [output, ..] = &mut from_the_first_output(answers)[..] {
        output[MARK] = 0;
    }
}

fn give_to_another(answers: &mut [u8], rows: usize) {
    if let [output, ..] = &mut from_the_first_output(answers)[..] {
        output[TASK] = output[TASK] % rows as u8 + 1;
    }
}

fn give_later(answers: &mut [u8], rows: usize) {
    give_twice(answers, rows);
    drop_output(answers, rows);
}

fn give_as_guest(answers: &mut [u8], _: usize) {
    let mut outputs = answers.chunks_exact_mut(ANSWER).filter(|answer| answer[MARK] == 1);
    if let Some(output) = outputs.find(|output| output[WHO] == 2) {
        output[WHO] = 1;
    }
}

fn say_refused(answers: &mut [u8], _: usize) {
    if let Some(taken) = answers.chunks_exact_mut(ANSWER).find(|answer| answer[WHO] != 3) {
        taken[WHO..].copy_from_slice(&[3, 11, 0, 0]);
    }
}
