//! The run's text as one would write it in plain Rust: the plan's parts, the analysis, the machine,
//! and a line for each.

use crate::analysis::analyse;
use crate::machine::numbers::RECORD;
use crate::machine::state::{Machine, Mark, Row, Stage, PLACES, WITHOUT_ROWS};
use crate::machine::Who;
use std::io::Write;

const ROW: usize = 16;

/// Jobs of a task: arrived, guest outputs, hypertask outputs.
#[derive(Clone, Copy, Default)]
struct Totals {
    arrived: u64,
    guest: u64,
    hypertask: u64,
}

/// The text of a sound plan with an accepted table, the only kind that is measured.
#[inline(never)]
pub fn text(file: &[u8]) -> Vec<u8> {
    let (rows, script) = parts(file);
    let table: Vec<u32> =
        rows.chunks_exact(4).map(|b| u32::from_le_bytes([b[0], b[1], b[2], b[3]])).collect();
    let mut results = vec![0; table.len() / 4 * 3];
    let tasks = analyse(&table, &mut results).expect("an accepted table");
    let mut text = Vec::with_capacity(64 * (script.len() / RECORD + 64));
    writeln!(text, "ACCEPT {tasks}").unwrap();
    for (i, (n, r)) in table.chunks_exact(4).zip(results.chunks_exact(3)).enumerate() {
        let task = i + 1;
        writeln!(text, "{task} {} {} {} {} {} {} {}", n[0], n[1], n[2], n[3], r[0], r[1], r[2]).unwrap();
    }
    put_ticks(&mut text, fresh(&table, &results), script);
    text
}

fn number(file: &[u8], at: usize) -> usize {
    u32::from_le_bytes([file[at], file[at + 1], file[at + 2], file[at + 3]]) as usize
}

fn parts(file: &[u8]) -> (&[u8], &[u8]) {
    let part = |entry: usize| {
        let (offset, length) = (number(file, 8 + 12 * entry), number(file, 12 + 12 * entry));
        &file[offset..offset + length]
    };
    assert!(part(0).len() % ROW == 0);
    (part(0), if number(file, 0) == 2 { part(1) } else { &[] })
}

fn fresh(table: &[u32], results: &[u32]) -> Machine {
    let mut machine = Machine { count: table.len() as u64 / 4, ..WITHOUT_ROWS };
    for (row, (n, r)) in machine.places.iter_mut().zip(table.chunks_exact(4).zip(results.chunks_exact(3))) {
        *row = Row { T: n[0], D: n[1], C: n[2], K: n[3], E: r[1], stage: Stage::Never };
    }
    machine
}

fn put_ticks(text: &mut Vec<u8>, mut machine: Machine, script: &[u8]) {
    let mut totals = [Totals::default(); PLACES];
    for record in script.chunks_exact(RECORD) {
        let mask = number(record, 0) as u32;
        let clock = machine.clock;
        let stepped = machine.step_inlined(mask, record[4], record[5] == 1);
        machine = stepped.machine;
        let answer = stepped.answer;
        let task = usize::from(answer.task_or_number);
        let mark = match answer.mark {
            Mark::Neither => '-',
            Mark::Output => 'O',
            Mark::BudgetUsedUp => 'S',
        };
        let ignored = u8::from(answer.ignored);
        match answer.who {
            Who::Refused => writeln!(text, "{clock} REFUSE {task} {}", answer.place).unwrap(),
            Who::Nobody => writeln!(text, "{clock} I {mark} {ignored}").unwrap(),
            Who::Guest => writeln!(text, "{clock} G{task} {mark} {ignored}").unwrap(),
            Who::Hypertask => writeln!(text, "{clock} H{task} {mark} {ignored}").unwrap(),
        }
        if answer.who == Who::Refused {
            continue;
        }
        for (i, total) in totals.iter_mut().enumerate() {
            total.arrived += u64::from(mask >> i & 1);
        }
        match (answer.who, answer.mark) {
            (Who::Guest, Mark::Output) => totals[task - 1].guest += 1,
            (Who::Hypertask, Mark::Output) => totals[task - 1].hypertask += 1,
            _ => {}
        }
    }
    for (i, t) in totals.iter().take(machine.count as usize).enumerate() {
        let open = t.arrived - t.guest - t.hypertask;
        writeln!(text, "TASK {} {} {} {} {open}", i + 1, t.arrived, t.guest, t.hypertask).unwrap();
    }
}
