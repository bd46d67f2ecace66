//! Plan files: read, written, run to answers and to texts.

use crate::{file, names, refusal, text};
use tollsalmon::{check_plan, run_to_text, Plan, Run, Tick, LONGEST_FILE};

/// The text of a refused plan or table.
fn refused_text((number, place): (u32, u64)) -> String {
    format!("REFUSE {number} {place}\n")
}

#[test]
fn every_plan_runs_to_its_text_or_is_refused_as_it_says() {
    let mut refused = vec![];
    for name in names() {
        match run_to_text(&file(&name)) {
            Ok(ran) => assert_eq!(ran, text(&name), "{name}"),
            refusing => {
                assert_eq!(refused_text(refusal(refusing)), text(&name), "{name}");
                refused.push(name);
            }
        }
    }
    refused.sort();
    assert_eq!(refused, ["damaged", "damaged-record", "refused-hypertask", "refused-table"]);
}

#[test]
fn every_plan_is_written_as_it_was_read() {
    for name in names() {
        let file = file(&name);
        match Plan::read(&file) {
            Ok(plan) => assert_eq!(plan.write(), Ok(file), "{name}"),
            refused => {
                assert_eq!(refused.map(drop), check_plan(&file), "{name}");
                assert!(name.starts_with("damaged"), "{name}");
            }
        }
    }
}

/// A run's ticks, as its text has them.
fn tick_lines(mut run: Run) -> Vec<String> {
    let mut lines = vec![];
    while let Some(answer) = run.next() {
        let clock = run.machine().clock();
        lines.push(match answer {
            Ok(answer) => answer.to_string(),
            Err(refusal) => format!("{clock} REFUSE {} {}", refusal.number(), refusal.place()),
        });
    }
    lines
}

#[test]
fn a_runs_answers_are_the_lines_of_its_text() {
    for name in names() {
        let Ok(plan) = Plan::read(&file(&name)) else { continue };
        let text = text(&name);
        let Ok(run) = plan.run() else {
            assert_eq!(refused_text(refusal(plan.run())), text, "{name}");
            continue;
        };
        let rows = plan.table.len() / 4;
        let lines: Vec<&str> = text.lines().skip(1 + rows).collect();
        assert_eq!(run.len(), lines.len() - rows, "{name}");
        assert_eq!(tick_lines(run), lines[..lines.len() - rows], "{name}");
    }
}

#[test]
fn document_01s_plan_has_its_bytes() {
    let mut script = vec![Tick::default(); 8];
    script[0].mask = 1;
    let plan = Plan { table: vec![10, 8, 3, 2], script };
    let numbers = [2, 1, 28, 16, 2, 44, 64, 10, 8, 3, 2, 1];
    let mut bytes: Vec<u8> = numbers.into_iter().flat_map(u32::to_le_bytes).collect();
    bytes.resize(108, 0);
    assert_eq!(plan.write(), Ok(bytes.clone()));
    assert_eq!(Plan::read(&bytes), Ok(plan));
}

#[test]
fn every_field_of_a_tick_is_written_and_read() {
    let script = vec![
        Tick { mask: 0x8765_4321, signal: 0, early: false },
        Tick { mask: 0, signal: 255, early: false },
        Tick { mask: 0, signal: 0, early: true },
    ];
    let plan = Plan { table: vec![0, u32::MAX, 3, 4], script };
    let file = plan.write().unwrap();
    assert_eq!(file[44..52], [0x21, 0x43, 0x65, 0x87, 0, 0, 0, 0]);
    assert_eq!((file[56], file[65]), (255, 1));
    assert_eq!(Plan::read(&file), Ok(plan));
}

#[test]
fn a_plan_without_a_script_has_one_section() {
    let plan = Plan { table: vec![10, 8, 3, 2], script: vec![] };
    let file = plan.write().unwrap();
    assert_eq!((file.len(), file[0]), (32, 1));
    assert_eq!(Plan::read(&file), Ok(plan.clone()));
    assert_eq!(plan.run().unwrap().count(), 0);
}

#[test]
fn the_longest_plans_are_written_and_run() {
    for rows in [1, 2, 31, 32] {
        let mut plan = Plan { table: [1_000, 1_000, 1, 1].repeat(rows), script: vec![] };
        plan.script = vec![Tick::default(); plan.room()];
        let file = plan.write().unwrap();
        assert!(LONGEST_FILE - 8 < file.len() && file.len() <= LONGEST_FILE, "{}", file.len());
        assert_eq!(plan.room(), 0);
        assert_eq!(Plan::read(&file).as_ref(), Ok(&plan));
        let lines = run_to_text(&file).unwrap().lines().count();
        assert_eq!(lines, 1 + 2 * rows + plan.script.len());
    }
}

#[test]
fn what_a_file_cant_hold_is_not_written() {
    let written = |numbers, ticks| {
        let plan = Plan { table: vec![1; numbers], script: vec![Tick::default(); ticks] };
        refusal(plan.write())
    };
    assert_eq!(written(0, 0), (1, 0));
    assert_eq!(written(5, 1), (1, 5));
    assert_eq!(written(132, 0), (1, 132));
    assert_eq!(written(4, 8_187), (13, 65_540));
    assert_eq!(Plan { table: vec![1; 20_000], script: vec![] }.room(), 0);
}
