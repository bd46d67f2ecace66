//! The faults in the text of a run.

use super::{edit, Edit, Source};

pub const RUN: Source =
    Source { file: "src/text/run.rs", edits: EDITS, program: |module| format!("{module}::text") };

const EDITS: &[Edit] = &[
    // The totals.
    edit(
        "totals of guest and hypertask swapped",
        "{jobs_arrived} {guest_outputs} {hypertask_outputs} {open}",
        "{jobs_arrived} {hypertask_outputs} {guest_outputs} {open}",
    ),
    edit("open jobs missing from the TASK line", "{hypertask_outputs} {open}\\n", "{hypertask_outputs}\\n"),
    edit("no job is open", "{hypertask_outputs} {open}\\n", "{hypertask_outputs} 0\\n"),
    edit(
        "a guest's job is not open",
        "Stage::Guest { .. } | Stage::Hyper { .. } => 1",
        "Stage::Guest { .. } => 0,\n        Stage::Hyper { .. } => 1",
    ),
    edit(
        "a hypertask's job is not open",
        "Stage::Guest { .. } | Stage::Hyper { .. } => 1",
        "Stage::Hyper { .. } => 0,\n        Stage::Guest { .. } => 1",
    ),
    edit(
        "a closed job is open",
        "Stage::Never | Stage::Closed { .. } => 0",
        "Stage::Closed { .. } => 1,\n        Stage::Never => 0",
    ),
    edit(
        "arrivals of refused ticks counted",
        "let clock = self.machine.clock;",
        "let clock = self.machine.clock;\n        \
         let refused = step(self.machine, tick).1.is_err();\n        \
         if refused { self.count_arrivals(tick.mask); }",
    ),
    edit(
        "task 32's arrivals not counted",
        "self.totals.iter_mut().enumerate()",
        "self.totals.iter_mut().take(31).enumerate()",
    ),
    edit(
        "one arrival counted in a tick",
        "totals.jobs_arrived += u64::from(mask >> i & 1);",
        "totals.jobs_arrived += u64::from(mask.trailing_zeros() as usize == i);",
    ),
    edit(
        "a used-up budget counted as an output",
        "(Mark::Output, Who::Guest(task)) =>",
        "(Mark::Output | Mark::BudgetUsedUp, Who::Guest(task)) =>",
    ),
    edit(
        "every tick of a hypertask counted as an output",
        "(Mark::Output, Who::Hypertask(task)) =>",
        "(_, Who::Hypertask(task)) =>",
    ),
    edit(
        "an output booked to the newest job",
        "self.count_output(ran);",
        "let newest = (0..PLACES).max_by_key(|i| self.machine.places[*i].arrival()).unwrap() + 1;\n\
         self.count_output(Ran { who: match ran.who {\n\
         Who::Guest(_) => Who::Guest(newest), Who::Hypertask(_) => Who::Hypertask(newest), who => who,\n\
         }, ..ran });",
    ),
    edit(
        "totals cut down to 8 bits",
        "let Totals { jobs_arrived, guest_outputs, hypertask_outputs } = totals;",
        "let Totals { jobs_arrived, guest_outputs, hypertask_outputs } = totals;\n    \
         let jobs_arrived = *jobs_arrived as u8;",
    ),
    edit(
        "totals of 1,000 or more with a comma",
        "let Totals { jobs_arrived, guest_outputs, hypertask_outputs } = totals;",
        "let Totals { jobs_arrived: n, guest_outputs, hypertask_outputs } = totals;\n    \
         let with_a_comma = format!(\"{},{:03}\", n / 1_000, n % 1_000);\n    \
         let jobs_arrived = if *n < 1_000 { n.to_string() } else { with_a_comma };",
    ),
    // The ticks.
    edit("the clock after the tick", "tick_line(clock, ran)", "tick_line(self.machine.clock, ran)"),
    edit(
        "a refused tick advances the clock",
        "self.machine = next;",
        "self.machine = next;\n        self.machine.clock = clock + 1;",
    ),
    edit(
        "the clock of a refused tick left out",
        "format!(\"{clock} {}\", refusal_line(refusal))",
        "refusal_line(refusal)",
    ),
    edit("a refused tick has no line", "format!(\"{clock} {}\", refusal_line(refusal))", "String::new()"),
    edit(
        "the run ends at a refused tick",
        "text += &run.line_of(tick_of(record));",
        "text += &run.line_of(tick_of(record));\n        if text.contains(\"REFUSE\") { break; }",
    ),
    edit(
        "the last record left out",
        "in script(file).chunks_exact(RECORD)",
        "in script(file)[..script(file).len().saturating_sub(1)].chunks_exact(RECORD)",
    ),
    edit(
        "records past 8,000 left out",
        "in script(file).chunks_exact(RECORD)",
        "in script(file).chunks_exact(RECORD).take(8_000)",
    ),
    edit("mark S for O", "Mark::Output => 'O'", "Mark::Output => 'S'"),
    edit("mark O for S", "Mark::BudgetUsedUp => 'S'", "Mark::BudgetUsedUp => 'O'"),
    edit("no mark for a used-up budget", "Mark::BudgetUsedUp => 'S'", "Mark::BudgetUsedUp => '-'"),
    edit("ignored always 0", "u8::from(ran.ignored))", "0)"),
    edit(
        "ignored left out",
        "{mark} {}\\n\", who_ran(ran.who), u8::from(ran.ignored))",
        "{mark}\\n\", who_ran(ran.who))",
    ),
    edit(
        "a foreign signal taken for none",
        "signal: record[4]",
        "signal: if record[4] > 32 { 0 } else { record[4] }",
    ),
    edit("the early mark not looked at", "record[5] == 1", "false"),
    edit("the mask cut down to 16 bits", "record[1], record[2], record[3]])", "record[1], 0, 0])"),
    edit("big-endian mask", "u32::from_le_bytes", "u32::from_be_bytes"),
    edit("guests from 0", "format!(\"G{task}\")", "format!(\"G{}\", task - 1)"),
    edit("hypertasks from 0", "format!(\"H{task}\")", "format!(\"H{}\", task - 1)"),
    edit("a hypertask shown as a guest", "format!(\"H{task}\")", "format!(\"G{task}\")"),
    edit("I with a number", "\"I\".to_string()", "\"I0\".to_string()"),
    // The rows.
    edit("rows from 0", "row_line(i + 1, row", "row_line(i, row"),
    edit("TASK lines from 0", "task_line(i + 1, totals", "task_line(i, totals"),
    edit("E before R", "{K} {R} {E} {G}", "{K} {E} {R} {G}"),
    edit("G before E", "{K} {R} {E} {G}", "{K} {R} {G} {E}"),
    edit("D before T", "{task} {T} {D} {C}", "{task} {D} {T} {C}"),
    edit("R, E and G of the first row for all", "&results[3 * i..3 * i + 3]", "&results[..3]"),
    edit("ACCEPT with the numbers of the table", "accept_line(tasks)", "accept_line(4 * tasks)"),
    edit("ACCEPT without a number", "\"ACCEPT {tasks}\\n\"", "\"ACCEPT\\n\""),
    // Refusals, and the bytes between the words.
    edit(
        "19 told as 7",
        "refusal.number, refusal.place",
        "if refusal.number == 19 { 7 } else { refusal.number }, refusal.place",
    ),
    edit("place before number", "refusal.number, refusal.place", "refusal.place, refusal.number"),
    edit(
        "the place left out",
        "\"REFUSE {} {}\\n\", refusal.number, refusal.place",
        "\"REFUSE {}\\n\", refusal.number",
    ),
    edit(
        "a refused table printed before its refusal",
        "Err(refusal) => refusal_line(refusal).into_bytes(),\n    }\n}\n\n/// The text of the plan",
        "Err(refusal) => {\n            \
         let accepted = accept_line(table_of(file).len() as u64 / 4);\n            \
         (accepted + &refusal_line(refusal)).into_bytes()\n        }\n    }\n}\n\n/// The text of the plan",
    ),
    edit(
        "65,537 for every file that is too long",
        "match text_of_the_run(file)",
        "match text_of_the_run(&file[..file.len().min(65_537)])",
    ),
    edit(
        "newline missing at the end",
        "Ok(text) => text.into_bytes()",
        "Ok(text) => text.trim_end().as_bytes().to_vec()",
    ),
    edit("newline missing after a refusal", "\"REFUSE {} {}\\n\"", "\"REFUSE {} {}\""),
    edit(
        "a line too many at the end",
        "Ok(text) => text.into_bytes()",
        "Ok(text) => (text + \"\\n\").into_bytes()",
    ),
    edit("carriage returns", "{mark} {}\\n", "{mark} {}\\r\\n"),
    edit("a space at the end of a line", "{hypertask_outputs} {open}\\n", "{hypertask_outputs} {open} \\n"),
    edit("two spaces", "\"{clock} {} {mark}", "\"{clock}  {} {mark}"),
    edit(
        "no TASK lines without a script",
        "for (i, (row, totals)) in run",
        "if script(file).is_empty() { return Ok(text); }\n    for (i, (row, totals)) in run",
    ),
    edit(
        "no TASK line for a task without jobs",
        "text += &task_line(i + 1",
        "if totals.jobs_arrived > 0 { text += \"\" } else { continue }\n        text += &task_line(i + 1",
    ),
];
