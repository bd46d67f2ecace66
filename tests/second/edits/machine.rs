//! The faults of a machine: in its rules, and in its numbers and bytes.

use super::{edit, Edit, Source};

pub const RULES: Source = Source {
    file: "src/machine/rules.rs",
    edits: OF_RULES,
    program: |module| format!("Program {{ rules: {module}::RULES, ..SECOND }}"),
};

pub const NUMBERS: Source = Source {
    file: "src/machine/numbers.rs",
    edits: OF_NUMBERS,
    program: |module| {
        let calls = [("start", "start_into"), ("ticks", "ticks"), ("step", "step")];
        let calls = calls.map(|(field, name)| format!("{field}: {module}::{name}, ")).concat();
        format!("Program {{ {calls}..SECOND }}")
    },
};

const OF_RULES: &[Edit] = &[
    // Document 01's misreadings.
    edit("a higher hypertask breaks in on a started one", "first(is_started_hyper)", "first(is_hyper)"),
    edit(
        "a guest signal in tick arrival + E counts",
        "enforcement_instant(row, arrival) == u128::from(c)",
        "enforcement_instant(row, arrival) + 1 == u128::from(c)",
    ),
    edit(
        "a guest signal in tick arrival + E holds the enforcement off",
        "for row in machine.rows_mut() {",
        "let its_own = |i: usize| usize::from(tick.signal) == i + 1;\n\
         for (_, row) in machine.rows_mut().iter_mut().enumerate().filter(|(i, _)| !its_own(*i)) {",
    ),
    edit(
        "a hypertask's output booked to the newest job",
        "&mut rows[task - 1], tick.early",
        "rows.iter_mut().filter(|r| is_hyper(r)).max_by_key(|r| r.arrival()).unwrap(), tick.early",
    ),
    edit(
        "a guest's output booked to the newest job",
        "&mut rows[task - 1], its_own",
        "rows.iter_mut().filter(|r| is_guest_with_budget(r)).max_by_key(|r| r.arrival()).unwrap(), its_own",
    ),
    edit(
        "the last arrival lost at an output",
        "Stage::Closed { arrival };\n        Mark::Output",
        "Stage::Closed { arrival: arrival + 1 };\n        Mark::Output",
    ),
    edit(
        "a guest's arrival lost",
        "row.stage = Stage::Guest { arrival, used };",
        "row.stage = Stage::Guest { arrival: arrival + 1, used };",
    ),
    // The order and the edges of the refusals.
    edit(
        "12 before 11",
        "refuse_lowest(11, mask,",
        "refuse_lowest(12, mask, |i| is_hyper(&places[i]))?;\n    refuse_lowest(11, mask,",
    ),
    edit(
        "11 and 12 task by task",
        "refuse_lowest(11, mask,",
        "let first = (0..PLACES).find(|&i| is_named(mask, i) && is_hyper(&places[i]));\n\
         let up_to_it = first.map_or(mask, |i| mask & u32::MAX >> (31 - i));\n\
         refuse_lowest(11, up_to_it,",
    ),
    edit(
        "11 at exactly T",
        "u128::from(clock) < later(last, row.T)",
        "u128::from(clock) <= later(last, row.T)",
    ),
    edit(
        "11 one tick too late",
        "u128::from(clock) < later(last, row.T)",
        "u128::from(clock) + 1 < later(last, row.T)",
    ),
    edit("11 by D", "u128::from(clock) < later(last, row.T)", "u128::from(clock) < later(last, row.D)"),
    edit(
        "11 before 10",
        "refuse_lowest(10, mask,",
        "refuse_lowest(11, mask, |i| is_too_soon_after_the_last(&places[i], machine.clock))?;\n\
         refuse_lowest(10, mask,",
    ),
    edit("12 left out", "refuse_lowest(12, mask, |i| is_hyper(&places[i]))", "Ok(())"),
    edit(
        "12 for a started one alone",
        "refuse_lowest(12, mask, |i| is_hyper(",
        "refuse_lowest(12, mask, |i| is_started_hyper(",
    ),
    edit("the highest task named in place of the lowest", "(0..PLACES).find(", "(0..PLACES).rev().find("),
    edit("place from 0", "Some(i) => Err(refusal(number, i + 1))", "Some(i) => Err(refusal(number, i))"),
    edit(
        "a mask past the last row let through",
        "|i| i >= machine.number_of_rows()",
        "|i| i > machine.number_of_rows()",
    ),
    edit("clock 2^40 taken", "machine.clock == LAST_CLOCK", "machine.clock > LAST_CLOCK"),
    edit("clock 2^40 - 1 refused", "machine.clock == LAST_CLOCK", "machine.clock >= LAST_CLOCK - 1"),
    edit(
        "10 before 9",
        "if machine.clock == LAST_CLOCK {",
        "refuse_lowest(10, mask, |i| i >= machine.number_of_rows())?;\n\
         if machine.clock == LAST_CLOCK {",
    ),
    edit(
        "9 before 8",
        "if !is_well_formed(machine) {",
        "if machine.clock == LAST_CLOCK {\n\
             return Err(refusal(9, 0));\n\
         }\n\
         if !is_well_formed(machine) {",
    ),
    edit(
        "a refused tick moves the clock",
        "(machine, Err(refusal))",
        "(Machine { clock: machine.clock.saturating_add(1), ..machine }, Err(refusal))",
    ),
    edit(
        "a refused tick enforces",
        "Err(refusal) => (machine, Err(refusal)),",
        "Err(refusal) => {\n\
             let (mut machine, c) = (machine, machine.clock);\n\
             machine.rows_mut().iter_mut().for_each(|row| enforce(row, c));\n\
             (machine, Err(refusal))\n\
         }",
    ),
    // The five steps.
    edit("enforced with one more left", "left: row.K.into() }", "left: u64::from(row.K) + 1 }"),
    edit("enforcement by D", "later(arrival, row.E)", "later(arrival, row.D)"),
    edit(
        "an arrival has one used",
        "Stage::Guest { arrival: c, used: 0 }",
        "Stage::Guest { arrival: c, used: 1 }",
    ),
    edit(
        "the last task's arrival lost",
        "if is_named(tick.mask, i) {",
        "if i < 31 && is_named(tick.mask, i) {",
    ),
    edit(
        "a guest goes before a hypertask",
        "} else if let Some(i) = first(is_hyper) {",
        "} else if let Some(i) = first(is_guest_with_budget) {\n\
             Who::Guest(i + 1)\n\
         } else if let Some(i) = first(is_hyper) {",
    ),
    edit("the lowest hypertask first", "first(is_hyper)", "rows.iter().rposition(is_hyper)"),
    edit(
        "the lowest guest first",
        "first(is_guest_with_budget)",
        "rows.iter().rposition(is_guest_with_budget)",
    ),
    edit("the budget check left out", "if used < u64::from(row.C)", "if used <= u64::from(row.C)"),
    edit(
        "the early mark counts for guests",
        "run_guest(&mut rows[task - 1], its_own)",
        "run_guest(&mut rows[task - 1], its_own || tick.early)",
    ),
    edit("the early mark not looked at", "left == 0 || early", "left == 0"),
    edit(
        "the early mark on the first tick not looked at",
        "left == 0 || early",
        "left == 0 || (early && left + 1 < u64::from(row.K))",
    ),
    edit("a hypertask ends with one left", "left == 0 || early", "left <= 1 || early"),
    edit(
        "no output at the early mark",
        "Mark::Output\n    } else {",
        "if left == 0 { Mark::Output } else { Mark::Neither }\n    } else {",
    ),
    edit(
        "an output in the last tick of the budget is no output",
        "if signalled {",
        "if signalled && used < u64::from(row.C) {",
    ),
    edit(
        "no mark when the budget is used up",
        "        Mark::BudgetUsedUp\n    } else {",
        "        Mark::Neither\n    } else {",
    ),
    edit("any signal is the running guest's", "usize::from(tick.signal) == task;", "signalled;"),
    edit("ignored never said", "let signalled = tick.signal != 0;", "let signalled = false;"),
    edit("signal 0 ignored", "let signalled = tick.signal != 0;", "let signalled = true;"),
    edit(
        "a signal above 32 not said to be ignored",
        "let signalled = tick.signal != 0;",
        "let signalled = 1 <= tick.signal && tick.signal <= 32;",
    ),
    edit(
        "ignored not said when nobody ran",
        "mark: Mark::Neither, ignored: signalled",
        "mark: Mark::Neither, ignored: false",
    ),
    edit(
        "ignored not said when a hypertask ran",
        "Ran { who, mark, ignored: signalled }",
        "Ran { who, mark, ignored: false }",
    ),
    edit("ignored not said when another guest ran", "ignored: signalled && !its_own", "ignored: false"),
    edit(
        "an ignored early mark reported",
        "mark: Mark::Neither, ignored: signalled",
        "mark: Mark::Neither, ignored: signalled || tick.early",
    ),
    edit(
        "the clock stays when nobody ran",
        "machine.clock = c + 1;",
        "machine.clock = c + u64::from(ran.who != Who::Nobody);",
    ),
    // Well formed.
    edit("no rows are well formed", "1 <= m.count && m.count <= 32", "m.count <= 32"),
    edit("33 rows are well formed", "1 <= m.count && m.count <= 32", "1 <= m.count && m.count <= 33"),
    edit(
        "the count cut down to 32 bits",
        "1 <= m.count && m.count <= 32",
        "1 <= m.count as u32 && m.count as u32 <= 32",
    ),
    edit("the limits not looked at", "m.rows().iter().all(is_within_the_limits)", "true"),
    edit("T not looked at", "within(row.T) &&", ""),
    edit("C not looked at", "within(row.C) &&", ""),
    edit("K not looked at", "within(row.K) &&", ""),
    edit("a field of 0 well formed", "(1..=LARGEST_FIELD)", "(0..=LARGEST_FIELD)"),
    edit("a field of 1,000,001 well formed", "(1..=LARGEST_FIELD)", "(1..=LARGEST_FIELD + 1)"),
    edit("a field of 1,000,000 not well formed", "(1..=LARGEST_FIELD)", "(1..LARGEST_FIELD)"),
    edit("D above T well formed", "&& row.D <= row.T", ""),
    edit("D equal to T not well formed", "&& row.D <= row.T", "&& row.D < row.T"),
    edit("E of 0 well formed", "1 <= row.E && row.E < row.D", "row.E < row.D"),
    edit("E equal to D well formed", "1 <= row.E && row.E < row.D", "1 <= row.E && row.E <= row.D"),
    edit("any E well formed", "1 <= row.E && row.E < row.D", "true"),
    edit("any clock well formed", "m.clock <= LAST_CLOCK)", "m.clock < u64::MAX)"),
    edit("clock 2^40 not well formed", "m.clock <= LAST_CLOCK)", "m.clock < LAST_CLOCK)"),
    edit("any arrival well formed", "all(|arrival| arrival <= m.clock)", "all(|_| true)"),
    edit(
        "an arrival at the clock not well formed",
        "all(|arrival| arrival <= m.clock)",
        "all(|arrival| arrival < m.clock)",
    ),
    edit(
        "an arrival one after the clock well formed",
        "all(|arrival| arrival <= m.clock)",
        "all(|arrival| arrival <= m.clock + 1)",
    ),
    edit("any used well formed", "m.rows().iter().all(has_used_at_most_C)", "true"),
    edit("used of C + 1 well formed", "used <= u64::from(row.C)", "used <= u64::from(row.C) + 1"),
    edit("used of C not well formed", "used <= u64::from(row.C)", "used < u64::from(row.C)"),
    edit("used cut down to 32 bits", "used <= u64::from(row.C)", "used as u32 <= row.C"),
    edit(
        "any guest's age well formed",
        "m.rows().iter().all(|row| is_not_past_enforcement(row, m.clock))",
        "true",
    ),
    edit(
        "a guest at arrival + E not well formed",
        "u128::from(clock) <= enforcement_instant(row, arrival)",
        "u128::from(clock) < enforcement_instant(row, arrival)",
    ),
    edit(
        "a guest one past arrival + E well formed",
        "u128::from(clock) <= enforcement_instant(row, arrival)",
        "u128::from(clock) <= enforcement_instant(row, arrival) + 1",
    ),
    edit("any left well formed", "m.rows().iter().all(has_1_to_K_left)", "true"),
    edit("none left well formed", "1 <= left && left <= u64::from(row.K)", "left <= u64::from(row.K)"),
    edit(
        "left of K + 1 well formed",
        "1 <= left && left <= u64::from(row.K)",
        "1 <= left && left <= u64::from(row.K) + 1",
    ),
    edit(
        "left of K not well formed",
        "1 <= left && left <= u64::from(row.K)",
        "1 <= left && left < u64::from(row.K)",
    ),
    edit(
        "left cut down to 32 bits",
        "1 <= left && left <= u64::from(row.K)",
        "1 <= left as u32 && left as u32 <= row.K",
    ),
    edit(
        "any hypertask's age well formed",
        "m.rows().iter().all(|row| is_past_enforcement(row, m.clock))",
        "true",
    ),
    edit(
        "a hypertask at arrival + E well formed",
        "u128::from(clock) > enforcement_instant(row, arrival)",
        "u128::from(clock) >= enforcement_instant(row, arrival)",
    ),
    edit(
        "a hypertask one past arrival + E not well formed",
        "u128::from(clock) > enforcement_instant(row, arrival)",
        "u128::from(clock) > enforcement_instant(row, arrival) + 1",
    ),
    edit(
        "two started hypertasks well formed",
        ".filter(|row| is_started_hyper(row)).count() <= 1",
        ".filter(|row| is_started_hyper(row)).count() <= 2",
    ),
    edit(
        "any number of started hypertasks well formed",
        ".filter(|row| is_started_hyper(row)).count() <= 1",
        ".count() <= 32",
    ),
    edit(
        "two hypertasks not well formed",
        ".filter(|row| is_started_hyper(row)).count() <= 1",
        ".filter(|row| is_hyper(row)).count() <= 1",
    ),
    edit("places past the last row not looked at", "all(|row| *row == NO_ROW)", "all(|_| true)"),
    edit(
        "fields past the last row not looked at",
        "all(|row| *row == NO_ROW)",
        "all(|row| row.stage == Stage::Never)",
    ),
    edit(
        "stages past the last row not looked at",
        "all(|row| *row == NO_ROW)",
        "all(|row| row.T | row.D | row.C | row.K | row.E == 0)",
    ),
    // Starting.
    edit("E from the wrong result", "results[3 * i + 1]", "results[3 * i]"),
    edit(
        "started at clock 1",
        "machine.count = table.len() as u64 / 4;",
        "machine.clock = 1;\n    machine.count = table.len() as u64 / 4;",
    ),
    edit(
        "19 of a start told as 7",
        "(WITHOUT_ROWS, Err(refusal))",
        "(WITHOUT_ROWS, Err(if refusal.number == 19 { Refusal { number: 7, ..refusal } } else { refusal }))",
    ),
    edit(
        "a start refused with 19 keeps its rows",
        "Err(refusal) => (WITHOUT_ROWS, Err(refusal)),",
        "Err(refusal) if refusal.number == 19 => (fresh(table, &results), Err(refusal)),\n        \
         Err(refusal) => (WITHOUT_ROWS, Err(refusal)),",
    ),
    edit(
        "a refused start keeps its rows",
        "(WITHOUT_ROWS, Err(refusal))",
        "(fresh(&table[..table.len().min(128) / 4 * 4], &results), Err(refusal))",
    ),
];

const OF_NUMBERS: &[Edit] = &[
    edit(
        "the table before the lent numbers",
        "return Err(refusal(18, NUMBERS));",
        "(rules.start)(table).1?;\n        return Err(refusal(18, NUMBERS));",
    ),
    edit(
        "a number past the machine written",
        "state[0] = machine.count;",
        "state[0] = machine.count;\n\
         state.iter_mut().skip(NUMBERS).take(1).for_each(|number| *number = 0);",
    ),
    // Numbers that are no machine.
    edit(
        "ticks of no machine counted",
        "let mut machine = read(state).ok_or(refusal(8, 0))?;",
        "let Some(mut machine) = read(state) else { return Ok((records.len() / RECORD) as u64) };",
    ),
    edit(
        "no ticks of no machine, and no refusal",
        "let mut machine = read(state).ok_or(refusal(8, 0))?;",
        "let Some(mut machine) = read(state) else { return Ok(0) };",
    ),
    edit(
        "8 said in the answers to no machine",
        "let mut machine = read(state).ok_or(refusal(8, 0))?;",
        "let Some(mut machine) = read(state) else {\n\
             for bytes in answers.chunks_exact_mut(ANSWER).take(records.len() / RECORD) {\n\
                 bytes.copy_from_slice(&bytes_of(0, &Err(refusal(8, 0))));\n\
             }\n\
             return Err(refusal(8, 0));\n\
         };",
    ),
    edit(
        "too few numbers of a run refused with 18",
        "let mut machine = read(state).ok_or(refusal(8, 0))?;",
        "if state.len() < NUMBERS {\n        return Err(refusal(18, NUMBERS));\n    }\n    \
         let mut machine = read(state).ok_or(refusal(8, 0))?;",
    ),
    edit(
        "too few numbers of a step refused with 18",
        "let machine = read(state).ok_or(refusal(8, 0))?;",
        "if state.len() < NUMBERS {\n        return Err(refusal(18, NUMBERS));\n    }\n    \
         let machine = read(state).ok_or(refusal(8, 0))?;",
    ),
    edit("stage 4 taken for Closed", "[3, arrival, 0] =>", "[3 | 4, arrival, 0] =>"),
    edit(
        "stages cut down to 8 bits",
        "match numbers[5..] {",
        "match [numbers[5] as u8 as u64, numbers[6], numbers[7]] {",
    ),
    edit("fields cut down to 32 bits", "u32::try_from(numbers[place]).ok()", "Some(numbers[place] as u32)"),
    edit("E cut down to 32 bits", "E: field(4)?", "E: numbers[4] as u32"),
    edit(
        "a stray number passed over and written back as 0",
        "let stage = match numbers[5..] {",
        "let arrival = if numbers[5] == 0 { 0 } else { numbers[6] };\n    \
         let last = if [0, 3].contains(&numbers[5]) { 0 } else { numbers[7] };\n    \
         let stage = match [numbers[5], arrival, last] {",
    ),
    edit("Never's arrival not looked at", "[0, 0, 0] =>", "[0, _, 0] =>"),
    edit("Never's ticks not looked at", "[0, 0, 0] =>", "[0, 0, _] =>"),
    edit("Closed's ticks not looked at", "[3, arrival, 0] =>", "[3, arrival, _] =>"),
    edit(
        "stray numbers looked for within the count alone",
        "let mut machine = Machine { count: state[0], clock: state[1], ..WITHOUT_ROWS };",
        "let mut machine = Machine { count: state[0], clock: state[1], ..WITHOUT_ROWS };\n    \
         let mut cleared = state.to_vec();\n    \
         let last = 2 + IN_A_PLACE * state[0].min(32) as usize;\n    \
         for place in cleared[last..NUMBERS].chunks_exact_mut(IN_A_PLACE) {\n        \
             if place[5] == 0 { place[6] = 0; }\n        \
             if [0, 3].contains(&place[5]) { place[7] = 0; }\n    \
         }\n    \
         let state = &cleared[..];",
    ),
    edit(
        "places past the last row not read",
        ".zip(state[2..NUMBERS].chunks_exact(IN_A_PLACE))",
        ".zip(state[2..NUMBERS].chunks_exact(IN_A_PLACE)).take(state[0].min(32) as usize)",
    ),
    edit(
        "a number without a use written",
        "Stage::Never => (0, 0, 0),",
        "Stage::Never => (0, row.T.into(), 0),",
    ),
    // A run of ticks.
    edit("any early byte but 0 a mark", "given.early == 1", "given.early != 0"),
    edit("the spare bytes looked at", "early: record[5] }", "early: record[5] | record[6] }"),
    edit(
        "the clock after the tick answered",
        "bytes_of(machine.clock, &answer)",
        "bytes_of(next.clock, &answer)",
    ),
    edit("the place left out", "refusal.place as u32, [3", "0 * refusal.place as u32, [3"),
    edit("refused ticks not counted", "taken += 1;", "taken += u64::from(answer.is_ok());"),
    edit(
        "the last answer left out",
        "records.chunks_exact(RECORD)",
        "records[..records.len().saturating_sub(1)].chunks_exact(RECORD)",
    ),
    // One tick.
    edit(
        "18 before 17",
        "if given.early > 1 {",
        "if answer.len() < ANSWER {\n        return Err(refusal(18, ANSWER));\n    }\n    \
         if given.early > 1 {",
    ),
    edit(
        "8 before 18",
        "if answer.len() < ANSWER {",
        "read(state).ok_or(refusal(8, 0))?;\n    if answer.len() < ANSWER {",
    ),
    edit(
        "8 before 17",
        "if given.early > 1 {",
        "read(state).ok_or(refusal(8, 0))?;\n    if given.early > 1 {",
    ),
    edit("an early mark above 1 counted as none", "if given.early > 1 {", "if false {"),
    edit(
        "an early mark of 2 counted as 1",
        "if given.early > 1 {",
        "let given = Given { early: if given.early == 2 { 1 } else { given.early }, ..given };\n    \
         if given.early > 1 {",
    ),
    edit("an early mark of 1 refused", "if given.early > 1 {", "if given.early > 0 {"),
    edit(
        "too short an answer cleared",
        "return Err(refusal(18, ANSWER));",
        "answer.fill(0);\n        return Err(refusal(18, ANSWER));",
    ),
    edit("13 bytes asked for", "answer.len() < ANSWER", "answer.len() <= ANSWER"),
    edit("place of 18 is what was lent", "refusal(18, ANSWER)", "refusal(18, answer.len())"),
    edit("place of 17 from 1", "refusal(17, 0)", "refusal(17, 1)"),
    edit(
        "the answer of a refused step written",
        "said?;\n    answer[..ANSWER].copy_from_slice(&bytes_of(machine.clock, &said));",
        "answer[..ANSWER].copy_from_slice(&bytes_of(machine.clock, &said));\n    said?;",
    ),
    edit(
        "a refused step writes the state back with its clock advanced",
        "said?;",
        "if said.is_err() {\n\
             write(&Machine { clock: machine.clock.wrapping_add(1), ..machine }, state);\n\
         }\n    said?;",
    ),
    edit("a step's machine not written", "write(&next, state);\n    Ok(0)", "Ok(0)"),
    edit("a step's answer not written", "answer[..ANSWER].copy_from_slice(", "let _ = (&"),
    edit(
        "a step's answer with the clock after it",
        "bytes_of(machine.clock, &said)",
        "bytes_of(next.clock, &said)",
    ),
    edit("a step accepted with 1", "Ok(0)", "Ok(1)"),
    edit(
        "a byte past a step's answer written",
        "write(&next, state);\n    Ok(0)",
        "write(&next, state);\n    answer.iter_mut().skip(ANSWER).for_each(|byte| *byte = 0);\n    Ok(0)",
    ),
];
