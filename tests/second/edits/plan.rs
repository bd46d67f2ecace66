//! The faults in reading and writing plan files.

use super::{edit, Edit, Source};

pub const FILE: Source = Source {
    file: "src/plan/file.rs",
    edits: EDITS,
    program: |module| {
        let fields =
            ["check", "table_into", "script_into", "write"].map(|name| format!("{name}: {module}::{name}"));
        format!("Functions {{ {} }}", fields.join(", "))
    },
};

const EDITS: &[Edit] = &[
    // The file's length, and the contents.
    edit("65,537 bytes let through", "LONGEST_FILE: usize = 65_536", "LONGEST_FILE: usize = 65_537"),
    edit("65,536 bytes not let through", "LONGEST_FILE: usize = 65_536", "LONGEST_FILE: usize = 65_535"),
    edit("4 bytes not let through", "SHORTEST_FILE: usize = 4", "SHORTEST_FILE: usize = 5"),
    edit("place of 13 is the limit", "refusal(13, length)", "refusal(13, LONGEST_FILE)"),
    edit("count 0 taken for 1", "let count = number_at(file, 0);", "let count = number_at(file, 0).max(1);"),
    edit(
        "count 3 taken for 2",
        "let count = number_at(file, 0);",
        "let count = number_at(file, 0);\n    let count = if count == 3 { 2 } else { count };",
    ),
    edit(
        "only the first byte of the count looked at",
        "let count = number_at(file, 0);",
        "let count = number_at(file, 0) & 0xFF;",
    ),
    edit(
        "contents past the end at place 1",
        "> file.len() {\n        return Err(refusal(14, 0));",
        "> file.len() {\n        return Err(refusal(14, 1));",
    ),
    edit(
        "contents up to the end not let through",
        "contents_length(count as usize) > file.len()",
        "contents_length(count as usize) >= file.len()",
    ),
    edit("kinds not checked", "entry.kind != [ROWS, SCRIPT][i].into()", "false"),
    edit(
        "second kind not checked",
        "entry.kind != [ROWS, SCRIPT][i].into()",
        "i == 0 && entry.kind != ROWS.into()",
    ),
    edit(
        "kind 3 taken for 2",
        "entry.kind != [ROWS, SCRIPT][i].into()",
        "entry.kind != [ROWS, SCRIPT][i].into() && (i, entry.kind) != (1, 3)",
    ),
    edit("kinds the other way round", "[ROWS, SCRIPT][i]", "[SCRIPT, ROWS][i]"),
    edit("place of 14 from 0", "refusal(14, i + 1)", "refusal(14, i)"),
    edit(
        "big-endian length",
        "length: number_at(file, start + 8)",
        "length: (number_at(file, start + 8) as u32).swap_bytes().into()",
    ),
    edit(
        "length before offset",
        "offset: number_at(file, start + 4),\n        length: number_at(file, start + 8)",
        "length: number_at(file, start + 4),\n        offset: number_at(file, start + 8)",
    ),
    // Where the bodies lie.
    edit(
        "15 before 14",
        "check_kinds(&contents)?;\n    check_bodies(&contents, file.len() as u64)?;",
        "check_bodies(&contents, file.len() as u64)?;\n    check_kinds(&contents)?;",
    ),
    edit(
        "15 of an earlier entry before 14 of a later",
        "check_kinds(&contents)?;\n    check_bodies(&contents, file.len() as u64)?;",
        "check_kinds(&contents[..1])?;\n    check_bodies(&contents, file.len() as u64)?; \
         check_kinds(&contents)?;",
    ),
    edit(
        "a gap of one byte let through",
        "entry.offset == preceding_end;",
        "entry.offset == preceding_end || entry.offset == preceding_end + 1;",
    ),
    edit(
        "an overlap of one byte let through",
        "entry.offset == preceding_end;",
        "entry.offset == preceding_end || entry.offset + 1 == preceding_end;",
    ),
    edit(
        "a gap before the first body let through",
        "entry.offset == preceding_end;",
        "entry.offset == preceding_end || (i == 0 && entry.offset >= preceding_end);",
    ),
    edit("offsets not checked", "entry.offset == preceding_end;", "true;"),
    edit("a first body past the end not looked at", "end > file_length;", "false;"),
    edit(
        "a first body up to the end not let through",
        "end > file_length;",
        "end > file_length || (i + 1 < contents.len() && end == file_length);",
    ),
    edit("last body not ending the file let through", "(is_last && end != file_length)", "false"),
    edit(
        "one byte too many at the end let through",
        "(is_last && end != file_length)",
        "(is_last && end + 1 < file_length)",
    ),
    edit(
        "offset + length in 32 bits",
        "let end = entry.offset + entry.length;",
        "let end = (entry.offset + entry.length) % (1 << 32);",
    ),
    edit("second body measured from the contents", "preceding_end = end;", ""),
    edit("place of 15 from 0", "refusal(15, i + 1)", "refusal(15, i)"),
    // Their lengths.
    edit(
        "16 before 15",
        "check_bodies(&contents, file.len() as u64)?;\n    check_body_lengths(&contents)?;",
        "check_body_lengths(&contents)?;\n    check_bodies(&contents, file.len() as u64)?;",
    ),
    edit(
        "16 of an earlier entry before 15 of a later",
        "check_bodies(&contents, file.len() as u64)?;\n    check_body_lengths(&contents)?;",
        "let early = check_body_lengths(&contents[..1]); \
         let in_order = |late: Refusal| if late.place == 2 { early.err().unwrap_or(late) } else { late }; \
         check_bodies(&contents, file.len() as u64).map_err(in_order)?; \
         check_body_lengths(&contents)?;",
    ),
    edit("33 rows let through", "LONGEST_ROWS: usize = 512", "LONGEST_ROWS: usize = 528"),
    edit("32 rows not let through", "LONGEST_ROWS: usize = 512", "LONGEST_ROWS: usize = 496"),
    edit("rows in eights let through", "length % ROW == 0", "length % 8 == 0"),
    edit("no rows let through", "length >= ROW &&", ""),
    edit("empty script section let through", "length > 0 &&", ""),
    edit("script not in eights let through", "length > 0 && length % RECORD == 0", "length > 0"),
    edit(
        "script in fours let through",
        "length > 0 && length % RECORD == 0",
        "length > 0 && length % 4 == 0",
    ),
    edit("place of 16 from 0", "refusal(16, i + 1)", "refusal(16, i)"),
    // The records.
    edit(
        "17 before 16",
        "check_body_lengths(&contents)?;\n    let parts = parts_of(&contents);",
        "let parts = parts_of(&contents); check_records(&file[parts.script.clone()])?; \
         check_body_lengths(&contents)?;",
    ),
    edit("records not checked by the reader", "check_records(&file[parts.script.clone()])?;", ""),
    edit("early mark 2 let through", "early_mark > 1", "early_mark > 2"),
    edit("early mark 255 let through", "early_mark > 1", "early_mark > 1 && early_mark != 255"),
    edit("early mark 1 not let through", "early_mark > 1", "early_mark > 0"),
    edit("spare bytes not checked", "spare != [0, 0]", "false"),
    edit("first spare byte not checked", "spare != [0, 0]", "spare[1] != 0"),
    edit("second spare byte not checked", "spare != [0, 0]", "spare[0] != 0"),
    edit(
        "last record not looked at",
        "in script.chunks_exact",
        "in script[..script.len().saturating_sub(8)].chunks_exact",
    ),
    edit(
        "first record not looked at",
        "chunks_exact(RECORD).enumerate()",
        "chunks_exact(RECORD).enumerate().skip(1)",
    ),
    edit("place of 17 from 1", "refusal(17, i)", "refusal(17, i + 1)"),
    edit("place of 17 is a byte", "refusal(17, i)", "refusal(17, i * RECORD)"),
    // What is handed back.
    edit(
        "rows of a file refused with 17 handed back",
        "&file[read(file).unwrap_or_default().rows]",
        "let refused = matches!(read(file), Err(Refusal { number: 17, .. })); \
         if refused { &file[28..32] } else { &file[read(file).unwrap_or_default().rows] }",
    ),
    edit(
        "the file's end in place of a missing script",
        "&file[read(file).unwrap_or_default().script]",
        "let script = read(file).unwrap_or_default().script; \
         if script.is_empty() { &file[file.len() - file.len().min(1)..] } else { &file[script] }",
    ),
    edit(
        "big-endian fields",
        "number_at(rows, 4 * i) as u32)",
        "(number_at(rows, 4 * i) as u32).swap_bytes())",
    ),
    edit("one place more asked for", "lent.len() >= from.len()", "lent.len() > from.len()"),
    edit(
        "as much as fits handed back",
        "if lent.len() >= from.len() {\n        lent[..from.len()].copy_from_slice(from);\n    }",
        "let fits = lent.len().min(from.len());\n    lent[..fits].copy_from_slice(&from[..fits]);",
    ),
    edit(
        "one place past the part written",
        "lent[..from.len()].copy_from_slice(from);",
        "lent[..from.len()].copy_from_slice(from); \
         lent.iter_mut().skip(from.len()).take(1).zip(from).for_each(|(to, from)| *to = *from);",
    ),
    // The writer's checks.
    edit("33 rows written", "LONGEST_TABLE: usize = 128", "LONGEST_TABLE: usize = 132"),
    edit(
        "numbers not in fours written",
        "length > LONGEST_TABLE || length % 4 != 0",
        "length > LONGEST_TABLE",
    ),
    edit("no rows written", "length < 4 ||", ""),
    edit(
        "16 before 1",
        "check_table_length(table.len())?;\n    check_script_length(script.len())?;",
        "check_script_length(script.len())?;\n    check_table_length(table.len())?;",
    ),
    edit(
        "17 before 1",
        "check_table_length(table.len())?;",
        "check_records(script)?;\n    check_table_length(table.len())?;",
    ),
    edit(
        "17 before 16 in writing",
        "check_script_length(script.len())?;\n    check_records(script)?;",
        "check_records(script)?;\n    check_script_length(script.len())?;",
    ),
    edit("empty script not written", "length != 0 && !is", "!is"),
    edit("place of the writer's 16 is 1", "refusal(16, 2)", "refusal(16, 1)"),
    edit("records not checked by the writer", "check_records(script)?;\n    let file", "let file"),
    edit(
        "13 before 17",
        "check_records(script)?;\n    let file = file_of(table, script);",
        "let file = file_of(table, script); check_file_length(file.len())?; check_records(script)?;",
    ),
    edit(
        "18 before 13",
        "check_file_length(file.len())?;\n    check_room(file.len(), output.len())?;",
        "check_room(file.len(), output.len())?;\n    check_file_length(file.len())?;",
    ),
    edit(
        "one record too many written",
        "check_file_length(file.len())?;\n    check_room",
        "check_file_length(file.len() - 8).map_err(|_| refusal(13, file.len()))?;\n    check_room",
    ),
    edit(
        "the last record that fits not written",
        "check_file_length(file.len())?;\n    check_room",
        "check_file_length(file.len() + 8).map_err(|_| refusal(13, file.len()))?;\n    check_room",
    ),
    edit("one byte more of output asked for", "lent < needed", "lent <= needed"),
    edit("place of 18 is what was lent", "refusal(18, needed)", "refusal(18, lent)"),
    // What is written.
    edit("an empty script gets a section", "if script.is_empty() {", "if false {"),
    edit(
        "big-endian count written",
        "(sections.len() as u32).to_le_bytes()",
        "(sections.len() as u32).to_be_bytes()",
    ),
    edit(
        "big-endian contents written",
        "file.extend(number.to_le_bytes())",
        "file.extend(number.to_be_bytes())",
    ),
    edit("big-endian rows written", "|number| number.to_le_bytes()", "|number| number.to_be_bytes()"),
    edit("a gap written between the bodies", "offset += body.len();", "offset += body.len() + 1;"),
    edit("the length of the file one short", "Ok(file.len() as u64)", "Ok(file.len() as u64 - 1)"),
    edit(
        "one byte written past the file",
        "output[..file.len()].copy_from_slice(&file);",
        "output[..file.len()].copy_from_slice(&file); \
         output.iter_mut().skip(file.len()).take(1).for_each(|byte| *byte = 0);",
    ),
    edit(
        "all of the output cleared",
        "output[..file.len()].copy_from_slice(&file);",
        "output.fill(0);\n    output[..file.len()].copy_from_slice(&file);",
    ),
    edit(
        "as much as fits written before 18",
        "check_room(file.len(), output.len())?;",
        "let fits = file.len().min(output.len()); output[..fits].copy_from_slice(&file[..fits]); \
         check_room(file.len(), output.len())?;",
    ),
    edit(
        "written before the records are checked",
        "check_records(script)?;\n    let file",
        "let early = file_of(table, script); \
         if early.len() <= output.len() { output[..early.len()].copy_from_slice(&early); } \
         check_records(script)?; let file",
    ),
];
