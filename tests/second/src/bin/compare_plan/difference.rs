//! One case, looked at from every side: answers, places, parts, written bytes, everything lent
//! and its guards, and the round trips.

use crate::program::Program;
use second::answer::Answer;
use second::lent::{Lent, Pattern};
use second::plan::broken::Functions;
use second::plan::file::{check, script_into, table_into, write};
use second::plan::made_up::Case;
use std::fmt::{Debug, Display};

/// The second program.
pub const SECOND: Functions = Functions { check, table_into, script_into, write };

/// The second program's answer, or what is different in the other's.
pub fn compare(program: &dyn Program, case: &Case) -> Result<Answer, String> {
    match *case {
        Case::Reading { file, .. } => compare_reading(program, file),
        Case::Writing { table, script, output } => compare_writing(program, table, script, output),
    }
}

fn compare_reading(program: &dyn Program, file: &[u8]) -> Result<Answer, String> {
    let mut lent_file = Lent::holding(file);
    let file = &mut lent_file;
    let before = file.clone();
    let expected = SECOND.check(file);
    same("check", &expected, &program.check(file))?;
    for length in table_lengths(file) {
        compare_lent("table", length, file, |p, file, lent| p.table(file, lent), program)?;
    }
    for length in script_lengths(file) {
        compare_lent("script", length, file, |p, file, lent| p.script(file, lent), program)?;
    }
    if expected.is_ok() {
        written_again(program, file)?;
    }
    same_places("file", &before, file)?;
    Ok(expected)
}

/// Short by one, exact and longer. A refused file gets room for any table.
fn table_lengths(file: &mut Lent<u8>) -> Vec<usize> {
    match SECOND.table(file, &mut Lent::new(0)) as usize {
        0 => vec![0, 129],
        needed => vec![needed - 1, needed, needed + 3],
    }
}

/// Short by one, exact and longer. A refused file gets room for any script that it may have.
fn script_lengths(file: &mut Lent<u8>) -> Vec<usize> {
    match SECOND.script(file, &mut Lent::new(0)) as usize {
        0 => vec![0, file.part().len()],
        needed => vec![needed - 1, needed, needed + 3],
    }
}

type IntoLent<T> = fn(&dyn Program, &mut Lent<u8>, &mut Lent<T>) -> u64;

/// One of the parts, with so much lent for it.
fn compare_lent<T: Pattern>(
    what: &str,
    length: usize,
    file: &mut Lent<u8>,
    into: IntoLent<T>,
    program: &dyn Program,
) -> Result<(), String> {
    let mut expected = Lent::new(length);
    let mut found = expected.clone();
    let expected_answer = into(&SECOND, file, &mut expected);
    let found_answer = into(program, file, &mut found);
    same(&format_args!("{what} into {length}"), &expected_answer, &found_answer)?;
    same_places(what, &expected, &found)
}

/// An accepted file, written again from its parts, is the same bytes.
fn written_again(program: &dyn Program, file: &mut Lent<u8>) -> Result<(), String> {
    let numbers = SECOND.table(file, &mut Lent::new(0)) as usize;
    let bytes = SECOND.script(file, &mut Lent::new(0)) as usize;
    let (mut table, mut script) = parts(program, file, numbers, bytes)?;
    let length = file.part().len();
    let mut expected = Lent::new(length + 1);
    let mut found = expected.clone();
    expected.part_to_write()[..length].copy_from_slice(file.part());
    let answer = program.write(&mut table, &mut script, &mut found);
    same("written again from its parts", &Ok(length as u64), &answer)?;
    same_places("file written again", &expected, &found)
}

/// The program's table and script, which have to be this long.
fn parts(
    program: &dyn Program,
    file: &mut Lent<u8>,
    numbers: usize,
    bytes: usize,
) -> Result<(Lent<u32>, Lent<u8>), String> {
    let (mut table, mut script) = (Lent::new(numbers), Lent::new(bytes));
    same("numbers of the table", &(numbers as u64), &program.table(file, &mut table))?;
    same("bytes of the script", &(bytes as u64), &program.script(file, &mut script))?;
    Ok((table, script))
}

fn compare_writing(
    program: &dyn Program,
    table: &[u32],
    script: &[u8],
    output: usize,
) -> Result<Answer, String> {
    let (mut table, mut script) = (Lent::holding(table), Lent::holding(script));
    let (table_before, script_before) = (table.clone(), script.clone());
    let mut expected = Lent::new(output);
    let mut found = expected.clone();
    let answer = SECOND.write(&mut table, &mut script, &mut expected);
    same("write", &answer, &program.write(&mut table, &mut script, &mut found))?;
    same_places("output", &expected, &found)?;
    if let Ok(length) = answer {
        read_back(program, &found.part()[..length as usize], &table_before, &script_before)?;
    }
    same_places("table to write", &table_before, &table)?;
    same_places("script to write", &script_before, &script)?;
    Ok(answer)
}

/// What was written is accepted, and its parts are what was to be written.
fn read_back(program: &dyn Program, file: &[u8], table: &Lent<u32>, script: &Lent<u8>) -> Result<(), String> {
    let mut file = Lent::holding(file);
    same("check of what was written", &Ok(0), &program.check(&mut file))?;
    let (table_read, script_read) = parts(program, &mut file, table.part().len(), script.part().len())?;
    same_places("table read back", table, &table_read)?;
    same_places("script read back", script, &script_read)
}

fn same<T: PartialEq + Debug>(what: &(impl Display + ?Sized), expected: &T, found: &T) -> Result<(), String> {
    if expected == found {
        return Ok(());
    }
    Err(format!("{what}: second program {expected:?}, found {found:?}"))
}

/// Every place of lent memory is as it should be, its guards too.
fn same_places<T: Pattern>(what: &str, expected: &Lent<T>, found: &Lent<T>) -> Result<(), String> {
    if expected == found {
        return Ok(());
    }
    let difference = expected.differences(found).next().unwrap_or_default();
    Err(format!("{what}: {difference}"))
}
