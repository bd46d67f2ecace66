//! The plan file: document 01's "The plan file" and refusals 13 to 18, the reader and the
//! writer. Bytes and records are counted from 0, entries of the contents from 1.

use crate::answer::{refusal, Answer, Refusal};
use std::ops::Range;

const SHORTEST_FILE: usize = 4;
const LONGEST_FILE: usize = 65_536;
const LONGEST_TABLE: usize = 128;

/// Bytes of the count, of an entry, of a row and of a tick record.
const COUNT: usize = 4;
const ENTRY: usize = 12;
const ROW: usize = 16;
const RECORD: usize = 8;
const LONGEST_ROWS: usize = 512;

/// The kinds of the sections, in the order in which they come.
pub const ROWS: u32 = 1;
pub const SCRIPT: u32 = 2;

/// Where the bodies lie in the file. A missing script is an empty part.
#[derive(Clone, Debug, Default, PartialEq, Eq)]
pub struct Parts {
    pub rows: Range<usize>,
    pub script: Range<usize>,
}

/// One line of the table of contents. Its numbers have 32 bits in the file; here their sums
/// have room as well.
struct Entry {
    kind: u64,
    offset: u64,
    length: u64,
}

// The reader.

/// Where the bodies lie, or the first refusal by number.
pub fn read(file: &[u8]) -> Result<Parts, Refusal> {
    check_file_length(file.len())?;
    let count = count_of_sections(file)?;
    let contents = contents_of(file, count);
    check_kinds(&contents)?;
    check_bodies(&contents, file.len() as u64)?;
    check_body_lengths(&contents)?;
    let parts = parts_of(&contents);
    check_records(&file[parts.script.clone()])?;
    Ok(parts)
}

pub fn check(file: &[u8]) -> Result<(), Refusal> {
    read(file).map(|_| ())
}

/// The rows' body as a part of the file, empty on refusal.
pub fn rows(file: &[u8]) -> &[u8] {
    &file[read(file).unwrap_or_default().rows]
}

/// The script's body as a part of the file, empty on refusal and where there is no script.
pub fn script(file: &[u8]) -> &[u8] {
    &file[read(file).unwrap_or_default().script]
}

/// Refusal 13.
fn check_file_length(length: usize) -> Result<(), Refusal> {
    if !(SHORTEST_FILE..=LONGEST_FILE).contains(&length) {
        return Err(refusal(13, length));
    }
    Ok(())
}

/// Refusal 14 at place 0. The count is looked at before anything is reckoned with it.
fn count_of_sections(file: &[u8]) -> Result<usize, Refusal> {
    let count = number_at(file, 0);
    if count < 1 || count > 2 {
        return Err(refusal(14, 0));
    }
    if contents_length(count as usize) > file.len() {
        return Err(refusal(14, 0));
    }
    Ok(count as usize)
}

fn contents_length(count: usize) -> usize {
    COUNT + count * ENTRY
}

fn contents_of(file: &[u8], count: usize) -> Vec<Entry> {
    let entry = |start: usize| Entry {
        kind: number_at(file, start),
        offset: number_at(file, start + 4),
        length: number_at(file, start + 8),
    };
    (0..count).map(|i| entry(contents_length(i))).collect()
}

/// Refusal 14 at an entry: kind 1 comes first, kind 2 second.
fn check_kinds(contents: &[Entry]) -> Result<(), Refusal> {
    for (i, entry) in contents.iter().enumerate() {
        if entry.kind != [ROWS, SCRIPT][i].into() {
            return Err(refusal(14, i + 1));
        }
    }
    Ok(())
}

/// Refusal 15. The contents precede the first body; a later one is measured from the end that
/// the entry before it states.
fn check_bodies(contents: &[Entry], file_length: u64) -> Result<(), Refusal> {
    let mut preceding_end = contents_length(contents.len()) as u64;
    for (i, entry) in contents.iter().enumerate() {
        let end = entry.offset + entry.length;
        let right_after = entry.offset == preceding_end;
        let past_the_end = end > file_length;
        let is_last = i + 1 == contents.len();
        if !right_after || past_the_end || (is_last && end != file_length) {
            return Err(refusal(15, i + 1));
        }
        preceding_end = end;
    }
    Ok(())
}

/// Refusal 16.
fn check_body_lengths(contents: &[Entry]) -> Result<(), Refusal> {
    for (i, entry) in contents.iter().enumerate() {
        let length = entry.length as usize;
        let fits = if i == 0 { is_length_of_rows(length) } else { is_length_of_a_script(length) };
        if !fits {
            return Err(refusal(16, i + 1));
        }
    }
    Ok(())
}

fn is_length_of_rows(length: usize) -> bool {
    length >= ROW && length <= LONGEST_ROWS && length % ROW == 0
}

/// Of a script that has a section: an empty one has none.
fn is_length_of_a_script(length: usize) -> bool {
    length > 0 && length % RECORD == 0
}

fn parts_of(contents: &[Entry]) -> Parts {
    let body = |entry: &Entry| entry.offset as usize..(entry.offset + entry.length) as usize;
    Parts { rows: body(&contents[0]), script: contents.get(1).map(body).unwrap_or_default() }
}

/// Refusal 17. Mask and signal may be anything.
fn check_records(script: &[u8]) -> Result<(), Refusal> {
    for (i, record) in script.chunks_exact(RECORD).enumerate() {
        let (early_mark, spare) = (record[5], &record[6..8]);
        if early_mark > 1 || spare != [0, 0] {
            return Err(refusal(17, i));
        }
    }
    Ok(())
}

/// The little-endian number of 32 bits that begins here.
fn number_at(file: &[u8], start: usize) -> u64 {
    let bytes = [file[start], file[start + 1], file[start + 2], file[start + 3]];
    u32::from_le_bytes(bytes).into()
}

// The bodies into lent memory, as the library's C interface hands them on.

/// How many numbers the rows have. They are written where the lent table has room for all.
pub fn table_into(file: &[u8], lent: &mut [u32]) -> u64 {
    let rows = rows(file);
    let numbers: Vec<u32> = (0..rows.len() / 4).map(|i| number_at(rows, 4 * i) as u32).collect();
    put_if_room(&numbers, lent)
}

/// How many bytes the script has. They are written where the lent script has room for all.
pub fn script_into(file: &[u8], lent: &mut [u8]) -> u64 {
    put_if_room(script(file), lent)
}

fn put_if_room<T: Copy>(from: &[T], lent: &mut [T]) -> u64 {
    if lent.len() >= from.len() {
        lent[..from.len()].copy_from_slice(from);
    }
    from.len() as u64
}

// The writer.

/// The file's length, with the file at the start of `output`; on refusal `output` stays as it
/// was.
pub fn write(table: &[u32], script: &[u8], output: &mut [u8]) -> Answer {
    check_table_length(table.len())?;
    check_script_length(script.len())?;
    check_records(script)?;
    let file = file_of(table, script);
    check_file_length(file.len())?;
    check_room(file.len(), output.len())?;
    output[..file.len()].copy_from_slice(&file);
    Ok(file.len() as u64)
}

/// Refusal 1.
fn check_table_length(length: usize) -> Result<(), Refusal> {
    if length < 4 || length > LONGEST_TABLE || length % 4 != 0 {
        return Err(refusal(1, length));
    }
    Ok(())
}

/// Refusal 16 of the writer: an empty script is fine, and its section would be the second.
fn check_script_length(length: usize) -> Result<(), Refusal> {
    if length != 0 && !is_length_of_a_script(length) {
        return Err(refusal(16, 2));
    }
    Ok(())
}

/// Refusal 18.
fn check_room(needed: usize, lent: usize) -> Result<(), Refusal> {
    if lent < needed {
        return Err(refusal(18, needed));
    }
    Ok(())
}

/// The file of a table and a script, however long.
pub fn file_of(table: &[u32], script: &[u8]) -> Vec<u8> {
    let rows: Vec<u8> = table.iter().flat_map(|number| number.to_le_bytes()).collect();
    if script.is_empty() {
        lay_out(&[(ROWS, &rows)])
    } else {
        lay_out(&[(ROWS, &rows), (SCRIPT, script)])
    }
}

/// The house layout: the contents, then the bodies in order with no gap.
pub fn lay_out(sections: &[(u32, &[u8])]) -> Vec<u8> {
    let mut file = (sections.len() as u32).to_le_bytes().to_vec();
    let mut offset = contents_length(sections.len());
    for (kind, body) in sections {
        for number in [*kind, offset as u32, body.len() as u32] {
            file.extend(number.to_le_bytes());
        }
        offset += body.len();
    }
    for (_, body) in sections {
        file.extend(*body);
    }
    file
}
