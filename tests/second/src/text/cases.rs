//! Document 01's text to the byte, and the lines that it does not show.

use crate::dice::Dice;
use crate::machine::made_up::accepted_table;
use crate::machine::rules::start;
use crate::machine::scripts;
use crate::plan::file::file_of;
use crate::text::run::{text, text_of_stream};
use std::io::{self, Read};

const P2: &[u32] = &[10, 8, 3, 2];
const P3: &[u32] = &[10, 8, 6, 2];
const P9: &[u32] = &[10, 10, 2, 1, 20, 20, 4, 2];

/// Document 01's text of P2 with eight records, the first with mask 1 and all else zero.
const EXAMPLE: &str = "ACCEPT 1
1 10 8 3 2 2 6 3
0 G1 - 0
1 G1 - 0
2 G1 S 0
3 I - 0
4 I - 0
5 I - 0
6 H1 - 0
7 H1 O 0
TASK 1 1 0 1 0
";

/// Mask, signal, early mark.
type Record = (u32, u8, u8);

const QUIET: Record = (0, 0, 0);

fn plan(table: &[u32], records: &[Record]) -> Vec<u8> {
    let script: Vec<u8> = records.iter().flat_map(|record| bytes_of(*record)).collect();
    file_of(table, &script)
}

fn bytes_of((mask, signal, early): Record) -> [u8; 8] {
    let [a, b, c, d] = mask.to_le_bytes();
    [a, b, c, d, signal, early, 0, 0]
}

fn example() -> Vec<u8> {
    let mut records = [QUIET; 8];
    records[0].0 = 1;
    plan(P2, &records)
}

fn assert_text(file: &[u8], expected: &str) {
    assert_eq!(String::from_utf8(text(file)).unwrap(), expected);
}

/// The lines after the ACCEPT line and the rows.
fn assert_run(table: &[u32], records: &[Record], expected: &str) {
    let text = String::from_utf8(text(&plan(table, records))).unwrap();
    let run = text.split_inclusive('\n').skip(1 + table.len() / 4).collect::<String>();
    assert_eq!(run, expected);
}

#[test]
fn document_01_example() {
    assert_eq!(example().len(), 108);
    assert_text(&example(), EXAMPLE);
}

#[test]
fn no_script_has_no_tick_lines() {
    let text = "ACCEPT 2\n1 10 10 2 1 3 7 4\n2 20 20 4 2 4 16 7\nTASK 1 0 0 0 0\nTASK 2 0 0 0 0\n";
    assert_text(&plan(P9, &[]), text);
}

#[test]
fn refused_tables_have_one_line() {
    assert_text(&plan(&[10, 8, 7, 2], &[(1, 0, 0)]), "REFUSE 7 1\n");
    assert_text(&plan(&[5, 5, 2, 1, 8, 8, 2, 1], &[]), "REFUSE 19 2\n");
    assert_text(&plan(&[23, 23, 8, 7, 19, 19, 4, 2, 21, 21, 4, 3], &[(1, 0, 0)]), "REFUSE 19 1\n");
    assert_text(&plan(&[5, 2, 1, 3], &[]), "REFUSE 6 1\n");
    assert_text(&plan(&[5, 5, 1, 6], &[]), "REFUSE 5 1\n");
    assert_text(&plan(&[10, 11, 1, 1], &[]), "REFUSE 3 1\n");
    assert_text(&plan(&[10, 8, 0, 2], &[]), "REFUSE 2 2\n");
    assert_text(&plan(&[5, 5, 1, 2, 7, 7, 1, 2, 7, 7, 1, 2], &[]), "REFUSE 6 2\n");
}

#[test]
fn refused_files_have_one_line() {
    assert_text(&[], "REFUSE 13 0\n");
    assert_text(&[0; 4], "REFUSE 14 0\n");
    assert_text(&example()[..107], "REFUSE 15 2\n");
    assert_text(&plan(&[1; 132], &[]), "REFUSE 16 1\n");
    assert_text(&plan(P2, &[QUIET, (0, 0, 2)]), "REFUSE 17 1\n");
}

#[test]
fn the_file_is_refused_before_its_table() {
    assert_text(&plan(&[0; 4], &[(0, 0, 9)]), "REFUSE 17 0\n");
}

#[test]
fn a_slice_that_is_too_long_is_refused_with_its_length() {
    assert_text(&[0; 70_000], "REFUSE 13 70000\n");
}

#[test]
fn the_guest_gives_its_output_in_its_last_tick() {
    let records = [(1, 0, 0), QUIET, QUIET, QUIET, QUIET, (0, 1, 0), (0, 1, 0)];
    let run = "0 G1 - 0\n1 G1 - 0\n2 G1 - 0\n3 G1 - 0\n4 G1 - 0\n5 G1 O 0\n6 I - 1\nTASK 1 1 1 0 0\n";
    assert_run(P3, &records, run);
}

#[test]
fn the_hypertask_takes_over_and_the_late_signal_is_ignored() {
    let records = [(1, 0, 0), QUIET, QUIET, QUIET, QUIET, (0, 2, 0), (0, 1, 0), (0, 0, 1)];
    let run =
        "0 G1 - 0\n1 G1 - 0\n2 G1 - 0\n3 G1 - 0\n4 G1 - 0\n5 G1 S 1\n6 H1 - 1\n7 H1 O 0\nTASK 1 1 0 1 0\n";
    assert_run(P3, &records, run);
}

#[test]
fn a_hypertask_ended_early() {
    let records = [(1, 0, 1), QUIET, QUIET, QUIET, QUIET, QUIET, (0, 0, 1)];
    let run = "0 G1 - 0\n1 G1 - 0\n2 G1 S 0\n3 I - 0\n4 I - 0\n5 I - 0\n6 H1 O 0\nTASK 1 1 0 1 0\n";
    assert_run(P2, &records, run);
}

#[test]
fn the_record_after_a_refused_one_comes_at_the_same_clock() {
    let records = [(1, 1, 0), (2, 0, 0), (1, 0, 0), (3, 0, 0), QUIET];
    let run = "0 G1 O 0\n1 REFUSE 10 2\n1 REFUSE 11 1\n1 REFUSE 10 2\n1 I - 0\nTASK 1 1 1 0 0\n";
    assert_run(P2, &records, run);
}

#[test]
fn twelve_is_not_met_before_eleven() {
    // In an accepted table a hypertask is done before its period is: 11 comes first.
    let mut records = vec![QUIET; 6];
    records[0].0 = 1;
    records.extend([QUIET, (1, 0, 0)]);
    let run =
        "0 G1 - 0\n1 G1 - 0\n2 G1 S 0\n3 I - 0\n4 I - 0\n5 I - 0\n6 H1 - 0\n7 REFUSE 11 1\nTASK 1 1 0 0 1\n";
    assert_run(P2, &records, run);
}

#[test]
fn open_jobs_and_outputs_are_their_own_tasks() {
    // Task 1 comes while task 2 runs and pre-empts it.
    let records = [(2, 0, 0), (1, 0, 0), (0, 1, 0), (0, 2, 0), QUIET];
    let run = "0 G2 - 0\n1 G1 - 0\n2 G1 O 0\n3 G2 O 0\n4 I - 0\nTASK 1 1 1 0 0\nTASK 2 1 1 0 0\n";
    assert_run(P9, &records, run);
    assert_run(P9, &records[..2], "0 G2 - 0\n1 G1 - 0\nTASK 1 1 0 0 1\nTASK 2 1 0 0 1\n");
}

#[test]
fn a_signal_that_is_no_tasks_number_is_ignored() {
    let records = [(1, 255, 0), (0, 33, 0)];
    assert_run(P2, &records, "0 G1 - 1\n1 G1 - 1\nTASK 1 1 0 0 1\n");
}

// The stream.

/// A stream that hands on a few bytes at a time, and fails where more is asked for than it has.
struct Drops {
    left: usize,
}

impl Read for Drops {
    fn read(&mut self, bytes: &mut [u8]) -> io::Result<usize> {
        if self.left == 0 {
            return Err(io::Error::other("read past what was needed"));
        }
        let number = bytes.len().min(self.left).min(1_000);
        bytes[..number].fill(0);
        self.left -= number;
        Ok(number)
    }
}

fn text_of(stream: impl Read) -> String {
    String::from_utf8(text_of_stream(stream).unwrap()).unwrap()
}

#[test]
fn a_stream_has_the_text_of_its_bytes() {
    assert_eq!(text_of(&example()[..]), EXAMPLE);
    assert_eq!(text_of(io::empty()), "REFUSE 13 0\n");
    assert_eq!(text_of(io::repeat(0).take(65_536)), "REFUSE 14 0\n");
}

#[test]
fn a_stream_that_is_too_long_is_refused_at_65537_however_much_follows() {
    for length in [65_537, 65_538, 1_000_000] {
        assert_eq!(text_of(io::repeat(0).take(length)), "REFUSE 13 65537\n");
    }
    assert_eq!(text_of(io::repeat(1)), "REFUSE 13 65537\n");
    assert_eq!(text_of(Drops { left: 65_537 }), "REFUSE 13 65537\n");
}

// Made-up plans.

#[test]
fn every_job_has_one_output_or_is_open() {
    let mut dice = Dice::new(7);
    for rows in 1..=32 {
        let table = accepted_table(&mut dice, rows);
        let (records, _) = scripts::script(&mut dice, start(&table).0, 300);
        let records: Vec<Record> = records.chunks(8).map(record_of).collect();
        let text = String::from_utf8(text(&plan(&table, &records))).unwrap();
        let lines: Vec<Vec<&str>> = text.lines().map(|line| line.split(' ').collect()).collect();
        assert_eq!(lines.len(), 1 + 2 * rows as usize + 300);
        for totals in &lines[lines.len() - rows as usize..] {
            let number = |place: usize| totals[place].parse::<u64>().unwrap();
            assert_eq!(number(2), number(3) + number(4) + number(5), "{totals:?}");
        }
    }
}

fn record_of(bytes: &[u8]) -> Record {
    let mask = u32::from_le_bytes([bytes[0], bytes[1], bytes[2], bytes[3]]);
    (mask, bytes[4], u8::from(bytes[5] == 1))
}
