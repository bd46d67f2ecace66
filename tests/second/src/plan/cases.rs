//! Document 01's plan, and every refusal of the reader and the writer at its place.

use crate::answer::{refusal, Answer};
use crate::dice::Dice;
use crate::plan::file::{
    check, lay_out, read, rows, script, script_into, table_into, write, Parts, ROWS, SCRIPT,
};

const UNTOUCHED: u8 = 0xA5;
const P2: [u32; 4] = [10, 8, 3, 2];

/// Eight records, the first with mask 1 and all else zero.
fn eight_records() -> Vec<u8> {
    let mut script = vec![0; 64];
    script[0] = 1;
    script
}

/// The answer, and the lent output afterwards.
fn answer_and_output(table: &[u32], script: &[u8], length: usize) -> (Answer, Vec<u8>) {
    let mut output = vec![UNTOUCHED; length];
    let answer = write(table, script, &mut output);
    (answer, output)
}

fn written(table: &[u32], script: &[u8]) -> Vec<u8> {
    let more_than_needed = 28 + 4 * table.len() + script.len() + 5;
    let (answer, mut output) = answer_and_output(table, script, more_than_needed);
    let length = answer.unwrap() as usize;
    assert!(output[length..].iter().all(|byte| *byte == UNTOUCHED));
    output.truncate(length);
    output
}

/// Document 01's plan: P2 with eight records.
fn example() -> Vec<u8> {
    written(&P2, &eight_records())
}

/// With one number of the contents changed: 0 is the count, 1 to 3 the first entry, 4 to 6 the
/// second.
fn with(file: &[u8], place: usize, number: u32) -> Vec<u8> {
    let mut file = file.to_vec();
    file[4 * place..4 * place + 4].copy_from_slice(&number.to_le_bytes());
    file
}

fn assert_refused(file: &[u8], number: u32, place: usize) {
    assert_eq!(check(file), Err(refusal(number, place)));
    assert!(rows(file).is_empty() && script(file).is_empty());
    let (mut table, mut bytes) = ([7; 200], [7; 200]);
    assert_eq!((table_into(file, &mut table), script_into(file, &mut bytes)), (0, 0));
    assert_eq!((table, bytes), ([7; 200], [7; 200]));
}

fn assert_write_refused(table: &[u32], script: &[u8], length: usize, number: u32, place: usize) {
    let (answer, output) = answer_and_output(table, script, length);
    assert_eq!(answer, Err(refusal(number, place)));
    assert_eq!(output, vec![UNTOUCHED; length]);
}

/// Bodies of these lengths, laid out as they should be.
fn of_lengths(rows: usize, script: usize) -> Vec<u8> {
    lay_out(&[(ROWS, &vec![0; rows]), (SCRIPT, &vec![0; script])])
}

// Accepted files.

#[test]
fn plan_of_document_01_byte_by_byte() {
    let contents = [2, 0, 0, 0, 1, 0, 0, 0, 28, 0, 0, 0, 16, 0, 0, 0, 2, 0, 0, 0, 44, 0, 0, 0, 64, 0, 0, 0];
    let rows = [10, 0, 0, 0, 8, 0, 0, 0, 3, 0, 0, 0, 2, 0, 0, 0];
    assert_eq!(example(), [&contents[..], &rows, &eight_records()].concat());
    assert_eq!(example().len(), 108);
}

#[test]
fn plan_of_document_01_is_read() {
    let file = example();
    assert_eq!(read(&file), Ok(Parts { rows: 28..44, script: 44..108 }));
    assert_eq!(rows(&file).as_ptr(), file[28..].as_ptr());
    assert_eq!(script(&file).as_ptr(), file[44..].as_ptr());
    assert_eq!(script(&file), eight_records());
}

#[test]
fn one_section() {
    let file = written(&P2, &[]);
    let contents = [1, 0, 0, 0, 1, 0, 0, 0, 16, 0, 0, 0, 16, 0, 0, 0];
    assert_eq!(file, [&contents[..], &[10, 0, 0, 0, 8, 0, 0, 0, 3, 0, 0, 0, 2, 0, 0, 0]].concat());
    assert_eq!(read(&file), Ok(Parts { rows: 16..32, script: 0..0 }));
    assert!(script(&file).is_empty());
}

#[test]
fn field_ranges_are_not_looked_at() {
    let table = [0, u32::MAX, 1, 1_000_001];
    let mut read_back = [7; 5];
    assert_eq!(table_into(&written(&table, &[]), &mut read_back), 4);
    assert_eq!(read_back, [0, u32::MAX, 1, 1_000_001, 7]);
}

#[test]
fn lent_memory_is_written_where_all_of_it_fits() {
    let file = example();
    for length in 0..8 {
        let mut table = vec![7; length];
        assert_eq!(table_into(&file, &mut table), 4);
        let expected = if length < 4 { vec![7; length] } else { [&P2, &vec![7; length - 4][..]].concat() };
        assert_eq!(table, expected);
    }
    for length in [0, 1, 63, 64, 65, 100] {
        let mut bytes = vec![7; length];
        assert_eq!(script_into(&file, &mut bytes), 64);
        let expected =
            if length < 64 { vec![7; length] } else { [eight_records(), vec![7; length - 64]].concat() };
        assert_eq!(bytes, expected);
    }
}

#[test]
fn mask_signal_and_early_mark_may_be_any_that_a_record_has() {
    assert_eq!(check(&written(&P2, &[255, 255, 255, 255, 255, 1, 0, 0])), Ok(()));
}

#[test]
fn from_1_to_32_rows() {
    for rows in 1..=32 {
        assert_eq!(check(&of_lengths(16 * rows, 8)), Ok(()));
    }
}

#[test]
fn the_longest_file_has_65_532_bytes() {
    // 28 + 16·rows + 8·records is never a multiple of 8, so no sound file has 65,536 bytes.
    assert_eq!(check(&of_lengths(16, 8186 * 8)), Ok(()));
    assert_eq!(of_lengths(16, 8186 * 8).len(), 65_532);
    assert_refused(&of_lengths(16, 8187 * 8), 13, 65_540);
}

// The reader's refusals.

#[test]
fn refusal_13_for_the_length_of_the_file() {
    for length in [0, 1, 2, 3, 65_537, 100_000] {
        assert_refused(&vec![1; length], 13, length);
    }
    assert_refused(&[9; 4], 14, 0);
    assert_refused(&[9; 65_536], 14, 0);
}

#[test]
fn refusal_14_for_the_count() {
    for count in [0, 3, 4, 1 << 31, u32::MAX] {
        assert_refused(&with(&example(), 0, count), 14, 0);
    }
}

#[test]
fn refusal_14_for_contents_past_the_end() {
    for length in 4..28 {
        assert_refused(&example()[..length], 14, 0);
    }
    for length in 4..16 {
        assert_refused(&written(&P2, &[])[..length], 14, 0);
    }
    assert_refused(&example()[..28], 15, 1);
}

#[test]
fn refusal_14_for_the_kinds() {
    for kind in [0, 2, 3, u32::MAX] {
        assert_refused(&with(&example(), 1, kind), 14, 1);
    }
    for kind in [0, 1, 3, u32::MAX] {
        assert_refused(&with(&example(), 4, kind), 14, 2);
    }
    assert_refused(&with(&with(&example(), 1, 2), 4, 1), 14, 1);
}

#[test]
fn refusal_14_of_a_later_entry_before_15_of_an_earlier() {
    assert_refused(&with(&with(&example(), 2, 29), 4, 3), 14, 2);
}

#[test]
fn refusal_15_for_a_body_not_right_after_what_precedes_it() {
    for offset in [0, 1, 27, 29, 1 << 31, u32::MAX] {
        assert_refused(&with(&example(), 2, offset), 15, 1);
    }
    for offset in [0, 1, 43, 45, 1 << 31, u32::MAX] {
        assert_refused(&with(&example(), 5, offset), 15, 2);
    }
}

#[test]
fn refusal_15_for_a_body_past_the_end() {
    for length in [81, 1 << 31, u32::MAX] {
        assert_refused(&with(&example(), 3, length), 15, 1);
    }
    for length in [65, 1 << 31, u32::MAX] {
        assert_refused(&with(&example(), 6, length), 15, 2);
    }
}

#[test]
fn refusal_15_for_a_last_body_that_does_not_end_the_file() {
    assert_refused(&with(&example(), 6, 63), 15, 2);
    assert_refused(&[example(), vec![0]].concat(), 15, 2);
    assert_refused(&[written(&P2, &[]), vec![0]].concat(), 15, 1);
}

#[test]
fn refusal_15_although_the_sum_would_wrap_in_32_bits() {
    let wrapped = with(&example(), 3, u32::MAX - 27 + 4);
    assert_refused(&with(&with(&wrapped, 5, 4), 6, 104), 15, 1);
}

#[test]
fn refusal_16_for_rows() {
    for length in (0..16).chain([17, 24, 511, 513, 528, 1024]) {
        assert_refused(&of_lengths(length, 8), 16, 1);
    }
    assert_refused(&lay_out(&[(ROWS, &[])]), 16, 1);
}

#[test]
fn refusal_16_for_a_script() {
    for length in (0..8).chain([9, 12, 65]) {
        assert_refused(&of_lengths(16, length), 16, 2);
    }
}

#[test]
fn second_entry_of_length_0_at_the_end_gets_16_not_15() {
    let file = of_lengths(16, 0);
    assert_eq!(file.len(), 44);
    assert_refused(&file, 16, 2);
}

#[test]
fn refusal_15_of_a_later_entry_before_16_of_an_earlier() {
    assert_refused(&[of_lengths(24, 8), vec![0]].concat(), 15, 2);
}

#[test]
fn refusal_17_at_the_first_such_record() {
    for (byte, value) in [(5, 2), (5, 255), (6, 1), (6, 255), (7, 1), (7, 128)] {
        let mut file = example();
        file[44 + 8 * 7 + byte] = value;
        assert_refused(&file, 17, 7);
        file[44 + 8 * 3 + byte] = value;
        assert_refused(&file, 17, 3);
        file[44 + byte] = value;
        assert_refused(&file, 17, 0);
    }
}

#[test]
fn refusal_16_before_17() {
    let script = [vec![255; 16], vec![0; 4]].concat();
    assert_refused(&lay_out(&[(ROWS, &[0; 16]), (SCRIPT, &script)]), 16, 2);
    assert_refused(&lay_out(&[(ROWS, &[0; 17]), (SCRIPT, &script[..16])]), 16, 1);
}

// The writer's refusals, in its order.

#[test]
fn writer_refuses_a_table_with_1_before_all_else() {
    for length in (0..4).chain([5, 6, 7, 127, 129, 132, 1000]) {
        assert_write_refused(&vec![1; length], &[255; 9], 0, 1, length);
    }
}

#[test]
fn writer_refuses_a_script_with_16_before_17() {
    for length in (1..8).chain([9, 15, 17, 80_001]) {
        assert_write_refused(&P2, &vec![255; length], 0, 16, 2);
    }
}

#[test]
fn writer_refuses_a_record_with_17_before_13() {
    for (byte, value) in [(5, 2), (5, 255), (6, 1), (7, 1)] {
        let mut script = vec![0; 80_000];
        script[8 * 9_999 + byte] = value;
        assert_write_refused(&P2, &script, 0, 17, 9_999);
        script[8 * 2 + byte] = value;
        assert_write_refused(&P2, &script, 100_000, 17, 2);
    }
}

#[test]
fn writer_refuses_a_total_with_13_before_18() {
    assert_write_refused(&P2, &[0; 8187 * 8], 0, 13, 65_540);
    assert_write_refused(&P2, &[0; 8187 * 8], 100_000, 13, 65_540);
    assert_eq!(written(&P2, &[0; 8186 * 8]).len(), 65_532);
}

#[test]
fn writer_refuses_short_output_with_18() {
    for length in [0, 1, 28, 107] {
        assert_write_refused(&P2, &eight_records(), length, 18, 108);
    }
    assert_eq!(answer_and_output(&P2, &eight_records(), 108).0, Ok(108));
    assert_write_refused(&P2, &[], 31, 18, 32);
}

// Round trips.

#[test]
fn round_trips() {
    let mut dice = Dice::new(1);
    for _ in 0..2_000 {
        let table: Vec<u32> = (0..4 * dice.from_to(1, 32)).map(|_| dice.number() as u32).collect();
        let mut bytes: Vec<u8> = (0..8 * dice.from_to(0, 40)).map(|_| dice.number() as u8).collect();
        for record in bytes.chunks_mut(8) {
            record[5] %= 2;
            record[6..].fill(0);
        }
        let file = written(&table, &bytes);
        let mut read_back = vec![0; table.len()];
        assert_eq!(check(&file), Ok(()));
        assert_eq!(table_into(&file, &mut read_back), table.len() as u64);
        assert_eq!(read_back, table);
        assert_eq!(script(&file), bytes);
        assert_eq!(written(&read_back, script(&file)), file);
    }
}
