//! The text form: what it can say, and what is refused at which line.

use crate::found::quoted;
use crate::make::{made_of, Nonsense};
use crate::show::text_of;
use tollsalmon::{Plan, Tick};

const QUIET: Tick = Tick { mask: 0, signal: 0, early: false };

fn made(text: &str) -> Plan {
    made_of(text.as_bytes()).unwrap_or_else(|nonsense| panic!("{nonsense}")).plan
}

fn masks(text: &str) -> Vec<u32> {
    made(text).script.iter().map(|tick| tick.mask).collect()
}

fn nonsense(text: &[u8]) -> Nonsense {
    made_of(text).unwrap_err()
}

/// The line, and a word of what was expected there.
fn assert_refused(text: &str, line: usize, expected: &str) {
    let nonsense = nonsense(text.as_bytes());
    assert_eq!(nonsense.line, line, "{nonsense}");
    assert!(nonsense.expected.contains(expected), "{nonsense}");
}

#[test]
fn document_01_example() {
    let plan = made("rows\n10 8 3 2\nticks\nt1 - -\n- - - x7\n");
    let mut script = vec![QUIET; 8];
    script[0].mask = 1;
    assert_eq!(plan, Plan { table: vec![10, 8, 3, 2], script });
}

#[test]
fn comments_blank_lines_and_spaces_say_nothing() {
    let text = "# a plan\n\n  rows # here\r\n\t10  8 3\t2#row\n#\n \nticks\n1 2 1 # a tick\n";
    let tick = Tick { mask: 1, signal: 2, early: true };
    assert_eq!(made(text), Plan { table: vec![10, 8, 3, 2], script: vec![tick] });
    assert_eq!(made("rows\n1 2 3 4").table, [1, 2, 3, 4]);
}

#[test]
fn a_comment_may_hold_any_bytes() {
    assert!(made_of(b"rows # \xFF\xFE\n1 2 3 4\n").is_ok());
}

#[test]
fn masks_in_all_their_forms() {
    let text = "rows\n1 1 1 1\nticks\n5 - -\n0x5 - -\n0XF - -";
    assert_refused(text, 6, "arrivals");
    let text =
        "rows\n1 1 1 1\nticks\n5 - -\n0xfF - -\n0b101 - -\nt1+t3 - -\nt3+t1 - -\n- - -\n0 - -\n\
                t32 - -\n4294967295 - -\n0xFFFFFFFF - -\n";
    assert_eq!(masks(text), [5, 255, 5, 5, 5, 0, 0, 1 << 31, u32::MAX, u32::MAX]);
}

#[test]
fn signals_and_early_marks() {
    let ticks = made("rows\n1 1 1 1\nticks\n- - -\n- 0 0\n- 255 1\n- 33 -\n").script;
    let tick = |signal, early| Tick { mask: 0, signal, early };
    assert_eq!(ticks, [QUIET, QUIET, tick(255, true), tick(33, false)]);
}

#[test]
fn fields_are_not_the_tools_concern() {
    let text = "rows\n0 4294967295 1000001 7\n";
    assert_eq!(made(text).table, [0, u32::MAX, 1_000_001, 7]);
}

#[test]
fn ticks_may_be_missing_or_none() {
    assert_eq!(made("rows\n1 2 3 4\n"), made("rows\n1 2 3 4\nticks\n"));
}

#[test]
fn no_rows_are_refused() {
    assert_refused("", 1, "rows");
    assert_refused("# nothing\n\n", 3, "rows");
    assert_refused("rows\n", 2, "T D C K");
    assert_refused("rows\n\nticks\n- - -\n", 3, "T D C K");
}

#[test]
fn lines_out_of_order_are_refused() {
    assert_refused("10 8 3 2\n", 1, "rows");
    assert_refused("ticks\n- - -\n", 1, "rows");
    assert_refused("rows\n1 2 3 4\nrows\n", 3, "T D C K");
    assert_refused("rows\n1 2 3 4\nticks\nticks\n", 4, "tick");
    assert_refused("rows\n1 2 3 4\nticks\n1 2 3 4\n", 4, "times");
}

#[test]
fn rows_that_are_none_are_refused() {
    assert_refused("rows\n1 2 3\n", 2, "T D C K");
    assert_refused("rows\n1 2 3 4 5\n", 2, "T D C K");
    assert_refused("rows\n1 2 3 4\n1 2 x 4\n", 3, "number");
    assert_refused("rows\n1 2 3 -4\n", 2, "number");
    assert_refused("rows\n1 2 3 +4\n", 2, "number");
    assert_refused("rows\n1 2 3 4294967296\n", 2, "4294967295");
    assert_refused("rows\n1 2 3 99999999999999999999999\n", 2, "4294967295");
    assert_refused("rows\n1,000 2 3 4\n", 2, "number");
    assert_refused("rows 1 2 3 4\n", 1, "rows");
}

#[test]
fn ticks_that_are_none_are_refused() {
    let tick = |line: &str| format!("rows\n1 2 3 4\nticks\n{line}\n");
    for (line, expected) in [
        ("1 2", "a tick"),
        ("1", "a tick"),
        ("1 2 1 x2 x2", "a tick"),
        ("- - - 5", "times"),
        ("- - - x", "times"),
        ("- - - x0", "times"),
        ("- - - x-1", "times"),
        ("- - - 5x", "times"),
        ("t0 - -", "t1 to t32"),
        ("t33 - -", "t1 to t32"),
        ("t1+ - -", "t1 to t32"),
        ("t1+3 - -", "t1 to t32"),
        ("t1+t1 - -", "once"),
        ("1+t3 - -", "arrivals"),
        ("0x - -", "arrivals"),
        ("0b2 - -", "arrivals"),
        ("0x100000000 - -", "arrivals"),
        ("4294967296 - -", "arrivals"),
        ("-1 - -", "arrivals"),
        ("é - -", "arrivals"),
        ("- 256 -", "signal"),
        ("- t1 -", "signal"),
        ("- -1 -", "signal"),
        ("- - 2", "early"),
        ("- - yes", "early"),
    ] {
        assert_refused(&tick(line), 4, expected);
    }
}

#[test]
fn what_a_file_cant_hold_is_refused() {
    let rows = |rows: usize| "1 2 3 4\n".repeat(rows);
    assert_eq!(made(&format!("rows\n{}", rows(32))).table.len(), 128);
    assert_refused(&format!("rows\n{}", rows(33)), 34, "32 rows");
    let ticks = |times: usize| format!("rows\n1 2 3 4\nticks\n- - - x{}\n- - -\n", times - 1);
    assert_eq!(made(&ticks(8_186)).script.len(), 8_186);
    assert_refused(&ticks(8_187), 5, "8186 ticks, which is what a file of 1 row holds");
    assert_refused("rows\n1 2 3 4\nticks\n- - - x4294967295\n", 4, "8186 ticks");
}

#[test]
fn bytes_that_are_no_text_are_refused() {
    let nonsense = nonsense(b"rows\n1 2 3 4\n\xFF\n");
    assert_eq!(nonsense.to_string(), "line 3: expected plain text, found \"\\xff\"");
}

#[test]
fn a_byte_order_mark_is_told() {
    let told = |text: &[u8]| nonsense(text).to_string();
    let end = "save the text as UTF-8 without one";
    let utf_8 = format!("line 1: expected plain text, found a byte order mark: {end}");
    assert_eq!(told(b"\xEF\xBB\xBFrows\n1 2 3 4\n"), utf_8);
    let utf_16 = format!("line 1: expected plain text, found a byte order mark of UTF-16: {end}");
    assert_eq!(told(b"\xFF\xFE#\0\n\0r\0o\0w\0s\0"), utf_16);
    assert_eq!(told(b"\xFE\xFF\0#\0\n\0r\0o\0w\0s"), utf_16);
}

#[test]
fn what_was_found_is_shown_in_plain_characters() {
    assert_eq!(quoted(b"10 8 3"), "\"10 8 3\"");
    assert_eq!(quoted(b"\x1b[2J\x07\"\xC3\xA9"), "\"\\x1b[2J\\x07\\\"\\xc3\\xa9\"");
    let forty = "1234567890".repeat(4);
    assert_eq!(quoted(forty.as_bytes()), format!("\"{forty}\""));
    assert_eq!(quoted(format!("{forty}1").as_bytes()), format!("\"{forty}…\" (41 bytes)"));
    let ten = "\\x00".repeat(10);
    assert_eq!(quoted(&[0; 70_000]), format!("\"{ten}…\" (70000 bytes)"));
}

#[test]
fn an_escape_in_a_word_is_not_echoed() {
    let words = nonsense(b"rows\n1 2 3 4\nticks\n- \x1b[31m -\n").to_string();
    let expected = "line 4: expected a signal from 0 to 255, or -, found \"\\x1b[31m\"";
    assert_eq!(words, expected);
}

fn warnings(text: &str) -> Vec<String> {
    let made = made_of(text.as_bytes()).unwrap();
    made.warnings.iter().map(|warning| warning.to_string()).collect()
}

#[test]
fn an_arrival_past_the_last_row_is_made_with_a_warning() {
    let text = "rows\n10 8 3 2\nticks\nt2 - -\n- - -\n0xc - - x3\nt1+t32 9 1\n";
    assert_eq!(masks(text), [2, 0, 12, 12, 12, 1 << 31 | 1]);
    let warning = |line, task| {
        let table = "isn't in the table of 1 row";
        format!("line {line}: task {task} {table}: the run will refuse this tick with 10")
    };
    assert_eq!(warnings(text), [warning(4, 2), warning(6, 3), warning(7, 32)]);
}

#[test]
fn an_arrival_of_the_last_row_is_made_without_one() {
    let ticks = |rows, ticks| format!("rows\n{}ticks\n{ticks}", "1 2 3 4\n".repeat(rows));
    assert_eq!(warnings(&ticks(2, "t2 255 -\n3 3 1\n")), [""; 0]);
    assert_eq!(warnings(&ticks(32, "t32 - -\n0xffffffff - -\n")), [""; 0]);
    let words = warnings(&ticks(2, "7 - -\n")).concat();
    assert!(words.starts_with("line 5: task 3 isn't in the table of 2 rows: "), "{words}");
}

#[test]
fn a_refusal_in_words() {
    let words = nonsense(b"rows\n10 8 3\n").to_string();
    assert_eq!(words, "line 2: expected a row of four numbers: T D C K, found \"10 8 3\"");
}

#[test]
fn the_normal_form() {
    let text = "rows\n 10 8 3 2\nticks\n0x1 0 0\n0 0 0\n- - -\n- - -\n0b110 3 1\n0xFFFF - -\n";
    let normal = "rows    # T D C K, the highest priority first\n10 8 3 2\n\n\
                  ticks    # arrivals, signal, early mark\n\
                  t1 - -\n- - - x3\nt2+t3 3 1\n0xffff - -\n";
    assert_eq!(text_of(&made(text)), normal);
    assert_eq!(text_of(&made(normal)), normal);
    assert_eq!(
        text_of(&made("rows\n1 2 3 4\nticks\n")),
        "rows    # T D C K, the highest priority first\n1 2 3 4\n"
    );
}
