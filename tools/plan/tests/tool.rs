//! The tool as it is called: what it prints, where, and with which exit status.

use std::ffi::OsStr;
use std::fs::{self, File};
use std::io::Write;
use std::os::unix::ffi::OsStrExt;
use std::path::PathBuf;
use std::process::{Child, Command, Output, Stdio};
use tollsalmon::check_plan;

const EXAMPLE: &str = "rows\n10 8 3 2\nticks\nt1 - -\n- - - x7\n";

fn tool(word: impl AsRef<OsStr>) -> Command {
    let mut tool = Command::new(env!("CARGO_BIN_EXE_plan"));
    tool.arg(word).stdin(Stdio::piped()).stdout(Stdio::piped()).stderr(Stdio::piped());
    tool
}

/// The tool reads no more than it needs, so not all of the input need find a reader.
fn fed(mut child: Child, input: &[u8]) -> Output {
    let _ = child.stdin.take().unwrap().write_all(input);
    child.wait_with_output().unwrap()
}

fn ran(word: &str, input: impl AsRef<[u8]>) -> Output {
    fed(tool(word).spawn().unwrap(), input.as_ref())
}

fn said(output: &Output) -> String {
    String::from_utf8(output.stderr.clone()).unwrap()
}

/// Refused with status 1 and these words, and nothing is written.
fn assert_refused(output: Output, words: &str) {
    assert_eq!(said(&output), format!("plan: {words}\n"));
    assert_eq!((output.status.code(), output.stdout), (Some(1), vec![]));
}

fn plan(file: &str) -> Vec<u8> {
    let path: PathBuf = [env!("CARGO_MANIFEST_DIR"), "../../plans", file].iter().collect();
    fs::read(path).unwrap()
}

#[test]
fn make_writes_the_file_and_show_its_text() {
    let made = ran("make", EXAMPLE);
    assert_eq!((made.status.code(), said(&made)), (Some(0), String::new()));
    assert_eq!(made.stdout, plan("example.plan"));
    let shown = ran("show", &made.stdout);
    assert_eq!((shown.status.code(), said(&shown)), (Some(0), String::new()));
    let text = String::from_utf8(shown.stdout).unwrap();
    assert!(text.ends_with("# arrivals, signal, early mark\nt1 - -\n- - - x7\n"), "{text}");
}

#[test]
fn a_damaged_file_is_told_in_the_refusals_words() {
    let too_long = vec![0; 65_537];
    for file in [plan("damaged.plan"), plan("damaged-record.plan"), vec![], too_long] {
        let refusal = check_plan(&file).unwrap_err();
        let words = format!("{refusal}; what to do: {}", refusal.advice());
        assert_refused(ran("show", &file), &words);
    }
    let output = ran("show", vec![0; 200_000]);
    assert!(said(&output).starts_with("plan: refusal 13, a length of 65537: "), "{output:?}");
}

#[test]
fn an_arrival_that_will_be_refused_is_made_and_told() {
    let made = ran("make", plan("p3-refused-ticks.txt"));
    assert_eq!((made.status.code(), &made.stdout), (Some(0), &plan("p3-refused-ticks.plan")));
    let lines = [(16, 2), (17, 7)].map(|(line, task)| {
        let table = format!("plan: line {line}: task {task} isn't in the table of 1 row: ");
        table + "the run will refuse this tick with 10\n"
    });
    assert_eq!(said(&made), lines.concat());
}

#[test]
fn no_raw_byte_of_the_text_is_echoed() {
    let escapes = b"\x1b[2J\x1b]0;title\x07\r\x08\x7f \xC2\x9B31m \xFF\xFE".repeat(200);
    let in_a_tick = [b"rows\n10 8 3 2\nticks\n".as_slice(), &escapes].concat();
    for text in [vec![0; 70_000], vec![b'a'; 70_000], escapes, in_a_tick, b"\xFF".to_vec()] {
        let output = ran("make", &text);
        let words = said(&output);
        let plain = |c: char| c == '…' || c == ' ' || c.is_ascii_graphic();
        assert!(words.trim_end_matches('\n').chars().all(plain), "{words:?}");
        assert!(words.len() < 160, "{words:?}");
        assert_eq!(output.status.code(), Some(1));
    }
    let output = ran("make", vec![b'a'; 70_000]);
    assert!(said(&output).ends_with("aaa…\" (70000 bytes)\n"), "{output:?}");
}

#[test]
fn a_text_without_end_is_refused() {
    assert_refused(ran("make", vec![0; (1 << 24) + 1]), "the text has more than 16777216 bytes");
}

/// Full, for whatever is written to it.
fn full() -> File {
    File::options().write(true).open("/dev/full").unwrap()
}

#[test]
fn a_full_disk_is_an_error() {
    for (word, input) in [("make", EXAMPLE.into()), ("show", plan("example.plan"))] {
        let output = fed(tool(word).stdout(full()).spawn().unwrap(), &input);
        let words = "standard output can't be written: No space left on device (os error 28)";
        assert_refused(output, words);
    }
}

#[test]
fn a_closed_pipe_is_an_error() {
    let mut child = tool("make").spawn().unwrap();
    drop(child.stdout.take());
    let words = "standard output can't be written: Broken pipe (os error 32)";
    assert_refused(fed(child, EXAMPLE.as_bytes()), words);
}

#[test]
fn the_exit_status_tells_what_words_cant() {
    let output = fed(tool("make").stderr(full()).spawn().unwrap(), b"nonsense");
    assert_eq!(output.status.code(), Some(1));
    let warned = fed(tool("make").stderr(full()).spawn().unwrap(), &plan("p3-refused-ticks.txt"));
    assert_eq!((warned.status.code(), warned.stdout), (Some(0), plan("p3-refused-ticks.plan")));
}

#[test]
fn other_words_are_told_the_usage() {
    let usage = "plan: usage: plan make < TEXT > PLAN, or plan show < PLAN > TEXT\n";
    for words in [["--help"].as_slice(), &["Make"], &["make", "more"], &["show", "make"]] {
        let output = tool(words[0]).args(&words[1..]).output().unwrap();
        assert_eq!(
            (output.status.code(), said(&output)),
            (Some(2), usage.to_string()),
            "{words:?}"
        );
    }
    let not_utf_8 = tool(OsStr::from_bytes(b"\xFF")).output().unwrap();
    assert_eq!((not_utf_8.status.code(), said(&not_utf_8)), (Some(2), usage.to_string()));
}
