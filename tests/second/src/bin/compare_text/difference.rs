//! One plan, looked at from every side: the length of its text, the bytes, everything lent with
//! its guards, with room that is exact, too little by one, ample or none.

use crate::program::Program;
use second::lent::Lent;

/// More than any text is long, so that a length that is none takes no memory.
const LONGEST_TEXT: usize = 1 << 21;

/// What is different, where something is: in words, and the line from 0 where a line is.
pub struct Difference {
    pub words: String,
    pub line: Option<usize>,
}

/// Compares the program's text of the file with the one expected.
pub fn compare(program: &dyn Program, file: &[u8], expected: &[u8]) -> Result<(), Difference> {
    let mut file = Lent::holding(file);
    let before = file.clone();
    for room in rooms(expected.len()) {
        let mut mine = Lent::new(room);
        let mut others = mine.clone();
        if room >= expected.len() {
            mine.part_to_write()[..expected.len()].copy_from_slice(expected);
        }
        let length = program.report(&mut file, &mut others);
        if length != expected.len() as u64 || mine != others {
            let words = words(room, expected.len(), length, mine.differences(&others).next());
            return Err(with_the_line(program, &mut file, expected, words));
        }
        if let Some(place) = before.differences(&file).next() {
            return Err(Difference { words: format!("the file is changed: {place}"), line: None });
        }
    }
    Ok(())
}

/// Texts that are long have their first two ways alone: each takes a whole run.
fn rooms(length: usize) -> Vec<usize> {
    let all = [length, length - 1, length + 24, 0];
    all[..if length > 4_000 { 2 } else { 4 }].to_vec()
}

fn words(room: usize, expected: usize, length: u64, place: Option<String>) -> String {
    let place = place.map(|place| format!(", {place}")).unwrap_or_default();
    format!("{room} bytes lent for the text: second program {expected} bytes, found {length}{place}")
}

/// The first line that is different, found in the program's whole text.
fn with_the_line(program: &dyn Program, file: &mut Lent<u8>, expected: &[u8], words: String) -> Difference {
    let length = program.report(file, &mut Lent::new(0)) as usize;
    let mut text = Lent::new(length.min(LONGEST_TEXT));
    program.report(file, &mut text);
    let (mine, others) = (lines(expected), lines(text.part()));
    let line = (0..mine.len().max(others.len())).find(|&line| mine.get(line) != others.get(line));
    let words = match line {
        Some(line) => format!("{words}\n{}", both_lines(line, mine.get(line), others.get(line))),
        None => words,
    };
    Difference { words, line }
}

fn lines(text: &[u8]) -> Vec<&[u8]> {
    text.split_inclusive(|byte| *byte == b'\n').collect()
}

/// The line as both have it, with its newline shown.
fn both_lines(line: usize, mine: Option<&&[u8]>, others: Option<&&[u8]>) -> String {
    let shown = |line: Option<&&[u8]>| match line {
        Some(line) => format!("\"{}\"", line.escape_ascii()),
        None => "no such line".to_string(),
    };
    format!(
        "  line {} of the second program: {}\n  line {} found:                 {}",
        line + 1,
        shown(mine),
        line + 1,
        shown(others)
    )
}
