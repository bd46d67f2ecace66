//! A plan from its text. Whatever isn't understood is refused with its line; nothing is guessed.

use crate::found::quoted;
use crate::ROW;
use std::fmt;
use tollsalmon::{Name, Plan, Tick, MOST_TASKS};

/// The line, from 1, what was expected there, and what was found.
#[derive(Clone, Debug, PartialEq, Eq)]
pub struct Nonsense {
    pub line: usize,
    pub expected: String,
    pub found: String,
}

impl fmt::Display for Nonsense {
    fn fmt(&self, to: &mut fmt::Formatter) -> fmt::Result {
        write!(to, "line {}: expected {}, found {}", self.line, self.expected, self.found)
    }
}

/// A tick that the run will refuse: its line, the lowest task that isn't in the table, and how many
/// rows there are. It is made all the same, since a plan may want to show that.
#[derive(Clone, Copy, Debug, PartialEq, Eq)]
pub struct Warning {
    pub line: usize,
    pub task: usize,
    pub rows: usize,
}

impl fmt::Display for Warning {
    fn fmt(&self, to: &mut fmt::Formatter) -> fmt::Result {
        let (Warning { line, task, .. }, rows) = (self, counted_rows(self.rows));
        let number = Name::NoSuchTask as u32;
        write!(to, "line {line}: task {task} isn't in the table of {rows}: ")?;
        write!(to, "the run will refuse this tick with {number}")
    }
}

fn counted_rows(rows: usize) -> String {
    format!("{rows} row{}", if rows == 1 { "" } else { "s" })
}

#[derive(Clone, Debug, Default, PartialEq, Eq)]
pub struct Made {
    pub plan: Plan,
    pub warnings: Vec<Warning>,
}

/// What was expected, and what was found. The line is added where it is known.
type Misfit = (String, String);

fn misfit<T>(expected: impl Into<String>, found: impl AsRef<[u8]>) -> Result<T, Misfit> {
    Err((expected.into(), quoted(found.as_ref())))
}

const A_ROW: &str = "a row of four numbers: T D C K";
const A_TICK: &str = "a tick: arrivals, signal and early mark, and xN where it comes N times";
const PLAIN_TEXT: &str = "plain text";

/// What the lines are, from one heading to the next.
enum Part {
    BeforeRows,
    Rows,
    Ticks,
}

pub fn made_of(text: &[u8]) -> Result<Made, Nonsense> {
    let (mut made, mut part, mut line) = (Made::default(), Part::BeforeRows, 0);
    check_mark(text)?;
    for bytes in text.split(|byte| *byte == b'\n') {
        line += 1;
        let at_line = |(expected, found)| Nonsense { line, expected, found };
        let (words, ticks) = (words_of(bytes).map_err(at_line)?, made.plan.script.len());
        if !words.is_empty() {
            part = take_line(&mut made.plan, part, &words).map_err(at_line)?;
        }
        let tick = made.plan.script.get(ticks);
        made.warnings.extend(tick.and_then(|tick| warning(line, &made.plan, tick)));
    }
    let at_the_end = |expected: &str| Nonsense {
        line,
        expected: expected.to_string(),
        found: "the end of the text".to_string(),
    };
    match part {
        Part::BeforeRows => Err(at_the_end("a line \"rows\"")),
        Part::Rows if made.plan.table.is_empty() => Err(at_the_end(A_ROW)),
        _ => Ok(made),
    }
}

/// Some editors put a mark before a text. It can't be seen, so it is told by its name.
fn check_mark(text: &[u8]) -> Result<(), Nonsense> {
    let marks: [(&[u8], &str); 3] =
        [(b"\xEF\xBB\xBF", ""), (b"\xFF\xFE", " of UTF-16"), (b"\xFE\xFF", " of UTF-16")];
    let Some((_, of)) = marks.iter().find(|(mark, _)| text.starts_with(mark)) else {
        return Ok(());
    };
    let found = format!("a byte order mark{of}: save the text as UTF-8 without one");
    Err(Nonsense { line: 1, expected: PLAIN_TEXT.to_string(), found })
}

fn warning(line: usize, plan: &Plan, tick: &Tick) -> Option<Warning> {
    let rows = plan.table.len() / ROW;
    let past_the_last = tick.mask.checked_shr(rows as u32).unwrap_or(0);
    let task = rows + 1 + past_the_last.trailing_zeros() as usize;
    (past_the_last != 0).then_some(Warning { line, task, rows })
}

/// The words before a comment.
fn words_of(line: &[u8]) -> Result<Vec<&str>, Misfit> {
    let before_comment = line.split(|byte| *byte == b'#').next().unwrap_or_default();
    match std::str::from_utf8(before_comment) {
        Ok(words) => Ok(words.split_whitespace().collect()),
        Err(error) => misfit(PLAIN_TEXT, &before_comment[error.valid_up_to()..]),
    }
}

/// Adds the line to the plan, and tells which part the next line belongs to.
fn take_line(plan: &mut Plan, part: Part, words: &[&str]) -> Result<Part, Misfit> {
    let line = words.join(" ");
    match (&part, words) {
        (Part::BeforeRows, ["rows"]) => return Ok(Part::Rows),
        (Part::BeforeRows, _) => return misfit("a line \"rows\"", &line),
        (Part::Rows, ["ticks"]) if plan.table.is_empty() => return misfit(A_ROW, &line),
        (Part::Rows, ["ticks"]) => return Ok(Part::Ticks),
        (Part::Rows, _) => take_row(plan, words, &line)?,
        (Part::Ticks, _) => take_ticks(plan, words, &line)?,
    }
    Ok(part)
}

// Rows.

fn take_row(plan: &mut Plan, words: &[&str], line: &str) -> Result<(), Misfit> {
    let [t, d, c, k] = words else {
        return misfit(A_ROW, line);
    };
    let row: [u32; ROW] = [field(t)?, field(d)?, field(c)?, field(k)?];
    if plan.table.len() == ROW * MOST_TASKS {
        return misfit(format!("at most {MOST_TASKS} rows"), line);
    }
    plan.table.extend(row);
    Ok(())
}

fn field(word: &str) -> Result<u32, Misfit> {
    match decimal(word) {
        Some(number) => Ok(number),
        None => misfit("a number from 0 to 4294967295", word),
    }
}

/// A number of 32 bits in digits alone, without a sign.
fn decimal(word: &str) -> Option<u32> {
    in_base(word, 10)
}

fn in_base(digits: &str, base: u32) -> Option<u32> {
    let is_digits = !digits.is_empty() && digits.chars().all(|digit| digit.is_digit(base));
    is_digits.then(|| u32::from_str_radix(digits, base).ok()).flatten()
}

// Ticks.

fn take_ticks(plan: &mut Plan, words: &[&str], line: &str) -> Result<(), Misfit> {
    let (mask, signal, early, times) = match words {
        [mask, signal, early] => (mask, signal, early, 1),
        [mask, signal, early, times] => (mask, signal, early, times_of(times)?),
        _ => return misfit(A_TICK, line),
    };
    let tick = Tick { mask: mask_of(mask)?, signal: signal_of(signal)?, early: early_of(early)? };
    if times > plan.room() {
        let rows = counted_rows(plan.table.len() / ROW);
        let most = plan.script.len() + plan.room();
        return misfit(format!("at most {most} ticks, which is what a file of {rows} holds"), line);
    }
    plan.script.extend(vec![tick; times]);
    Ok(())
}

fn times_of(word: &str) -> Result<usize, Misfit> {
    match word.strip_prefix('x').and_then(decimal) {
        Some(times) if times >= 1 => Ok(times as usize),
        _ => misfit("x and how many times, from 1", word),
    }
}

fn mask_of(word: &str) -> Result<u32, Misfit> {
    let number = match word.split_at_checked(2) {
        _ if word == "-" => Some(0),
        _ if word.starts_with('t') => return tasks_of(word),
        Some(("0x", digits)) => in_base(digits, 16),
        Some(("0b", digits)) => in_base(digits, 2),
        _ => decimal(word),
    };
    match number {
        Some(mask) => Ok(mask),
        None => {
            misfit("arrivals: tasks like t1+t3, a mask of 32 bits like 5, 0x5 or 0b101, or -", word)
        }
    }
}

fn tasks_of(word: &str) -> Result<u32, Misfit> {
    let mut mask = 0;
    for name in word.split('+') {
        let bit = match name.strip_prefix('t').and_then(decimal) {
            Some(task) if (1..=32).contains(&task) => 1 << (task - 1),
            _ => return misfit("a task from t1 to t32", name),
        };
        if mask & bit != 0 {
            return misfit("each task once", word);
        }
        mask |= bit;
    }
    Ok(mask)
}

fn signal_of(word: &str) -> Result<u8, Misfit> {
    match decimal(word) {
        _ if word == "-" => Ok(0),
        Some(signal) if signal <= 255 => Ok(signal as u8),
        _ => misfit("a signal from 0 to 255, or -", word),
    }
}

fn early_of(word: &str) -> Result<bool, Misfit> {
    match word {
        "-" | "0" => Ok(false),
        "1" => Ok(true),
        _ => misfit("an early mark of 0 or 1, or -", word),
    }
}
