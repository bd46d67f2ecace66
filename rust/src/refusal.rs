//! Refusals: a number with a name, a place, and the words of include/refusals.txt.

use std::error::Error;
use std::fmt;

/// A line for each refusal: number, name, what the place is, what it means, what to do.
const LINES: &str = include_str!("../../include/refusals.txt");

const PLACE: usize = 2;
const WORDS: usize = 3;
const ADVICE: usize = 4;

/// Which refusal it is; as a number it is the refusal's own.
///
/// ```
/// use tollsalmon::{check_table, Name};
///
/// let refusal = check_table(&[10, 8, 7, 2]).unwrap_err();
/// assert_eq!(refusal.name(), Name::NoGuestWindow); // its C is too long
/// assert_eq!(Name::NoGuestWindow as u32, 7);
/// let refusal = check_table(&[15, 15, 5, 1, 20, 20, 6, 4]).unwrap_err();
/// assert_eq!(refusal.name(), Name::NoHypertaskWindow); // its K is too long
/// assert!(check_table(&[15, 15, 5, 1, 20, 20, 6, 3]).is_ok());
/// ```
#[derive(Clone, Copy, Debug, PartialEq, Eq, Hash)]
#[non_exhaustive]
pub enum Name {
    /// Of a table: its length.
    TableLength = 1,
    /// Of a table: one of its numbers.
    FieldRange = 2,
    /// Of a table: D above T.
    DeadlineAbovePeriod = 3,
    /// Of the C interface alone: the functions here lend enough.
    ResultsShort = 4,
    /// Of a table: no active period.
    NoActivePeriod = 5,
    /// Of a table: a hypertask that can end too late.
    StartTooLate = 6,
    /// Of a table: a guest that can't have its ticks before its enforcement instant.
    NoGuestWindow = 7,
    /// Of a tick: the machine's numbers, whatever the tick is.
    NotWellFormed = 8,
    /// Of a tick: the clock at its end.
    ClockAtEnd = 9,
    /// Of a tick: an arrival of a task past the last row.
    NoSuchTask = 10,
    /// Of a tick: an arrival before the task's period is over.
    ArrivalTooSoon = 11,
    /// Of a tick: an arrival while the task's hypertask is pending.
    ArrivalWhileHyper = 12,
    /// Of a plan file: its length.
    FileLength = 13,
    /// Of a plan file: its table of contents.
    Contents = 14,
    /// Of a plan file: where a body lies.
    BodyPlace = 15,
    /// Of a plan file: how long a body is.
    BodySize = 16,
    /// Of a plan file: a tick record.
    RecordBytes = 17,
    /// Of the C interface alone: the functions here lend enough.
    OutputShort = 18,
    /// Of a table: a guest that can't have its ticks within the period after its task's own hypertask.
    NoHypertaskWindow = 19,
}

const NAMES: [Name; 19] = {
    use Name::*;
    [
        TableLength,
        FieldRange,
        DeadlineAbovePeriod,
        ResultsShort,
        NoActivePeriod,
        StartTooLate,
        NoGuestWindow,
        NotWellFormed,
        ClockAtEnd,
        NoSuchTask,
        ArrivalTooSoon,
        ArrivalWhileHyper,
        FileLength,
        Contents,
        BodyPlace,
        BodySize,
        RecordBytes,
        OutputShort,
        NoHypertaskWindow,
    ]
};

impl Name {
    /// One of the fields of its line.
    fn field(self, which: usize) -> &'static str {
        let number = |line: &str| line.split('|').next().and_then(|first| first.parse().ok());
        let own = LINES.lines().find(|line| number(line) == Some(self as u32));
        own.and_then(|line| line.split('|').nth(which)).unwrap_or_default()
    }
}

/// Why a table, a tick or a plan file was refused. It shows itself in words.
///
/// ```
/// use tollsalmon::Machine;
///
/// let refusal = Machine::start(&[10, 8, 7, 2]).unwrap_err();
/// let words = "refusal 7, task 1: the guest can't have its ticks before its enforcement instant";
/// assert_eq!(refusal.to_string(), words);
/// ```
#[derive(Clone, Copy, Debug, PartialEq, Eq, Hash)]
pub struct Refusal {
    name: Name,
    place: u64,
}

impl Refusal {
    /// What the library answered. A number that has no name comes of a library and a wrapper that
    /// don't belong together.
    pub(crate) fn new(number: u32, place: u64) -> Refusal {
        let name = NAMES.iter().find(|name| **name as u32 == number);
        let name = *name.expect("a library of the wrapper's own version");
        Refusal { name, place }
    }

    /// Its number, which is its name's.
    ///
    /// ```
    /// assert_eq!(tollsalmon::check_table(&[]).unwrap_err().number(), 1);
    /// ```
    pub fn number(&self) -> u32 {
        self.name as u32
    }

    /// Where: a task, a length, an entry or a record, as the words say; 0 where it has no place.
    ///
    /// ```
    /// let p10 = [5, 5, 1, 2, 7, 7, 1, 2, 7, 7, 1, 2];
    /// assert_eq!(tollsalmon::check_table(&p10).unwrap_err().place(), 2); // task 2
    /// ```
    pub fn place(&self) -> u64 {
        self.place
    }

    /// Its name.
    ///
    /// ```
    /// use tollsalmon::{check_plan, Name};
    ///
    /// assert_eq!(check_plan(&[0; 100]).unwrap_err().name(), Name::Contents);
    /// ```
    pub fn name(&self) -> Name {
        self.name
    }

    /// What to do about it.
    ///
    /// ```
    /// let refusal = tollsalmon::check_table(&[10, 11, 1, 1]).unwrap_err();
    /// assert_eq!(refusal.advice(), "shorten its D or lengthen its T");
    /// ```
    pub fn advice(&self) -> &'static str {
        self.name.field(ADVICE)
    }
}

impl fmt::Display for Refusal {
    fn fmt(&self, to: &mut fmt::Formatter) -> fmt::Result {
        write!(to, "refusal {}", self.number())?;
        if let Some((before, after)) = self.name.field(PLACE).split_once("{}") {
            write!(to, ", {before}{}{after}", self.place)?;
        }
        write!(to, ": {}", self.name.field(WORDS))
    }
}

impl Error for Refusal {}

#[cfg(test)]
mod words {
    use super::*;

    fn lines() -> impl Iterator<Item = Vec<&'static str>> {
        let lines = LINES.lines().filter(|line| !line.starts_with('#'));
        lines.map(|line| line.split('|').collect())
    }

    #[test]
    fn every_line_is_a_name_with_its_number() {
        let named = |line: Vec<&str>| (line[0].parse().unwrap(), line[1].to_string());
        let in_the_file: Vec<(u32, String)> = lines().map(named).collect();
        let here = NAMES.map(|name| (name as u32, format!("{name:?}")));
        assert_eq!(in_the_file, here);
    }

    #[test]
    fn every_refusal_is_said_whole() {
        for line in lines() {
            let refusal = Refusal::new(line[0].parse().unwrap(), 4711);
            let said = refusal.to_string();
            assert!(said.starts_with(&format!("refusal {}", line[0])), "{said}");
            assert!(said.ends_with(&format!(": {}", line[WORDS])), "{said}");
            assert_eq!(said.matches("4711").count(), line[PLACE].matches("{}").count(), "{said}");
            assert!(!said.contains("{}"), "{said}");
            assert_eq!(refusal.advice(), line[ADVICE]);
            assert!(!line[WORDS].is_empty() && !line[ADVICE].is_empty(), "{said}");
        }
    }

    #[test]
    fn a_refusal_without_a_place_says_none() {
        let words = "refusal 8: the machine's state is damaged or can't be read";
        assert_eq!(Refusal::new(8, 0).to_string(), words);
        let said = Refusal::new(14, 0).to_string();
        assert!(said.starts_with("refusal 14, entry 0: the count of sections is wrong"), "{said}");
    }
}
