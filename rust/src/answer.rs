//! The answer to a tick.

use crate::refusal::Refusal;
use std::fmt;

/// Bytes of an answer.
pub(crate) const ANSWER: usize = 12;

// The numbers of who ran and of the mark, as tollsalmon.h has them; 0 is nobody and nothing.
const GUEST: u8 = 1;
const HYPERTASK: u8 = 2;
const REFUSED: u8 = 3;
const OUTPUT: u8 = 1;
const BUDGET_USED_UP: u8 = 2;

/// Who ran in a tick.
///
/// ```
/// use tollsalmon::{Machine, Ran, Tick};
///
/// let mut machine = Machine::start(&[10, 8, 3, 2])?;
/// assert_eq!(machine.step(Tick::default())?.ran, Ran::Nobody);
/// assert_eq!(machine.step(Tick::arrivals(&[1]))?.ran, Ran::Guest(1));
/// # Ok::<(), tollsalmon::Refusal>(())
/// ```
#[derive(Clone, Copy, Debug, PartialEq, Eq, Hash)]
pub enum Ran {
    /// Nobody.
    Nobody,
    /// The guest of this task.
    Guest(usize),
    /// The hypertask of this task.
    Hypertask(usize),
}

impl Ran {
    /// The task, whichever part of it ran.
    ///
    /// ```
    /// use tollsalmon::Ran;
    ///
    /// assert_eq!([Ran::Nobody, Ran::Guest(4)].map(Ran::task), [None, Some(4)]);
    /// ```
    pub fn task(self) -> Option<usize> {
        match self {
            Ran::Nobody => None,
            Ran::Guest(task) | Ran::Hypertask(task) => Some(task),
        }
    }
}

/// As in a run's text: `G1`, `H1`, or `I` for nobody.
impl fmt::Display for Ran {
    fn fmt(&self, to: &mut fmt::Formatter) -> fmt::Result {
        match self {
            Ran::Nobody => write!(to, "I"),
            Ran::Guest(task) => write!(to, "G{task}"),
            Ran::Hypertask(task) => write!(to, "H{task}"),
        }
    }
}

/// What became of it.
///
/// ```
/// use tollsalmon::{Machine, Mark, Tick};
///
/// let mut machine = Machine::start(&[10, 8, 1, 2])?;
/// let silent = machine.clone().step(Tick::arrivals(&[1]))?;
/// let answers = machine.step(Tick { mask: 1, signal: 1, early: false })?;
/// assert_eq!((silent.mark, answers.mark), (Mark::BudgetUsedUp, Mark::Output));
/// # Ok::<(), tollsalmon::Refusal>(())
/// ```
#[derive(Clone, Copy, Debug, PartialEq, Eq, Hash)]
pub enum Mark {
    /// Neither of the others.
    Nothing,
    /// The job has its output.
    Output,
    /// The guest has used its C ticks and given no output.
    BudgetUsedUp,
}

/// As in a run's text: `-`, `O` or `S`.
impl fmt::Display for Mark {
    fn fmt(&self, to: &mut fmt::Formatter) -> fmt::Result {
        to.write_str(match self {
            Mark::Nothing => "-",
            Mark::Output => "O",
            Mark::BudgetUsedUp => "S",
        })
    }
}

/// What a tick that was taken says. It shows itself as the tick's line in a run's text.
///
/// ```
/// use tollsalmon::{Machine, Mark, Ran, Tick};
///
/// let mut machine = Machine::start(&[10, 8, 3, 2])?;
/// let answer = machine.step(Tick { mask: 1, signal: 9, early: false })?;
/// assert_eq!((answer.clock, answer.ran, answer.mark), (0, Ran::Guest(1), Mark::Nothing));
/// assert!(answer.ignored); // 9 isn't the running guest
/// assert_eq!(answer.to_string(), "0 G1 - 1");
/// # Ok::<(), tollsalmon::Refusal>(())
/// ```
#[derive(Clone, Copy, Debug, PartialEq, Eq, Hash)]
pub struct Answer {
    /// The clock before the tick.
    pub clock: u64,
    /// Who ran.
    pub ran: Ran,
    /// What became of it.
    pub mark: Mark,
    /// Whether a signal was ignored.
    pub ignored: bool,
}

impl Answer {
    /// The task that ran.
    ///
    /// ```
    /// use tollsalmon::{Machine, Tick};
    ///
    /// let mut machine = Machine::start(&[10, 10, 2, 1, 20, 20, 4, 2])?;
    /// assert_eq!(machine.step(Tick::default())?.task(), None);
    /// assert_eq!(machine.step(Tick::arrivals(&[2]))?.task(), Some(2));
    /// # Ok::<(), tollsalmon::Refusal>(())
    /// ```
    pub fn task(&self) -> Option<usize> {
        self.ran.task()
    }

    /// What 12 bytes say of the tick at a clock; in them the clock has only its lowest 32 bits.
    pub(crate) fn of_bytes(clock: u64, bytes: [u8; ANSWER]) -> Result<Answer, Refusal> {
        let [_, _, _, _, place @ .., who, task, mark, ignored] = bytes;
        let ran = match who {
            GUEST => Ran::Guest(task.into()),
            HYPERTASK => Ran::Hypertask(task.into()),
            REFUSED => return Err(Refusal::new(task.into(), u32::from_le_bytes(place).into())),
            _ => Ran::Nobody,
        };
        let mark = match mark {
            OUTPUT => Mark::Output,
            BUDGET_USED_UP => Mark::BudgetUsedUp,
            _ => Mark::Nothing,
        };
        Ok(Answer { clock, ran, mark, ignored: ignored == 1 })
    }
}

impl fmt::Display for Answer {
    fn fmt(&self, to: &mut fmt::Formatter) -> fmt::Result {
        write!(to, "{} {} {} {}", self.clock, self.ran, self.mark, u8::from(self.ignored))
    }
}
