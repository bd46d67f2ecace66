//! The machine.

use crate::answer::{Answer, ANSWER};
use crate::library;
use crate::refusal::Refusal;
use crate::tick::{records_of, Tick};
use std::fmt;

// Where the numbers of a machine stand, as tollsalmon.h has them.
const NUMBERS: usize = 258;
const ROWS: usize = 0;
const CLOCK: usize = 1;
const PLACES: usize = 2;
const PLACE: usize = 8;
const STAGE: usize = 5;
const ARRIVAL: usize = 6;
const TICKS: usize = 7;

/// What a task is about.
///
/// ```
/// use tollsalmon::{Machine, Stage, Tick};
///
/// let mut machine = Machine::start(&[10, 8, 3, 2])?;
/// assert_eq!(machine.stage(1), Some(Stage::Never));
/// machine.step(Tick::arrivals(&[1]))?;
/// assert_eq!(machine.stage(1), Some(Stage::Guest { arrival: 0, used: 1 }));
/// # Ok::<(), tollsalmon::Refusal>(())
/// ```
#[derive(Clone, Copy, Debug, PartialEq, Eq, Hash)]
pub enum Stage {
    /// It hasn't arrived yet.
    Never,
    /// Its guest has the job.
    Guest {
        /// When the job arrived.
        arrival: u64,
        /// How many ticks the guest has had.
        used: u64,
    },
    /// Its hypertask has the job.
    Hyper {
        /// When the job arrived.
        arrival: u64,
        /// How many ticks the hypertask has left.
        left: u64,
    },
    /// The job has its output.
    Closed {
        /// When the job arrived.
        arrival: u64,
    },
}

/// A machine that runs an accepted table tick by tick. It is 258 numbers, and two machines are
/// equal where all of these are.
///
/// ```
/// use tollsalmon::{Machine, Name, Tick};
///
/// let mut machine = Machine::start(&[10, 8, 3, 2])?;
/// machine.step(Tick::arrivals(&[1]))?;
/// let before = machine.clone();
/// let refusal = machine.step(Tick::arrivals(&[1])).unwrap_err();
/// assert_eq!(refusal.name(), Name::ArrivalTooSoon);
/// assert_eq!(machine, before);
/// # Ok::<(), tollsalmon::Refusal>(())
/// ```
#[derive(Clone, PartialEq, Eq)]
pub struct Machine {
    numbers: [u64; NUMBERS],
}

impl Machine {
    /// A fresh machine: clock 0, and no task has arrived yet.
    ///
    /// ```
    /// use tollsalmon::Machine;
    ///
    /// let machine = Machine::start(&[10, 10, 2, 1, 20, 20, 4, 2])?;
    /// assert_eq!((machine.clock(), machine.tasks()), (0, 2));
    /// # Ok::<(), tollsalmon::Refusal>(())
    /// ```
    ///
    /// # Errors
    ///
    /// Refusals 1, 2, 3, 5, 6, 7 and 19, as of [`check_table`](crate::check_table).
    pub fn start(table: &[u32]) -> Result<Machine, Refusal> {
        let mut numbers = [0; NUMBERS];
        library::start(table, &mut numbers)?;
        Ok(Machine { numbers })
    }

    /// One tick. Refused, it leaves the machine as it was.
    ///
    /// ```
    /// use tollsalmon::{Machine, Tick};
    ///
    /// let mut machine = Machine::start(&[10, 8, 3, 2])?;
    /// let answer = machine.step(Tick::arrivals(&[1]))?;
    /// assert_eq!(answer.to_string(), "0 G1 - 0");
    /// assert_eq!(machine.clock(), 1);
    /// # Ok::<(), tollsalmon::Refusal>(())
    /// ```
    ///
    /// # Errors
    ///
    /// Refusals 10 and 11; 9 where the clock is at its end; 8 and 12 only from numbers that no run
    /// leaves.
    pub fn step(&mut self, tick: Tick) -> Result<Answer, Refusal> {
        let (clock, mut bytes) = (self.clock(), [0; ANSWER]);
        library::step(&mut self.numbers, tick, &mut bytes)?;
        Answer::of_bytes(clock, bytes)
    }

    /// Many ticks in one call, which is faster: what each of them says. After one that is refused
    /// the next comes at the same clock.
    ///
    /// ```
    /// use tollsalmon::{Machine, Tick};
    ///
    /// let mut machine = Machine::start(&[10, 8, 3, 2])?;
    /// let ticks = [Tick::arrivals(&[1]), Tick::arrivals(&[2]), Tick::default()];
    /// let answers = machine.ticks(&ticks)?;
    /// assert_eq!(answers[0]?.to_string(), "0 G1 - 0");
    /// assert_eq!(answers[1].unwrap_err().number(), 10);
    /// assert_eq!(answers[2]?.to_string(), "1 G1 - 0");
    /// # Ok::<(), tollsalmon::Refusal>(())
    /// ```
    ///
    /// # Errors
    ///
    /// Refusal 8, where the numbers can't be read as a machine's.
    pub fn ticks(&mut self, ticks: &[Tick]) -> Result<Vec<Result<Answer, Refusal>>, Refusal> {
        let mut clock = self.clock();
        let mut answers = vec![[0; ANSWER]; ticks.len()];
        let records = records_of(ticks);
        library::ticks(&mut self.numbers, records.as_flattened(), answers.as_flattened_mut())?;
        let said = |bytes| {
            let answer = Answer::of_bytes(clock, bytes);
            clock += u64::from(answer.is_ok());
            answer
        };
        Ok(answers.into_iter().map(said).collect())
    }

    /// How many ticks it has taken.
    ///
    /// ```
    /// use tollsalmon::{Machine, Tick};
    ///
    /// let mut machine = Machine::start(&[10, 8, 3, 2])?;
    /// machine.ticks(&[Tick::default(); 5])?;
    /// assert_eq!(machine.clock(), 5);
    /// # Ok::<(), tollsalmon::Refusal>(())
    /// ```
    pub fn clock(&self) -> u64 {
        self.numbers[CLOCK]
    }

    /// How many tasks its table has.
    ///
    /// ```
    /// assert_eq!(tollsalmon::Machine::start(&[10, 8, 3, 2])?.tasks(), 1);
    /// # Ok::<(), tollsalmon::Refusal>(())
    /// ```
    pub fn tasks(&self) -> usize {
        self.numbers[ROWS] as usize
    }

    /// What a task, from 1, is about; none where there is no such task or no such stage.
    ///
    /// ```
    /// use tollsalmon::{Machine, Stage, Tick};
    ///
    /// let mut machine = Machine::start(&[10, 8, 3, 2])?;
    /// machine.step(Tick { mask: 1, signal: 1, early: false })?;
    /// assert_eq!(machine.stage(1), Some(Stage::Closed { arrival: 0 }));
    /// assert_eq!(machine.stage(2), None);
    /// # Ok::<(), tollsalmon::Refusal>(())
    /// ```
    pub fn stage(&self, task: usize) -> Option<Stage> {
        let mut places = self.numbers[PLACES..].chunks_exact(PLACE).take(self.tasks());
        let place = places.nth(task.checked_sub(1)?)?;
        let (arrival, ticks) = (place[ARRIVAL], place[TICKS]);
        match place[STAGE] {
            0 => Some(Stage::Never),
            1 => Some(Stage::Guest { arrival, used: ticks }),
            2 => Some(Stage::Hyper { arrival, left: ticks }),
            3 => Some(Stage::Closed { arrival }),
            _ => None,
        }
    }

    /// The numbers that it is, to keep it between two runs of a program.
    ///
    /// ```
    /// use tollsalmon::{Machine, Tick};
    ///
    /// let mut machine = Machine::start(&[10, 8, 3, 2])?;
    /// machine.step(Tick::default())?;
    /// assert_eq!(machine.numbers()[..6], [1, 1, 10, 8, 3, 2]); // tasks, clock, T D C K
    /// # Ok::<(), tollsalmon::Refusal>(())
    /// ```
    pub fn numbers(&self) -> &[u64; 258] {
        &self.numbers
    }

    /// The machine of numbers that were kept. They are not looked at here: every step looks, and
    /// refuses with 8 what isn't well formed.
    ///
    /// ```
    /// use tollsalmon::{Machine, Name, Tick};
    ///
    /// let machine = Machine::start(&[10, 8, 3, 2])?;
    /// let mut numbers = *machine.numbers();
    /// assert_eq!(Machine::from_numbers(numbers), machine);
    ///
    /// numbers[7] = 9; // there is no such stage
    /// let refusal = Machine::from_numbers(numbers).step(Tick::default()).unwrap_err();
    /// assert_eq!(refusal.name(), Name::NotWellFormed);
    /// # Ok::<(), tollsalmon::Refusal>(())
    /// ```
    pub fn from_numbers(numbers: [u64; 258]) -> Machine {
        Machine { numbers }
    }
}

/// Its numbers, a list for each place; the places after the last number that isn't 0 are left out.
impl fmt::Debug for Machine {
    fn fmt(&self, to: &mut fmt::Formatter) -> fmt::Result {
        let end = self.numbers.iter().rposition(|number| *number != 0).map_or(0, |last| last + 1);
        let used = end.saturating_sub(PLACES).div_ceil(PLACE);
        let places: Vec<&[u64]> = self.numbers[PLACES..].chunks_exact(PLACE).take(used).collect();
        let mut machine = to.debug_struct("Machine");
        machine.field("tasks", &self.tasks()).field("clock", &self.clock());
        machine.field("places", &places).finish()
    }
}
