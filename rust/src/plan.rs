//! Plan files, read, written and run.

use crate::answer::Answer;
use crate::library;
use crate::machine::Machine;
use crate::refusal::Refusal;
use crate::table::{MOST_TASKS, ROW};
use crate::tick::{records_of, Tick, RECORD};
use std::iter::FusedIterator;
use std::slice;

/// The most bytes of a plan file.
///
/// ```
/// use tollsalmon::{check_plan, Name, LONGEST_FILE};
///
/// let too_long = check_plan(&[0; LONGEST_FILE + 1]).unwrap_err();
/// assert_eq!((too_long.name(), too_long.place()), (Name::FileLength, 65_537));
/// ```
pub const LONGEST_FILE: usize = 65_536;

/// Bytes of a file before its rows, where it has a script.
const CONTENTS: usize = 28;

/// Whether bytes are a plan file. The numbers of its rows are [`check_table`](crate::check_table)'s
/// concern.
///
/// ```
/// use tollsalmon::{check_plan, Plan, Tick};
///
/// let plan = Plan { table: vec![10, 8, 7, 2], script: vec![Tick::default()] };
/// let mut file = plan.write()?;
/// assert_eq!(check_plan(&file), Ok(()));
/// file.pop();
/// let refusal = check_plan(&file).unwrap_err();
/// assert_eq!(refusal.to_string(), "refusal 15, entry 2: a body isn't where it belongs");
/// # Ok::<(), tollsalmon::Refusal>(())
/// ```
///
/// # Errors
///
/// Refusals 13 to 17.
pub fn check_plan(file: &[u8]) -> Result<(), Refusal> {
    library::check(file).map(drop)
}

/// What a plan file holds.
///
/// ```
/// use tollsalmon::{Plan, Tick};
///
/// let plan = Plan { table: vec![10, 8, 3, 2], script: vec![Tick::arrivals(&[1])] };
/// assert_eq!(Plan::read(&plan.write()?)?, plan);
/// # Ok::<(), tollsalmon::Refusal>(())
/// ```
#[derive(Clone, Debug, Default, PartialEq, Eq)]
pub struct Plan {
    /// T, D, C and K of each task, the highest priority first.
    pub table: Vec<u32>,
    /// The ticks.
    pub script: Vec<Tick>,
}

impl Plan {
    /// The plan that a file holds.
    ///
    /// ```
    /// use tollsalmon::{Name, Plan};
    ///
    /// let refusal = Plan::read(b"rows").unwrap_err();
    /// assert_eq!(refusal.name(), Name::Contents);
    /// ```
    ///
    /// # Errors
    ///
    /// Refusals 13 to 17.
    pub fn read(file: &[u8]) -> Result<Plan, Refusal> {
        library::check(file)?;
        let mut table = vec![0; ROW * MOST_TASKS];
        let numbers = library::table(file, &mut table);
        table.truncate(numbers);
        let mut records = vec![[0; RECORD]; file.len() / RECORD];
        let bytes = library::script(file, records.as_flattened_mut());
        records.truncate(bytes / RECORD);
        Ok(Plan { table, script: records.into_iter().map(Tick::of_record).collect() })
    }

    /// The plan's file.
    ///
    /// ```
    /// use tollsalmon::Plan;
    ///
    /// let file = Plan { table: vec![10, 8, 3, 2], script: vec![] }.write()?;
    /// assert_eq!(file[..8], [1, 0, 0, 0, 1, 0, 0, 0]); // one section, of kind 1
    /// # Ok::<(), tollsalmon::Refusal>(())
    /// ```
    ///
    /// # Errors
    ///
    /// Refusal 1 where the table isn't 1 to 32 whole rows, 13 where the file would be too long.
    pub fn write(&self) -> Result<Vec<u8>, Refusal> {
        let records = records_of(&self.script);
        let mut file = vec![0; CONTENTS + 4 * self.table.len() + RECORD * records.len()];
        let length = library::write(&self.table, records.as_flattened(), &mut file)?;
        file.truncate(length);
        Ok(file)
    }

    /// How many more ticks its file has room for.
    ///
    /// ```
    /// use tollsalmon::{Plan, Tick};
    ///
    /// let mut plan = Plan { table: vec![10, 8, 3, 2], script: vec![] };
    /// plan.script = vec![Tick::default(); plan.room()];
    /// assert!(plan.write().is_ok());
    /// plan.script.push(Tick::default());
    /// assert_eq!(plan.write().unwrap_err().number(), 13);
    /// ```
    pub fn room(&self) -> usize {
        let left = LONGEST_FILE.saturating_sub(CONTENTS + 4 * self.table.len());
        (left / RECORD).saturating_sub(self.script.len())
    }

    /// The plan's run from a fresh machine.
    ///
    /// ```
    /// use tollsalmon::{Plan, Tick};
    ///
    /// let plan = Plan { table: vec![10, 8, 3, 2], script: vec![Tick::arrivals(&[1]); 2] };
    /// for answer in plan.run()? {
    ///     match answer {
    ///         Ok(answer) => println!("{answer}"),
    ///         Err(refusal) => println!("{refusal}; {}", refusal.advice()),
    ///     }
    /// }
    /// # Ok::<(), tollsalmon::Refusal>(())
    /// ```
    ///
    /// # Errors
    ///
    /// What [`Machine::start`] says to the table.
    pub fn run(&self) -> Result<Run<'_>, Refusal> {
        Ok(Run { machine: Machine::start(&self.table)?, ticks: self.script.iter() })
    }
}

/// A run, tick by tick: what each tick of the plan says, when it is asked for. After one that is
/// refused the next comes at the same clock.
///
/// ```
/// use tollsalmon::{Plan, Tick};
///
/// let script = vec![Tick::arrivals(&[1]), Tick::arrivals(&[2]), Tick::default()];
/// let plan = Plan { table: vec![10, 8, 3, 2], script };
/// let taken: Vec<String> = plan.run()?.flatten().map(|answer| answer.to_string()).collect();
/// assert_eq!(taken, ["0 G1 - 0", "1 G1 - 0"]);
/// # Ok::<(), tollsalmon::Refusal>(())
/// ```
#[derive(Clone, Debug)]
#[must_use = "a run takes its ticks only when it is asked for them"]
pub struct Run<'a> {
    machine: Machine,
    ticks: slice::Iter<'a, Tick>,
}

impl Run<'_> {
    /// The machine after the ticks so far.
    ///
    /// ```
    /// use tollsalmon::{Plan, Stage, Tick};
    ///
    /// let plan = Plan { table: vec![10, 8, 3, 2], script: vec![Tick::arrivals(&[1])] };
    /// let mut run = plan.run()?;
    /// assert_eq!(run.machine().stage(1), Some(Stage::Never));
    /// run.next();
    /// assert_eq!(run.machine().stage(1), Some(Stage::Guest { arrival: 0, used: 1 }));
    /// # Ok::<(), tollsalmon::Refusal>(())
    /// ```
    pub fn machine(&self) -> &Machine {
        &self.machine
    }
}

impl Iterator for Run<'_> {
    type Item = Result<Answer, Refusal>;

    fn next(&mut self) -> Option<Self::Item> {
        self.ticks.next().map(|tick| self.machine.step(*tick))
    }

    fn size_hint(&self) -> (usize, Option<usize>) {
        self.ticks.size_hint()
    }
}

impl ExactSizeIterator for Run<'_> {}

impl FusedIterator for Run<'_> {}
