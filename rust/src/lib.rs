//! Tollsalmon for Rust: one analysis of a table of tasks, one machine that steps it, one plan file
//! for both. The proved library does the work; here its numbers and lent memory become types.
//!
//! ```
//! use tollsalmon::{Machine, Mark, Tick};
//!
//! let mut machine = Machine::start(&[10, 8, 3, 2])?; // T D C K of each task
//! let first = machine.step(Tick::arrivals(&[1]))?; // task 1 arrives
//! assert_eq!(first.to_string(), "0 G1 - 0"); // clock 0: its guest ran
//! for _ in 1..7 {
//!     machine.step(Tick::default())?; // and says nothing
//! }
//! let last = machine.step(Tick::default())?;
//! assert_eq!((last.clock, last.mark), (7, Mark::Output)); // so its hypertask gave the output
//! # Ok::<(), tollsalmon::Refusal>(())
//! ```
//!
//! | To | use |
//! |---|---|
//! | know whether a table keeps its deadlines | [`check_table`] |
//! | run a table tick by tick | [`Machine::start`], [`Machine::step`] |
//! | run many ticks in one call | [`Machine::ticks`] |
//! | read, write or run a plan file | [`Plan::read`], [`Plan::write`], [`Plan::run`] |
//! | have a plan's run as text | [`run_to_text`] |
//!
//! Rows are four numbers, T, D, C and K, the highest priority first; tasks are counted from 1.
//! Whatever is refused is a [`Refusal`]: a number with a name, a place, what it means and what to
//! do. A step allocates nothing. What panics: [`Tick::arrivals`] of a task that no mask has, and any
//! function that is linked with a library of another version, whose refusals have no names here.
//!
//! The library lies in the folder that the variable `TOLLSALMON_LIB` names when this package is
//! built, else in the repository's `target/staticlib`.

#![deny(missing_docs, unsafe_code)]

/// The repository's README, whose example in Rust is tried with the others.
#[cfg(doctest)]
#[doc = include_str!("../../README.md")]
struct Readme;

mod answer;
#[allow(unsafe_code)]
mod library;
mod machine;
mod plan;
mod refusal;
mod table;
mod text;
mod tick;

pub use answer::{Answer, Mark, Ran};
pub use machine::{Machine, Stage};
pub use plan::{check_plan, Plan, Run, LONGEST_FILE};
pub use refusal::{Name, Refusal};
pub use table::{check_table, Response, MOST_TASKS};
pub use text::run_to_text;
pub use tick::Tick;
