//! Machines with one fault each, made by build.rs from rules.rs, numbers.rs and edits/machine.rs.
//! The comparison runs against them to show that it notices such faults.

#![allow(warnings, clippy::all)]

use crate::answer::Answer;
use crate::machine::numbers::{start_into, step, ticks};
use crate::machine::rules::RULES;
use crate::machine::state::{Given, Rules};

/// A machine as the library has it: its rules behind a start, a run of ticks and a tick.
#[derive(Clone, Copy)]
pub struct Program {
    pub rules: Rules,
    pub start: fn(&Rules, &[u32], &mut [u64]) -> Answer,
    pub ticks: fn(&Rules, &mut [u64], &[u8], &mut [u8]) -> Answer,
    pub step: fn(&Rules, &mut [u64], Given, &mut [u8]) -> Answer,
}

/// The one without a fault.
pub const SECOND: Program = Program { rules: RULES, start: start_into, ticks, step };

#[cfg(not(test))] // the tests have no use for them, and they take long to compile
include!(concat!(env!("OUT_DIR"), "/broken_machine.rs"));
