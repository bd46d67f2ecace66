//! Readers and writers of the plan file with one fault each, made by build.rs from file.rs and
//! edits/plan.rs. The comparison runs against them to show that it notices such faults.

#![allow(warnings, clippy::all)]

use crate::answer::{Answer, Refusal};

/// What a program does with plan files.
#[derive(Clone, Copy)]
pub struct Functions {
    pub check: fn(&[u8]) -> Result<(), Refusal>,
    pub table_into: fn(&[u8], &mut [u32]) -> u64,
    pub script_into: fn(&[u8], &mut [u8]) -> u64,
    pub write: fn(&[u32], &[u8], &mut [u8]) -> Answer,
}

#[cfg(not(test))] // the tests have no use for them, and they take long to compile
include!(concat!(env!("OUT_DIR"), "/broken_plan.rs"));
