//! Analyses with one fault each, made by build.rs from analysis.rs and edits/tables.rs. The
//! comparison runs against them to show that it notices such faults.

#![allow(warnings, clippy::all)]

use crate::answer::Answer;

pub type Analyse = fn(&[u32], &mut [u32]) -> Answer;

#[cfg(not(test))] // the tests have no use for them, and they take long to compile
include!(concat!(env!("OUT_DIR"), "/broken_tables.rs"));
