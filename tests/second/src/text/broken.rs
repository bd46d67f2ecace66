//! Texts with one fault each, made by build.rs from run.rs and edits/text.rs. The comparison runs
//! against them to show that it notices such faults.

#![allow(warnings, clippy::all)]

pub type Text = fn(&[u8]) -> Vec<u8>;

#[cfg(not(test))] // the tests have no use for them, and they take long to compile
include!(concat!(env!("OUT_DIR"), "/broken_text.rs"));
