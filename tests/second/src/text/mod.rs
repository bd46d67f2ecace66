//! The text of a plan's run.

pub mod broken;
pub mod made_up;
pub mod run;

#[cfg(test)]
mod cases;
