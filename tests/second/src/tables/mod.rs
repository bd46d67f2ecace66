//! The analysis of a table.

pub mod analysis;
pub mod broken;
pub mod made_up;

#[cfg(test)]
mod cases;
