//! The machine, its tick rule, and the machine as numbers.

pub mod broken;
pub mod damages;
pub mod made_up;
pub mod numbers;
pub mod rules;
pub mod scripts;
pub mod state;

#[cfg(test)]
mod cases;
