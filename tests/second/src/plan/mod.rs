//! The plan file: its reader and its writer.

pub mod broken;
pub mod file;
pub mod made_up;

#[cfg(test)]
mod cases;
