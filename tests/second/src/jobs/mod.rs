//! Demand 3, job by job.

pub mod books;
#[cfg(not(test))] // made of broken programs that the tests don't compile
pub mod broken;
pub mod made_up;

#[cfg(test)]
mod cases;
