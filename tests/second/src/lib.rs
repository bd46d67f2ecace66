//! The second program: document 01 written once more, in plain Rust and on its own, so that
//! the library can be compared with it. A folder for each part of the document: the program itself,
//! copies of it with one fault each, made-up inputs, and cases. What all of them use stands beside
//! the folders.

pub mod jobs;
pub mod machine;
pub mod plan;
pub mod tables;
pub mod text;

pub mod answer;
pub mod command;
pub mod dice;
pub mod lent;
pub mod met;
pub mod self_test;
pub mod turns;
