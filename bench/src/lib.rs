//! What the benchmarks share: plain Rust programs to measure against, made-up inputs and a clock.

pub mod analysis;
pub mod calls;
pub mod clock;
pub mod library;
pub mod machine;
pub mod planner_tables;
pub mod rounds;
pub mod scenarios;
pub mod text;

#[path = "../../tests/second/src/answer.rs"]
pub mod answer;

#[path = "../../tests/second/src/dice.rs"]
pub mod dice;

#[path = "../../include/tollsalmon.rs"]
pub mod interface;
