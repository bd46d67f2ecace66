//! The text form of a plan, which people write and read. The plan file itself is the library's:
//! its reader and its writer.
//!
//! ```text
//! rows         # T D C K, the highest priority first
//! 10 8 3 2
//!
//! ticks        # arrivals, signal, early mark
//! t1 - -
//! - - - x7     # seven times
//! ```
//!
//! A `#` begins a comment. Arrivals are tasks (`t1+t3`), the mask as a number (`5`, `0x5`,
//! `0b101`) or `-` for none; the signal is a number from 0 to 255 and the early mark 0 or 1, with
//! `-` for 0. What a field may be is the analysis's concern: any number of 32 bits is taken.

pub mod found;
pub mod make;
pub mod show;

#[cfg(test)]
mod round_trips;
#[cfg(test)]
mod text_cases;

/// The numbers of a row: T, D, C, K.
const ROW: usize = 4;
