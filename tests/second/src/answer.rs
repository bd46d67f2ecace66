//! What every part of the program answers: what it accepted, or a numbered refusal.

/// A line of document 01's "Numbers of the refusals", with its place.
#[derive(Clone, Copy, Debug, PartialEq, Eq)]
pub struct Refusal {
    pub number: u32,
    pub place: u64,
}

/// Accepted with the number of tasks, or refused.
pub type Answer = Result<u64, Refusal>;

/// The refusal of this number, at this place.
pub fn refusal(number: u32, place: usize) -> Refusal {
    Refusal { number, place: place as u64 }
}
