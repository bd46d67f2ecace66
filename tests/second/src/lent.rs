//! Lent memory between guards, so that every place can be looked at afterwards.

use crate::answer::{Answer, Refusal};
use std::fmt::Display;
use std::ops::Not;

const GUARD: usize = 16;

#[derive(Clone, PartialEq, Eq)]
pub struct Lent<T> {
    places: Vec<T>,
    length: usize,
}

/// What stands in a place before anything is written there: mostly different from what the
/// next place has, and from what a program would write.
pub trait Pattern: Copy + PartialEq + Display + Not<Output = Self> {
    fn at(place: usize) -> Self;
}

impl Pattern for u8 {
    fn at(place: usize) -> u8 {
        0xA5 ^ place as u8
    }
}

impl Pattern for u32 {
    fn at(place: usize) -> u32 {
        0xA5C3_0000 ^ place as u32
    }
}

impl Pattern for u64 {
    fn at(place: usize) -> u64 {
        0xA5C3_A5C3_0000_0000 ^ place as u64
    }
}

impl<T: Pattern> Lent<T> {
    pub fn new(length: usize) -> Lent<T> {
        Lent { places: (0..length + 2 * GUARD).map(T::at).collect(), length }
    }

    /// Lends these.
    pub fn holding(part: &[T]) -> Lent<T> {
        let mut lent = Lent::new(part.len());
        lent.part_to_write().copy_from_slice(part);
        lent
    }

    /// What is lent, without the guards.
    pub fn part(&self) -> &[T] {
        &self.places[GUARD..GUARD + self.length]
    }

    pub fn part_to_write(&mut self) -> &mut [T] {
        &mut self.places[GUARD..GUARD + self.length]
    }

    /// The lent part as C takes it. The pointer may reach the guards, so that a write past
    /// the part lands where it is seen.
    pub fn pointer_and_length(&mut self) -> (*mut T, usize) {
        (self.places[..].as_mut_ptr().wrapping_add(GUARD), self.length)
    }

    /// Changes the place this far from the start of the lent part, which may be a guard. Safe code
    /// can't write there; a library through C can.
    pub fn stray(&mut self, distance: isize) {
        let place = &mut self.places[GUARD.wrapping_add_signed(distance)];
        *place = !*place;
    }

    /// Changes the place right after the lent part.
    pub fn stray_past(&mut self) {
        self.stray(self.length as isize);
    }

    /// The places where the two are different, counted from the start of the lent part, in words.
    pub fn differences<'a>(&'a self, other: &'a Lent<T>) -> impl Iterator<Item = String> + 'a {
        let pairs = self.places.iter().zip(&other.places).enumerate();
        pairs.filter(|(_, (mine, others))| mine != others).map(|(place, (mine, others))| {
            let place = place as isize - GUARD as isize;
            format!("place {place} of {}: second program {mine}, found {others}", self.length)
        })
    }
}

/// The answer of a function that gives a number and a place. A place that it leaves unwritten, or
/// a number next to it that it writes, is no answer: no answer has such a place.
pub fn answered(call: impl FnOnce(*mut u64) -> u32) -> Answer {
    let mut place = Lent::<u64>::new(1);
    let mut beside = place.clone();
    let number = call(place.pointer_and_length().0);
    let given = place.part()[0];
    beside.part_to_write()[0] = given;
    let given = if place == beside { given } else { u64::MAX };
    match number {
        0 => Ok(given),
        number => Err(Refusal { number, place: given }),
    }
}
