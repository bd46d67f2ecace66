//! What a run of the comparison has met in ticks that are given by themselves.

use crate::outcome::Stepped;
use second::lent::Lent;
use second::machine::damages::{DAMAGES, READABLE};
use second::machine::made_up::{Case, Step};
use second::machine::numbers::ANSWER;
use second::met::{demand, Counts, Demand};

/// A run that meets something less often than this shows too little about it.
const FEWEST_TAKEN: usize = 10_000;
const FEWEST_OF_A_REFUSAL: usize = 200;
const FEWEST_OF_A_ROOM: usize = 100;
const FEWEST_OF_A_DAMAGE: usize = 100;

/// The numbers that a step can be refused with.
const REFUSALS: [u32; 7] = [8, 9, 10, 11, 12, 17, 18];
/// Refusals that two faults of one step could have, the one that is said first.
const AT_ONCE: [(u32, u32); 3] = [(17, 18), (17, 8), (18, 8)];

#[derive(Default)]
pub struct Steps {
    taken: usize,
    refused: Counts<u32>,
    at_once: Counts<(u32, u32)>,
    /// By how many bytes are lent for the answer.
    of_room: Counts<usize>,
    /// Refused with 8, by the place in DAMAGES.
    of_damage: Counts<usize>,
}

impl Steps {
    pub fn count(&mut self, case: &Case, step: Step, stepped: &Stepped) {
        self.of_room.meet(step.answer);
        let faults = faults(case, step);
        let both = |(first, second): &(u32, u32)| faults.contains(first) && faults.contains(second);
        for pair in AT_ONCE.into_iter().filter(both) {
            self.at_once.meet(pair);
        }
        match stepped.returned {
            Ok(_) => self.taken += 1,
            Err(refusal) => {
                self.refused.meet(refusal.number);
                if let (8, Some(damage)) = (refusal.number, case.damage) {
                    self.of_damage.meet(damage);
                }
            }
        }
    }

    pub fn met(&self) -> Vec<Demand> {
        let refused = |n| demand(format!("  refused with {n}"), self.refused.of(n), FEWEST_OF_A_REFUSAL);
        let at_once = |(first, second)| {
            let name = format!("  refused with {first} where {second} could be said");
            demand(name, self.at_once.of((first, second)), FEWEST_OF_A_REFUSAL)
        };
        let rooms = self.of_room.fewest(0..=ANSWER + 1);
        let damages = self.of_damage.fewest(0..=DAMAGES.len() - 1);
        [
            vec![demand("steps taken", self.taken, FEWEST_TAKEN)],
            vec![demand("  with 0 to 13 bytes lent, each at least", rooms, FEWEST_OF_A_ROOM)],
            REFUSALS.map(refused).to_vec(),
            vec![demand("  with 8 for each damage, at least", damages, FEWEST_OF_A_DAMAGE)],
            AT_ONCE.map(at_once).to_vec(),
        ]
        .concat()
    }
}

/// The numbers that the step could be refused with before the tick rule is looked at.
fn faults(case: &Case, step: Step) -> Vec<u32> {
    let unreadable = case.damage.is_some_and(|damage| DAMAGES[damage].clause == READABLE);
    let faults = [(step.given.early > 1, 17), (step.answer < ANSWER, 18), (unreadable, 8)];
    faults.into_iter().filter(|(is_so, _)| *is_so).map(|(_, number)| number).collect()
}

/// A step of a damaged machine is refused, with 8 unless something else comes before it, and touches
/// nothing.
pub fn is_refused(case: &Case, step: Step, stepped: &Stepped, numbers: &Lent<u64>) -> bool {
    let number = faults(case, step).first().copied().unwrap_or(8);
    stepped.returned.is_err_and(|refusal| refusal.number == number)
        && stepped.state == *numbers
        && stepped.answer == Lent::new(step.answer)
}
