//! Programs measured in turn, so that what slows the machine down slows all of them.

use crate::clock::time_of;
use std::time::Duration;

/// The times of one program over all rounds, shortest first.
pub struct Times(Vec<Duration>);

impl Times {
    pub fn best(&self) -> Duration {
        self.0[0]
    }

    pub fn median(&self) -> Duration {
        self.0[self.0.len() / 2]
    }
}

/// One round for each to warm up, then `rounds` that count; who begins changes each time.
pub fn in_turn<const N: usize>(rounds: usize, programs: [&mut dyn FnMut(); N]) -> [Times; N] {
    let programs = programs.map(|program| {
        program();
        program
    });
    let mut times = [const { Vec::new() }; N];
    for turn in 0..rounds * N {
        let i = (turn / N + turn % N) % N;
        times[i].push(time_of(&mut *programs[i]));
    }
    times.map(|mut times| {
        times.sort_unstable();
        Times(times)
    })
}

pub fn alternate(rounds: usize, mut first: impl FnMut(), mut second: impl FnMut()) -> (Times, Times) {
    let [first, second] = in_turn(rounds, [&mut first, &mut second]);
    (first, second)
}
