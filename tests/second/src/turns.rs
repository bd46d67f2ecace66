//! Made-up cases of several kinds, by turns.

use std::iter::repeat_n;

/// The kinds, each as often as its number says. Every kind has its turn that many times, so that a
/// short look at a run sees them all.
pub fn in_turns<Kind: Copy>(turns: usize, kinds: &[(Kind, usize)]) -> impl Iterator<Item = Kind> + '_ {
    let turn = move || kinds.iter().flat_map(move |(kind, number)| repeat_n(*kind, number / turns));
    (0..turns).flat_map(move |_| turn())
}
