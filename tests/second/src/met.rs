//! What a comparison has met, and whether that is enough to show something.

use std::collections::BTreeMap;
use std::fmt::Debug;
use std::ops::RangeInclusive;

/// How often each was met.
pub struct Counts<Key>(BTreeMap<Key, usize>);

impl<Key> Default for Counts<Key> {
    fn default() -> Counts<Key> {
        Counts(BTreeMap::new())
    }
}

impl<Key: Ord> Counts<Key> {
    pub fn meet(&mut self, key: Key) {
        self.meet_times(key, 1);
    }

    pub fn meet_times(&mut self, key: Key, times: usize) {
        *self.0.entry(key).or_default() += times;
    }

    pub fn of(&self, key: Key) -> usize {
        self.0.get(&key).copied().unwrap_or(0)
    }

    /// All of these together.
    pub fn within(&self, keys: RangeInclusive<Key>) -> usize {
        self.0.range(keys).map(|(_, count)| count).sum()
    }
}

impl Counts<usize> {
    /// The one of these that was met most rarely: so often.
    pub fn fewest(&self, keys: RangeInclusive<usize>) -> usize {
        keys.map(|key| self.of(key)).min().unwrap_or(0)
    }
}

impl Counts<u32> {
    /// The refusals that were met though their numbers are none of these.
    pub fn others(&self, numbers: &[u32]) -> Counts<u32> {
        let others = self.0.iter().filter(|(number, _)| !numbers.contains(number));
        Counts(others.map(|(number, count)| (*number, *count)).collect())
    }

    pub fn total(&self) -> usize {
        self.0.values().sum()
    }

    /// A line for each number, with nothing demanded.
    pub fn lines(&self) -> Vec<Demand> {
        self.0.iter().map(|(number, count)| demand(format!("refusal {number}"), *count, 0)).collect()
    }
}

/// A kind of made-up cases, as it is counted and printed: in words.
pub fn name(kind: impl Debug) -> String {
    let mut words = String::new();
    for letter in format!("{kind:?}").chars() {
        if letter.is_uppercase() && !words.is_empty() {
            words.push(' ');
        }
        words.push(letter.to_ascii_lowercase());
    }
    words
}

/// Something with its name, how often it was met and how often it must be.
pub type Demand = (String, usize, usize);

pub fn demand(name: impl Into<String>, met: usize, fewest: usize) -> Demand {
    (name.into(), met, fewest)
}

/// Each kind of made-up cases.
pub fn kinds<Kind: Copy + Debug>(
    kinds: impl IntoIterator<Item = Kind>,
    counts: &Counts<String>,
    fewest: usize,
) -> Vec<Demand> {
    let kind = |kind| demand(format!("  {}", name(kind)), counts.of(name(kind)), fewest);
    kinds.into_iter().map(kind).collect()
}

/// Prints all that was met, then what must not be. Says what is wrong with that, and answers whether
/// nothing is.
pub fn is_good(met: &[Demand], amiss: &[(&str, usize)]) -> bool {
    let rare = met.iter().filter(|(_, met, fewest)| met < fewest);
    let rare = rare.map(|(name, met, fewest)| {
        format!("met too rarely: {}, {met} times, not {fewest}", name.trim_start())
    });
    let amiss_at_all = amiss.iter().filter(|(_, count)| *count > 0);
    let wrong: Vec<String> =
        rare.chain(amiss_at_all.map(|(name, count)| format!("{count} {name}"))).collect();
    met.iter().for_each(|(name, met, fewest)| line(name, *met, *fewest));
    amiss.iter().for_each(|(name, count)| line(name, *count, 0));
    wrong.iter().for_each(|what| println!("FAILED: {what}"));
    wrong.is_empty()
}

/// With what is demanded, where something is.
fn line(name: &str, count: usize, fewest: usize) {
    let demanded = if fewest > 0 { format!("  (demanded: {fewest})") } else { String::new() };
    println!("{name:<44}{count:>9}{demanded}");
}

#[test]
fn numbers_that_are_not_listed_are_others() {
    let mut refused = Counts::default();
    [7, 19, 20, 7, 20].into_iter().for_each(|number: u32| refused.meet(number));
    let others = refused.others(&[1, 7, 19]);
    assert_eq!((others.total(), others.lines()), (2, vec![demand("refusal 20", 2, 0)]));
    assert_eq!(refused.others(&[7, 19, 20]).total(), 0);
}

#[test]
fn too_rare_or_amiss_is_not_good() {
    assert!(is_good(&[demand("met", 5, 5)], &[("amiss", 0)]));
    assert!(!is_good(&[demand("met", 4, 5)], &[("amiss", 0)]));
    assert!(!is_good(&[demand("met", 5, 5)], &[("amiss", 1)]));
}
