//! How often the scripts meet what they are for.

use std::collections::BTreeMap;

pub type Counts<K> = BTreeMap<K, usize>;

pub fn count<K: Ord>(counts: &mut Counts<K>, key: K) {
    *counts.entry(key).or_default() += 1;
}

/// Whether each of these was met so many times.
pub fn each<K: Ord>(keys: impl IntoIterator<Item = K>, counts: &Counts<K>, least: usize) -> bool {
    keys.into_iter()
        .all(|key| counts.get(&key).is_some_and(|&count| count >= least))
}
