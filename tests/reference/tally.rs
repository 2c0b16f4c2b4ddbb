//! Counts by key, and a command's last lines.

use std::collections::BTreeMap;
use std::fmt::Display;

pub type Counts<K> = BTreeMap<K, u64>;

pub fn join<K: Ord>(counts: &mut Counts<K>, others: Counts<K>) {
    for (key, count) in others {
        *counts.entry(key).or_default() += count;
    }
}

/// Names with their counts.
pub fn named<K: Display>(counts: &Counts<K>) -> String {
    listed(counts, " ", ", ")
}

/// Sizes with their counts.
pub fn sized<K: Display>(counts: &Counts<K>) -> String {
    listed(counts, ":", " ")
}

fn listed<K: Display>(counts: &Counts<K>, joint: &str, between: &str) -> String {
    let list: Vec<String> = counts.iter().map(|(key, count)| format!("{key}{joint}{count}")).collect();
    list.join(between)
}

/// Calls that differ from what is expected; the first of them are printed.
#[derive(Default)]
pub struct Differing(u64);

impl Differing {
    const SHOWN: u64 = 3;

    pub fn note(&mut self, same: bool, show: impl FnOnce() -> String) {
        self.0 += !same as u64;
        if !same && self.0 <= Self::SHOWN {
            println!("DIFFERS: {}", show());
        }
    }

    pub fn fault(&self) -> Option<String> {
        (self.0 > 0).then(|| format!("{} calls differ", self.0))
    }
}

/// Prints the faults, or the line that says there are none.
pub fn conclude(faults: &[String], agreed: &str) -> bool {
    for fault in faults {
        println!("FAILED: {fault}");
    }
    if faults.is_empty() {
        println!("{agreed}");
    }
    faults.is_empty()
}
