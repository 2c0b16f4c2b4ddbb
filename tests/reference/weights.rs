//! Exact weights of the strings of draws: chances with nothing rounded.

use crate::big::Big;
use std::collections::BTreeMap;

/// A string of n draws weighs `one` for each 1 and `of - one` for each 0; its chance is that over `of`^n.
pub struct Weights {
    one: u64,
    of: u64,
    /// The strings that have met no boundary, by their count of ones.
    pub live: BTreeMap<i64, Big>,
    /// The strings that met the upper boundary first.
    pub above: Big,
    /// The strings that met the lower boundary first.
    pub below: Big,
    /// All strings.
    pub whole: Big,
}

impl Weights {
    pub fn begin(one: u64, of: u64) -> Weights {
        Weights {
            one,
            of,
            live: BTreeMap::from([(0, Big::from(1))]),
            above: Big::from(0),
            below: Big::from(0),
            whole: Big::from(1),
        }
    }

    /// One more draw.
    pub fn advance(&mut self) {
        let mut next: BTreeMap<i64, Big> = BTreeMap::new();
        for (count, weight) in &self.live {
            next.entry(*count).or_default().add(&weight.times(self.of - self.one));
            next.entry(count + 1).or_default().add(&weight.times(self.one));
        }
        self.live = next;
        // Any draw may follow these: the chance stays, over a larger whole.
        for sum in [&mut self.above, &mut self.below, &mut self.whole] {
            *sum = sum.times(self.of);
        }
    }

    /// Takes the strings at or beyond a boundary out of the live ones.
    pub fn settle(&mut self, upper: i64, lower: i64) {
        for (count, weight) in std::mem::take(&mut self.live) {
            if count >= upper {
                self.above.add(&weight);
            } else if count <= lower {
                self.below.add(&weight);
            } else {
                self.live.insert(count, weight);
            }
        }
    }
}
