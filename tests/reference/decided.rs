//! What the buckets that contain a decided interval are like.

use crate::plan::Bucket;

pub struct Decided {
    /// Those that contain the interval, in the plan's order.
    containing: Vec<Bucket>,
    /// The chosen one's place among them.
    chosen: usize,
    /// The width of the plan's narrowest bucket, which need not contain it.
    least: u128,
}

impl Decided {
    pub fn of(buckets: &[Bucket], low: u128, high: u128, number: usize) -> Decided {
        let contains = |b: &&Bucket| b.contains(low, high);
        Decided {
            containing: buckets.iter().filter(contains).cloned().collect(),
            chosen: buckets[..number - 1].iter().filter(contains).count(),
            least: buckets.iter().map(Bucket::width).min().expect("a bucket"),
        }
    }

    fn one(&self) -> &Bucket {
        &self.containing[self.chosen]
    }

    /// Is another as narrow, with the same ends or with other ones?
    fn ties(&self, identical: bool) -> bool {
        let as_narrow = |b: &&Bucket| b.width() == self.one().width();
        let same = self.containing.iter().filter(|b| *b == self.one()).count();
        let other = self.containing.iter().filter(as_narrow).count() - same;
        if identical { same > 1 } else { other > 0 }
    }
}

/// Rare at the end of a run: it takes thresholds settled on both sides.
pub const OTHER_ENDS: &str = "equally narrow, other ends";

/// What must come up. In the first of them the choice by the plan's order alone would name another bucket.
pub const MET: [(&str, fn(&Decided) -> bool); 6] = [
    ("not the first in the plan", |d| d.chosen > 0),
    ("the first of several", |d| d.chosen == 0 && d.containing.len() > 1),
    ("only one contains", |d| d.containing.len() == 1),
    ("equally narrow, identical", |d| d.ties(true)),
    (OTHER_ENDS, |d| d.ties(false)),
    ("a narrower one elsewhere", |d| d.least < d.one().width()),
];
