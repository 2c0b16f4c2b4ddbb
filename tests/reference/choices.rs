//! Mistakes in choosing among the buckets, which the comparisons must notice.

use crate::host::Plan;
use crate::plan::Bucket;

#[derive(Clone, Copy, Debug, PartialEq, Eq, PartialOrd, Ord)]
pub enum Choice {
    /// The first in the plan's order that contains the interval, whatever its width: the rule of old.
    First,
    LastOfNarrowest,
    Widest,
    /// Narrow by one end alone.
    LargestLeft,
    SmallestRight,
    /// Of all buckets, where some bucket contains the interval, or where the narrowest itself does.
    NarrowestOfAll,
    NarrowestMustContain,
    /// The interval's, so that no bucket is narrower than another.
    WidthOfInterval,
    /// The width's lowest 16 bits.
    WidthCut,
    /// A search that stops at the first one narrower, or that looks back to the one before and no further.
    FirstNarrower,
    NarrowerThanBefore,
    /// A crossed interval is judged like another, or lies in every bucket.
    CrossedDecided,
    CrossedInAll,
    /// An end of the interval may not be the bucket's.
    StrictLeft,
    StrictRight,
    StrictBoth,
    /// Another number of places looked at.
    PastCount,
    ToThresholds,
    FirstPassedOver,
    LastPassedOver,
    /// Its number from 0, or among those that contain the interval.
    FromZero,
    AmongContaining,
}

pub const CHOICES: [Choice; 22] = [
    Choice::First,
    Choice::LastOfNarrowest,
    Choice::Widest,
    Choice::LargestLeft,
    Choice::SmallestRight,
    Choice::NarrowestOfAll,
    Choice::NarrowestMustContain,
    Choice::WidthOfInterval,
    Choice::WidthCut,
    Choice::FirstNarrower,
    Choice::NarrowerThanBefore,
    Choice::CrossedDecided,
    Choice::CrossedInAll,
    Choice::StrictLeft,
    Choice::StrictRight,
    Choice::StrictBoth,
    Choice::PastCount,
    Choice::ToThresholds,
    Choice::FirstPassedOver,
    Choice::LastPassedOver,
    Choice::FromZero,
    Choice::AmongContaining,
];

/// A bucket beside its place from 0.
type Placed = (u32, Bucket);

/// What stands past the count can have a left end over the right one.
fn width(bucket: &Bucket) -> i128 {
    bucket.right as i128 - bucket.left as i128
}

impl Choice {
    pub fn passes_crossed(self) -> bool {
        matches!(self, Choice::CrossedDecided | Choice::CrossedInAll)
    }

    fn looked_at(self, p: &Plan) -> Vec<Placed> {
        let places = match self {
            Choice::PastCount => 0..p.left.len() as u32,
            Choice::ToThresholds => 0..p.buckets.min(p.count),
            Choice::FirstPassedOver => 1..p.buckets,
            Choice::LastPassedOver => 0..p.buckets - 1,
            _ => 0..p.buckets,
        };
        places.map(|place| (place, p.bucket(place))).collect()
    }

    fn contains(self, bucket: &Bucket, low: u128, high: u128) -> bool {
        let within = match self {
            Choice::StrictLeft => bucket.left < low,
            Choice::StrictRight => high < bucket.right,
            Choice::StrictBoth => bucket.left < low && high < bucket.right,
            _ => true,
        };
        let empty = self == Choice::CrossedInAll && low > high;
        empty || within && bucket.contains(low, high)
    }

    /// The smallest wins, and of those alike the first.
    fn rank(self, (place, bucket): &Placed) -> i128 {
        match self {
            Choice::First | Choice::WidthOfInterval => 0,
            Choice::Widest => -width(bucket),
            Choice::LargestLeft => -(bucket.left as i128),
            Choice::SmallestRight => bucket.right as i128,
            Choice::WidthCut => width(bucket) & 0xFFFF,
            // A place is below 16.
            Choice::LastOfNarrowest => 16 * width(bucket) - *place as i128,
            _ => width(bucket),
        }
    }

    fn pick(self, all: &[Placed], containing: &[Placed]) -> Option<Placed> {
        let narrower = |one: &Placed, than: &Placed| width(&one.1) < width(&than.1);
        let best = |from: &[Placed]| from.iter().min_by_key(|one| self.rank(one)).cloned();
        let first = containing.first()?;
        let found = match self {
            Choice::NarrowestOfAll => return best(all),
            Choice::NarrowestMustContain => return best(all).filter(|one| containing.contains(one)),
            Choice::FirstNarrower => containing.iter().find(|one| narrower(one, first)),
            Choice::NarrowerThanBefore => {
                containing.windows(2).filter(|pair| narrower(&pair[1], &pair[0])).last().map(|pair| &pair[1])
            }
            _ => return best(containing),
        };
        Some(found.unwrap_or(first).clone())
    }

    /// The bucket's number with the mistake made; none where no bucket is named.
    pub fn number(self, p: &Plan, low: u32, high: u32) -> Option<u32> {
        let all = self.looked_at(p);
        let contains = |one: &&Placed| self.contains(&one.1, low as u128, high as u128);
        let containing: Vec<Placed> = all.iter().filter(contains).cloned().collect();
        let chosen = self.pick(&all, &containing)?;
        Some(match self {
            Choice::FromZero => chosen.0,
            Choice::AmongContaining => containing.iter().position(|one| *one == chosen)? as u32 + 1,
            _ => chosen.0 + 1,
        })
    }
}
