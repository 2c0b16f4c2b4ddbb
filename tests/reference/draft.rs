//! A plan before it is stored, and the plans that several checks use.

use crate::plan::{Bucket, Plan, Point, Threshold, LARGEST_ALLOWANCE};

/// A plan before it is stored; nothing in it need keep the rules.
#[derive(Clone, Debug)]
pub struct Draft {
    pub thresholds: Vec<(u32, u64)>,
    pub delay: u32,
    pub horizon: u32,
    pub buckets: Vec<(u32, u32)>,
    /// Steps and shares.
    pub points: Vec<(u32, u32)>,
}

impl Draft {
    /// The plan itself, its rules not judged.
    pub fn plan(&self) -> Plan {
        let threshold = |(at, allowance): &(u32, u64)| Threshold { at: *at as u128, allowance: *allowance as u128 };
        let bucket = |(left, right): &(u32, u32)| Bucket { left: *left as u128, right: *right as u128 };
        let point = |(step, share): &(u32, u32)| Point { step: *step as u128, share: *share as u128 };
        Plan {
            thresholds: self.thresholds.iter().map(threshold).collect(),
            buckets: self.buckets.iter().map(bucket).collect(),
            delay: self.delay as u128,
            horizon: self.horizon as u128,
            points: self.points.iter().map(point).collect(),
        }
    }

    /// The stored form, which has no place for points.
    pub fn store(&self) -> Vec<u8> {
        let k = self.thresholds.len();
        let mut out = Vec::new();
        for half in [k, self.buckets.len(), 16, 16 + 12 * k] {
            out.extend((half as u16).to_le_bytes());
        }
        out.extend(self.delay.to_le_bytes());
        out.extend(self.horizon.to_le_bytes());
        for (at, allowance) in &self.thresholds {
            out.extend(at.to_le_bytes());
            out.extend(allowance.to_le_bytes());
        }
        for (left, right) in &self.buckets {
            out.extend(left.to_le_bytes());
            out.extend(right.to_le_bytes());
        }
        out
    }

    pub fn ends(&self) -> Vec<u32> {
        let mut ends = vec![0];
        ends.extend(self.thresholds.iter().map(|t| t.0));
        ends.push(1_000_000);
        ends
    }
}

/// Up to a threshold, and above it.
pub fn two_buckets(at: u32) -> Vec<(u32, u32)> {
    vec![(0, at), (at, 1_000_000)]
}

pub fn plan_f() -> Draft {
    let (thresholds, buckets) = (vec![(50_000, 4_398_046_511)], two_buckets(50_000));
    Draft { thresholds, delay: 1000, horizon: 200, buckets, points: Vec::new() }
}

/// Two thresholds, each with as large an allowance as there is.
pub fn plan_g() -> Draft {
    Draft {
        thresholds: vec![(100_000, LARGEST_ALLOWANCE), (400_000, LARGEST_ALLOWANCE)],
        delay: 1,
        horizon: 200,
        buckets: vec![(0, 100_000), (100_000, 400_000), (400_000, 1_000_000)],
        points: Vec::new(),
    }
}

pub const STAR_THRESHOLDS: [u32; 9] = [500, 1000, 2000, 8000, 10_000, 12_000, 45_000, 50_000, 55_000];
pub const STAR_BUCKETS: [(u32, u32); 7] = [
    (0, 1000),
    (1000, 10_000),
    (10_000, 50_000),
    (50_000, 1_000_000),
    (500, 2000),
    (8000, 12_000),
    (45_000, 55_000),
];
pub const STAR_ALLOWANCE: u64 = 488_671_834;
pub const STAR_DELAY: u32 = 1000;

pub fn star_plan() -> Draft {
    Draft {
        thresholds: STAR_THRESHOLDS.iter().map(|a| (*a, STAR_ALLOWANCE)).collect(),
        delay: STAR_DELAY,
        horizon: 50_000,
        buckets: STAR_BUCKETS.to_vec(),
        points: Vec::new(),
    }
}

/// With one of its thresholds.
pub fn star_of(at: u32) -> Draft {
    Draft { thresholds: vec![(at, STAR_ALLOWANCE)], buckets: two_buckets(at), ..star_plan() }
}
