//! Random plans that keep the rules.

use crate::draft::{two_buckets, Draft};
use crate::plan::{LARGEST_ALLOWANCE, LEAST_APART};
use crate::rng::Rng;

/// As close as the rules permit, or nearly: all differences the same, or some a little larger.
fn close_together(rng: &mut Rng, count: usize) -> Vec<u32> {
    let least = LEAST_APART as u64;
    let step = rng.pick(&[least, least, least + 1]);
    let even = rng.chance(2, 3);
    let mut steps = vec![0];
    for _ in 1..count {
        let more = rng.range(step, step + 60);
        steps.push(if even { step } else { rng.pick(&[step, step, step + 1, more]) });
    }
    let last = 999_999 - steps.iter().sum::<u64>();
    let any = rng.range(1, last);
    let mut at = rng.pick(&[1, last, any, any]);
    let rise = |step: &u64| {
        at += step;
        at as u32
    };
    steps.iter().map(rise).collect()
}

fn thresholds(rng: &mut Rng, count: usize) -> Vec<u32> {
    let style = rng.below(6);
    if style == 4 {
        return close_together(rng, count);
    }
    let mut out: Vec<u32> = Vec::new();
    let fits = |at: u32, out: &[u32]| at <= 999_999 && out.iter().all(|other| at.abs_diff(*other) >= LEAST_APART);
    while out.len() < count {
        let at = match style {
            // Just above another.
            _ if !out.is_empty() && rng.chance(1, 12) => (rng.pick(&out) + LEAST_APART) as u64 + rng.below(2),
            0 | 1 => rng.range(1, 999_999),
            2 => rng.scale(1, 999_999),
            3 => 1_000_000 - rng.scale(1, 999_999),
            _ => rng.pick(&[1, 101, 500, 1000, 10_000, 50_000, 100_000, 400_000, 500_000, 900_000, 999_899, 999_999]),
        };
        if fits(at as u32, &out) {
            out.push(at as u32);
        } else if rng.chance(1, 4) {
            let other = rng.range(1, 999_999) as u32;
            if fits(other, &out) {
                out.push(other);
            }
        }
    }
    out.sort();
    out
}

fn allowances(rng: &mut Rng, count: usize, least: u64) -> Vec<u64> {
    let style = rng.below(6);
    let same = rng.scale(least, LARGEST_ALLOWANCE);
    let one = |rng: &mut Rng| match style {
        0 | 1 => rng.scale(least, LARGEST_ALLOWANCE),
        2 => same,
        3 => rng.scale(least, (least * 1000).min(LARGEST_ALLOWANCE)),
        4 => rng.range(LARGEST_ALLOWANCE / 2, LARGEST_ALLOWANCE),
        _ => rng.pick(&[least, least + 1, 4_398_046_511, 488_671_834, LARGEST_ALLOWANCE - 1, LARGEST_ALLOWANCE]),
    };
    (0..count).map(|_| one(rng)).collect()
}

/// Buckets that cover 0 to 1, from the given ends, in any order, overlap as it comes.
pub fn buckets(rng: &mut Rng, ends: &[u32], count: usize, overlap: bool) -> Vec<(u32, u32)> {
    let last = ends.len() - 1;
    let mut out = Vec::new();
    for _ in 0..60 {
        out.clear();
        let mut reached = 0;
        while reached < last {
            let left = if overlap && rng.chance(1, 3) { rng.below(reached as u64 + 1) as usize } else { reached };
            let right = rng.range(reached as u64 + 1, last as u64) as usize;
            if (left, right) != (0, last) {
                out.push((ends[left], ends[right]));
                reached = right;
            }
        }
        if out.len() <= count {
            break;
        }
    }
    if out.len() > count {
        out = two_buckets(ends[rng.range(1, last as u64 - 1) as usize]);
    }
    while out.len() < count {
        let left = rng.below(last as u64) as usize;
        let right = rng.range(left as u64 + 1, last as u64) as usize;
        let narrow = overlap || rng.chance(1, 2);
        if (left, right) != (0, last) && narrow {
            out.push((ends[left], ends[right]));
        } else {
            let again = rng.pick(&out);
            out.push(again);
        }
    }
    rng.shuffle(&mut out);
    out
}

pub fn any_horizon(rng: &mut Rng) -> u32 {
    let most = if rng.chance(1, 3) { 300 } else { 50_000 };
    rng.scale(1, most) as u32
}

pub fn any_plan(rng: &mut Rng, least_allowance: u64, horizon: u32) -> Draft {
    let k = rng.range(1, 10) as usize;
    plan_of_size(rng, k, least_allowance, horizon)
}

/// With so many thresholds.
pub fn plan_of_size(rng: &mut Rng, k: usize, least_allowance: u64, horizon: u32) -> Draft {
    let b = rng.range(2, 16) as usize;
    let mut draft = Draft {
        thresholds: Vec::new(),
        delay: rng.scale(1, 65_535) as u32,
        horizon,
        buckets: Vec::new(),
        points: Vec::new(),
    };
    let allowances = allowances(rng, k, least_allowance);
    draft.thresholds = thresholds(rng, k).into_iter().zip(allowances).collect();
    let overlap = rng.chance(2, 3);
    draft.buckets = buckets(rng, &draft.ends(), b, overlap);
    draft
}
