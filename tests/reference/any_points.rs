//! Random points of a plan, that keep the rules or break them.

use crate::any_plan::{any_horizon, plan_of_size};
use crate::damage::{allowance, bucket, close, cover, delay_or_horizon, order, threshold};
use crate::draft::Draft;
use crate::host::{plan_of, Plan};
use crate::plan::MOST_POINTS;
use crate::rng::Rng;
use crate::scenes::plan_past_counts;
use std::collections::BTreeSet;

const WHOLE_SHARE: u32 = 1_000_000;

/// From 1 to the horizon: anywhere, at its ends, next to another.
fn steps(rng: &mut Rng, count: usize, horizon: u32) -> Vec<u32> {
    let mut out = BTreeSet::new();
    while out.len() < count {
        let (any, sized) = (rng.range(1, horizon as u64) as u32, rng.scale(1, horizon as u64) as u32);
        let ends: Vec<u32> = out.iter().copied().chain([0]).collect();
        let next = (rng.pick(&ends) + 1).min(horizon);
        out.insert(rng.pick(&[1, horizon, any, any, sized, sized, next]));
    }
    out.into_iter().collect()
}

/// Of all sizes, some equal.
fn shares(rng: &mut Rng, count: usize) -> Vec<u32> {
    let same = rng.range(0, WHOLE_SHARE as u64) as u32;
    let one = |_| {
        let (any, sized) = (rng.range(0, WHOLE_SHARE as u64) as u32, rng.scale(1, WHOLE_SHARE as u64) as u32);
        rng.pick(&[0, WHOLE_SHARE, same, any, any, sized])
    };
    let mut out: Vec<u32> = (0..count).map(one).collect();
    out.sort();
    out
}

/// So many points that keep the rules, or as many as there are steps.
pub fn points_of_number(rng: &mut Rng, count: usize, horizon: u32) -> Vec<(u32, u32)> {
    let count = count.min(horizon as usize);
    steps(rng, count, horizon).into_iter().zip(shares(rng, count)).collect()
}

pub fn any_points(rng: &mut Rng, horizon: u32) -> Vec<(u32, u32)> {
    let any = rng.range(0, MOST_POINTS as u64) as usize;
    let count = rng.pick(&[1, 2, 2, MOST_POINTS, MOST_POINTS, any, any]);
    points_of_number(rng, count, horizon)
}

/// A pair of counted points, by the place of its second; none where there is no pair.
fn any_pair(rng: &mut Rng, p: &Plan) -> Option<usize> {
    let last = p.placed().checked_sub(1).filter(|last| *last > 0)?;
    let any = rng.range(1, last as u64) as usize;
    Some(rng.pick(&[any, any, any, last]))
}

fn spoil_count(rng: &mut Rng, p: &mut Plan) {
    for (j, (step, share)) in points_of_number(rng, MOST_POINTS, p.horizon.clamp(8, 50_000)).into_iter().enumerate() {
        (p.steps[j], p.shares[j]) = (step, share);
    }
    p.points = rng.pick(&[9, 9, 9, 10, 16, 17, 256, 257, 264, 1 << 31, u32::MAX - 1, u32::MAX, u32::MAX, u32::MAX]);
}

fn spoil_pair(rng: &mut Rng, p: &mut Plan) {
    let Some(j) = any_pair(rng, p) else { return };
    match rng.below(4) {
        0 => p.steps[j] = p.steps[j - 1],
        1 => p.steps.swap(j - 1, j),
        2 => p.shares[j] = p.shares[j - 1].saturating_sub(1),
        _ => p.shares.swap(j - 1, j),
    }
}

fn spoil_end(rng: &mut Rng, p: &mut Plan) {
    let Some(last) = p.placed().checked_sub(1) else { return };
    let past = p.horizon.wrapping_add(1);
    match rng.below(4) {
        0 => p.steps[0] = 0,
        1 => p.steps[last] = rng.pick(&[past, past, past, past.wrapping_add(1), 1 << 31, u32::MAX]),
        _ => p.shares[last] = rng.pick(&[1_000_001, 1_000_001, 1_000_002, 1 << 31, u32::MAX]),
    }
}

fn spoil_place(rng: &mut Rng, p: &mut Plan) {
    let Some(last) = p.placed().checked_sub(1) else { return };
    let j = rng.range(0, last as u64) as usize;
    let odd = [0, 1, p.horizon, p.horizon.wrapping_add(1), WHOLE_SHARE, WHOLE_SHARE + 1, u32::MAX, rng.next() as u32];
    let place = if rng.chance(1, 2) { &mut p.steps[j] } else { &mut p.shares[j] };
    *place = rng.pick(&odd);
}

/// Breaks rule 16, most times in one way.
pub fn spoil_points(rng: &mut Rng, p: &mut Plan) {
    match rng.below(8) {
        0 => spoil_count(rng, p),
        1..=4 => spoil_pair(rng, p),
        5..=6 => spoil_end(rng, p),
        _ => spoil_place(rng, p),
    }
}

/// Points that keep rule 16 or not, each of them alone or with other damage.
pub fn plan_with_points(rng: &mut Rng) -> Plan {
    let (any, horizon) = (rng.range(1, 10) as usize, any_horizon(rng));
    let k = rng.pick(&[1, 1, 2, 3, any]);
    let mut draft: Draft = plan_of_size(rng, k, 1, horizon);
    if rng.chance(9, 10) {
        draft.points = any_points(rng, horizon);
    }
    for _ in 0..rng.pick(&[0, 0, 0, 1, 1, 2]) {
        // Several times what seldom breaks its rule.
        let numbers = delay_or_horizon;
        let ways = [threshold, order, close, close, allowance, numbers, numbers, bucket, cover, cover, cover];
        rng.pick(&ways)(rng, &mut draft);
    }
    let mut plan = plan_of(&draft);
    if rng.chance(1, 2) {
        spoil_points(rng, &mut plan);
    }
    if rng.chance(5, 6) {
        plan_past_counts(rng, &mut plan);
    }
    match rng.below(24) {
        0 => plan.count = rng.pick(&[0, 11, u32::MAX]),
        1 => plan.buckets = rng.pick(&[0, 1, 17, u32::MAX]),
        _ => {}
    }
    plan
}
