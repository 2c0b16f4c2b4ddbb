//! Random plans whose buckets overlap, and states that a draw is about to end.

use crate::any_plan::{any_plan, buckets};
use crate::boundary::Slip;
use crate::draft::{two_buckets, Draft};
use crate::draws::character;
use crate::host::{plan_of, Plan, Record, State, ABOVE, AT_MOST, OPEN};
use crate::plan::{LARGEST_ALLOWANCE, LEAST_APART, WHOLE};
use crate::rng::Rng;
use crate::scenes::{made_up_with, plan_past_counts, Scene};
use crate::sequential::program_with;

/// The most buckets of a plan.
const MOST: usize = 16;

/// All differences the same, so that buckets with other ends are equally wide.
fn space_evenly(rng: &mut Rng, draft: &mut Draft) {
    let k = draft.thresholds.len() as u32;
    let any = rng.scale(LEAST_APART as u64, 999_998 / k as u64) as u32;
    let step = rng.pick(&[1_000_000 / (k + 1), any]);
    let last = 999_999 - (k - 1) * step;
    let first = if rng.chance(1, 2) { step } else { rng.range(1, last as u64) as u32 };
    for (i, threshold) in draft.thresholds.iter_mut().enumerate() {
        threshold.0 = first + i as u32 * step;
    }
}

/// One of the buckets again, one within it, or one as many ends long a little further on.
fn alike(rng: &mut Rng, draft: &Draft) -> (u32, u32) {
    let ends = draft.ends();
    let (left, right) = rng.pick(&draft.buckets);
    let [from, to] = [left, right].map(|end| ends.iter().position(|e| *e == end).expect("an end") as u64);
    let (from, to) = match rng.below(3) {
        0 => (from, to),
        1 => {
            let inner = rng.range(from, to - 1);
            (inner, rng.range(inner + 1, to))
        }
        _ => {
            let further = rng.range(1, 2).min(ends.len() as u64 - 1 - to);
            (from + further, to + further)
        }
    };
    (ends[from as usize], ends[to as usize])
}

/// One bucket from each end, all as many ends long.
fn sliding(rng: &mut Rng, ends: &[u32]) -> Vec<(u32, u32)> {
    let long = rng.range(1, ends.len() as u64 - 2) as usize;
    ends.windows(long + 1).map(|run| (run[0], run[long])).collect()
}

/// Overlapping buckets, some twice, some nested and some equally wide, in any order.
pub fn overlapping_draft(rng: &mut Rng, horizon: u32) -> Draft {
    let mut draft = any_plan(rng, 1, horizon);
    if rng.chance(1, 2) {
        space_evenly(rng, &mut draft);
    }
    let count = rng.range(2, MOST as u64) as usize;
    let covering = rng.range(2, count as u64) as usize;
    draft.buckets = match rng.below(3) {
        0 => sliding(rng, &draft.ends()),
        1 => (0..count / 2).flat_map(|_| two_buckets(rng.pick(&draft.thresholds).0)).collect(),
        _ => buckets(rng, &draft.ends(), covering, true),
    };
    while draft.buckets.len() < count {
        let more = alike(rng, &draft);
        draft.buckets.push(more);
    }
    rng.shuffle(&mut draft.buckets);
    draft
}

/// The same, with few thresholds that settle, and these soon: the ends of an interval pass over the others, so that
/// several buckets come to contain it at once. And a chance of draws, at times between two of these thresholds.
fn soon_settled(rng: &mut Rng) -> (Draft, f64) {
    let horizon = rng.range(20, 300) as u32;
    let mut draft = overlapping_draft(rng, horizon);
    draft.delay = rng.range(1, 40) as u32;
    let k = draft.thresholds.len();
    let pair = rng.below(k as u64) as usize;
    let others = rng.pick(&[0, 0, 1, 3]);
    for (i, threshold) in draft.thresholds.iter_mut().enumerate() {
        let settles = i == pair || i == pair + 1 || rng.chance(others, 6);
        threshold.1 = if settles { rng.scale(1 << 39, LARGEST_ALLOWANCE) } else { 1 };
    }
    let between = (draft.thresholds[pair].0 + draft.thresholds[(pair + 1).min(k - 1)].0) as f64 / 2e6;
    let any = rng.unit();
    (draft, rng.pick(&[any, between]))
}

/// Such a plan and draws, most times with another bucket than the choice by the plan's order alone would name.
pub fn overlapping_run(rng: &mut Rng) -> (Draft, Vec<bool>) {
    let mut one = || {
        let (draft, p) = soon_settled(rng);
        let draws = (0..draft.horizon).map(|_| rng.unit() < p).collect();
        (draft, draws)
    };
    let another = |(draft, draws): &(Draft, Vec<bool>)| {
        let stored = draft.store();
        let input: Vec<u8> = draws.iter().map(|draw| character(*draw)).collect();
        let line = |slip: Slip| program_with(Some(&stored), &input, slip);
        line(Slip::None) != line(Slip::FirstInOrder)
    };
    let mut out = one();
    for _ in 0..10 {
        if another(&out) {
            break;
        }
        out = one();
    }
    out
}

/// The plan with anything past its counts, at times buckets that are as narrow as may be.
pub fn past_counts(rng: &mut Rng, draft: &Draft) -> Plan {
    let mut plan = plan_of(draft);
    plan_past_counts(rng, &mut plan);
    let ends = draft.ends();
    for place in draft.buckets.len()..MOST {
        let from = rng.below(ends.len() as u64 - 1) as usize;
        if rng.chance(1, 2) {
            (plan.left[place], plan.right[place]) = (ends[from], ends[from + 1]);
        }
    }
    plan
}

/// Marks as some p leaves them, more or less of them settled; or any, which often cross.
pub fn any_marks(rng: &mut Rng, k: u32) -> [u32; 10] {
    let below = rng.below(k as u64 + 1) as usize;
    let settled = rng.pick(&[2, 4, 6]);
    let any = rng.chance(1, 6);
    std::array::from_fn(|i| {
        let right = if i < below { ABOVE } else { AT_MOST };
        let mark = if any { rng.pick(&[ABOVE, AT_MOST]) } else { right };
        if rng.chance(settled, 6) { mark } else { OPEN }
    })
}

/// The state with other marks, all of one step; its records need not fit them.
pub fn marked(state: &State, marks: &[u32; 10], step: u32) -> State {
    let mut out = *state;
    for (record, mark) in out.records.iter_mut().zip(marks) {
        (record.mark, record.step) = (*mark, if *mark == OPEN { 0 } else { step });
    }
    out
}

/// An open record to be marked so by the next draw, whichever that is: all mass lies so far on one side of the ones
/// that the boundary on the other side comes to them.
fn about_to_be(mark: u32, ones: u32, rounded: u32, part: &mut [u64]) -> Record {
    let (lower, upper, held) = match mark {
        ABOVE => (ones as i32 - 3, ones + 1, 0),
        _ => (ones as i32 - 1, ones + 4, 3),
    };
    part.fill(0);
    part[held] = WHOLE as u64;
    Record { mark: OPEN, step: 0, lower, upper, over: 0, under: 0, rounded }
}

/// A sound state with such marks, some of them or all still to come with the next draw.
pub fn before_marks(rng: &mut Rng, plan: Plan, marks: &[u32; 10]) -> Scene {
    let mut scene = made_up_with(rng, plan, marks);
    let State { n, ones, .. } = scene.state;
    let to_come = rng.pick(&[1, 2, 3, 3, 3]);
    for i in 0..plan.count as usize {
        let possible = match marks[i] {
            OPEN => false,
            ABOVE => ones >= 2,
            _ => ones + 3 <= n,
        };
        if possible && rng.chance(to_come, 3) {
            let rounded = scene.state.records[i].rounded;
            scene.state.records[i] = about_to_be(marks[i], ones, rounded, scene.part(i));
        }
    }
    scene
}
