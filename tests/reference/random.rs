//! Random runs of accepted plans, each from a seed and a place in the list.

use crate::any_plan::{any_horizon, any_plan, buckets};
use crate::case::{Case, Feed, PlanFile};
use crate::draft::{star_plan, two_buckets, Draft};
use crate::draws::{chosen, draws, near, render, steer, Style};
use crate::overlap::overlapping_run;
use crate::plan::{LARGEST_ALLOWANCE, LEAST_APART};
use crate::rng::Rng;
use crate::sequential::{program, Mark};

/// How many of each; the long ones first.
pub const HORIZON_RUNS: u64 = 6;
pub const LONGER_RUNS: u64 = 24;
pub const LONG_RUNS: u64 = 430;
pub const WIDE_RUNS: u64 = 60;
pub const CROSSED_RUNS: u64 = 300;
pub const ROUNDING_RUNS: u64 = 300;
pub const OVERLAP_RUNS: u64 = 400;
pub const SHORT_RUNS: u64 = 4300;
/// The place of the first of the crossed ones.
pub const CROSSED_FROM: u64 = HORIZON_RUNS + LONGER_RUNS + LONG_RUNS + WIDE_RUNS;
pub const RANDOM_RUNS: u64 = CROSSED_FROM + CROSSED_RUNS + ROUNDING_RUNS + OVERLAP_RUNS + SHORT_RUNS;

fn case(rng: &mut Rng, kind: &'static str, draft: &Draft, draws: &[bool]) -> Case {
    let input = render(rng, draws);
    let feed = match rng.below(60) {
        0 => Feed::Pieces,
        _ => Feed::Whole,
    };
    Case { kind, plan: PlanFile::of(draft), input, feed }
}

/// A run to a far horizon.
fn horizon_run(rng: &mut Rng, place: u64) -> Case {
    let mut draft = star_plan();
    let p = match place {
        0 => 0.0009,
        1 => 0.05,
        2 => {
            // One threshold near one half: wide after many steps.
            draft.thresholds = vec![(499_999, 1 << 36)];
            draft.buckets = two_buckets(499_999);
            0.5
        }
        3 => {
            draft.horizon = 30_000;
            draft.delay = 65_535;
            0.0101
        }
        4 => {
            draft.thresholds = vec![(1, 1 << 20), (999_999, 1 << 20)];
            draft.buckets = vec![(0, 1), (1, 999_999), (999_999, 1_000_000)];
            draft.horizon = 20_000;
            0.00005
        }
        _ => {
            draft.thresholds = vec![(250_000, LARGEST_ALLOWANCE), (750_000, 1 << 30)];
            draft.buckets = vec![(0, 250_000), (250_000, 750_000), (750_000, 1_000_000)];
            draft.horizon = 20_000;
            0.74
        }
    };
    let draws = steer(rng, &draft, 50_001, Style::Cling(p));
    case(rng, "horizon", &draft, &draws)
}

/// A run of more than a thousand draws, most times.
fn long_run(rng: &mut Rng, kind: &'static str, from: u64, to: u64) -> Case {
    let mut best: Option<(Draft, Vec<bool>)> = None;
    for _ in 0..20 {
        let horizon = if rng.chance(1, 3) { rng.range(from, to) } else { rng.range(to, 50_000) };
        let mut draft = any_plan(rng, 50_000, horizon as u32);
        // Thresholds far apart end early; keep one or two for most runs.
        if rng.chance(1, 2) {
            let at = rng.pick(&draft.thresholds);
            draft.thresholds = vec![at];
            let count = rng.range(2, 16) as usize;
            draft.buckets = buckets(rng, &draft.ends(), count, false);
        }
        let length = rng.range(from, to) as usize;
        let p = near(rng, &draft);
        let style = match rng.below(4) {
            0 => Style::Hug { upper: true, release: length as u64 },
            1 => Style::Hug { upper: false, release: length as u64 },
            _ => Style::Cling(p),
        };
        let mut draws = steer(rng, &draft, length, style);
        let enough = draws.len() > 1000;
        if best.as_ref().map_or(true, |b| b.1.len() < draws.len()) {
            if rng.chance(1, 4) {
                let p = rng.unit();
                draws.extend((0..300).map(|_| rng.unit() < p));
            }
            best = Some((draft, draws));
        }
        if enough {
            break;
        }
    }
    let (draft, draws) = best.expect("a run");
    case(rng, kind, &draft, &draws)
}

/// Allowances so small that a threshold goes wide.
fn wide_run(rng: &mut Rng) -> Case {
    let horizon = rng.pick(&[766, 767, 768, 769, 770, 2000, 50_000]);
    let mut draft = any_plan(rng, 1, horizon);
    for t in draft.thresholds.iter_mut() {
        t.1 = rng.pick(&[1, 1, 1, 2, 3]);
    }
    draft.delay = rng.pick(&[1, 2, 1000, 65_535]);
    let p = near(rng, &draft);
    let draws = steer(rng, &draft, 800, Style::Cling(p));
    case(rng, "wide", &draft, &draws)
}

/// An inner threshold with a large allowance, and a far one close above it with a small one. Every bucket that holds
/// p = 0 ends at the outer threshold below them, whose allowance of 1 never settles it.
fn crossing_draft(rng: &mut Rng) -> Draft {
    let outer = rng.range(1, 4_000);
    let inner = rng.range(40_000, 600_000);
    let least = LEAST_APART as u64;
    let any = rng.range(least, inner / 3);
    let far = inner + rng.pick(&[least, least + 1, any, any, any, any]);
    let free = rng.scale(1 << 37, LARGEST_ALLOWANCE);
    let firm = rng.scale(1 << 14, 1 << 30);
    let mut thresholds = vec![(outer as u32, 1), (inner as u32, free), (far as u32, firm)];
    let mut buckets = vec![(0, outer as u32), (outer as u32, 1_000_000)];
    if rng.chance(1, 2) {
        let more = rng.range(far + least, 999_999) as u32;
        thresholds.push((more, rng.scale(1, 1 << 20)));
        buckets.push((outer as u32, more));
        buckets.push((inner as u32, more));
    }
    rng.shuffle(&mut buckets);
    let delay = rng.scale(1, 300) as u32;
    Draft { thresholds, delay, horizon: rng.range(700, 50_000) as u32, buckets, points: Vec::new() }
}

/// The mirror image: the plan for 1 - p.
fn mirrored(draft: &Draft) -> Draft {
    let turn = |end: u32| 1_000_000 - end;
    Draft {
        thresholds: draft.thresholds.iter().rev().map(|t| (turn(t.0), t.1)).collect(),
        buckets: draft.buckets.iter().map(|b| (turn(b.1), turn(b.0))).collect(),
        points: draft.points.clone(),
        ..*draft
    }
}

/// Crossing: zeros until the inner threshold is at most; then ones until the far one is above. Or all of it mirrored.
pub fn crossing_run(rng: &mut Rng, points: &[(u32, u32)]) -> (Draft, Vec<bool>) {
    let upward = rng.chance(1, 2);
    let mut draft = Draft { points: points.to_vec(), ..crossing_draft(rng) };
    let mut inner = 1; // its place in the plan
    if upward {
        draft = mirrored(&draft);
        inner = draft.thresholds.len() - 2;
    }
    let noise = rng.pick(&[0, 0, 20]);
    let draws = chosen(&draft, draft.horizon as usize, |test| {
        let settled = test.marks[inner] != Mark::Open;
        (settled ^ upward) ^ (noise > 0 && rng.chance(1, noise))
    });
    (draft, draws)
}

fn crossed_run(rng: &mut Rng) -> Case {
    let (draft, draws) = crossing_run(rng, &[]);
    case(rng, "crossed", &draft, &draws)
}

/// So few units to spend that a unit more in some masses moves a boundary, and draws along it up to a step where they meet it.
fn rounding_run(rng: &mut Rng) -> Case {
    let at = rng.range(50_000, 950_000) as u32;
    let draft = Draft {
        thresholds: vec![(at, rng.scale(2000, 30_000))],
        delay: rng.scale(1, 30) as u32,
        horizon: 2000,
        buckets: two_buckets(at),
        points: Vec::new(),
    };
    let style = Style::Hug { upper: rng.chance(1, 2), release: rng.range(200, 500) };
    let draws = steer(rng, &draft, 600, style);
    case(rng, "rounding", &draft, &draws)
}

fn overlap_run(rng: &mut Rng) -> Case {
    let (draft, draws) = overlapping_run(rng);
    case(rng, "overlap", &draft, &draws)
}

fn short_run(rng: &mut Rng, place: u64) -> Case {
    let least = rng.pick(&[1, 1, 1000]);
    let length = if place % 5 == 0 { rng.scale(1, 700) } else { rng.scale(1, 160) };
    let horizon = any_horizon(rng);
    let draft = any_plan(rng, least, horizon);
    let draws = draws(rng, &draft, length as usize);
    let mut out = case(rng, "random", &draft, &draws);
    if rng.chance(1, 40) {
        let line = program(out.plan.bytes(), &out.input);
        if !line.starts_with("open") {
            out.feed = Feed::Held;
        }
    }
    out
}

pub fn random_case(seed: u64, place: u64) -> Case {
    let rng = &mut Rng::new(seed, 1_000_000 + place);
    let mut rest = place;
    let mut within = |count: u64| {
        let inside = rest < count;
        if !inside {
            rest -= count;
        }
        inside
    };
    if within(HORIZON_RUNS) {
        horizon_run(rng, rest)
    } else if within(LONGER_RUNS) {
        long_run(rng, "longer", 3000, 9000)
    } else if within(LONG_RUNS) {
        long_run(rng, "long", 1010, 2200)
    } else if within(WIDE_RUNS) {
        wide_run(rng)
    } else if within(CROSSED_RUNS) {
        crossed_run(rng)
    } else if within(ROUNDING_RUNS) {
        rounding_run(rng)
    } else if within(OVERLAP_RUNS) {
        overlap_run(rng)
    } else {
        short_run(rng, rest)
    }
}
