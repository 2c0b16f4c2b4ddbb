//! What is held of spending by points without the library: the reference's three ways to it, the rules' example, and
//! the bounds on chances.

use crate::any_points::points_of_number;
use crate::boundary::{By, Limit, Literal, Slip};
use crate::chances::hold;
use crate::draft::{plan_f, two_buckets, Draft};
use crate::host::plan_of;
use crate::judge;
use crate::plan::{LARGEST_ALLOWANCE, MILLION, MOST_POINTS, WHOLE};
use crate::rng::Rng;
use crate::sequential::{Answer, Test};
use crate::tally::{named, Counts};
use crate::weights::Weights;

pub fn by_points(points: &[(u32, u32)]) -> By {
    By::from(&Draft { points: points.to_vec(), ..plan_f() }.plan())
}

// ---- the example

pub fn example_plan() -> Draft {
    Draft {
        thresholds: vec![(100_000, LARGEST_ALLOWANCE)],
        delay: 1000,
        horizon: 10,
        buckets: two_buckets(100_000),
        points: vec![(1, 100_000), (2, 400_000)],
    }
}

pub const EXAMPLE_SPENDING: [u128; 4] = [0, 219_902_325_555, 879_609_302_220, 879_609_302_220];
/// (upper, lower) of steps 1 to 4, and the upper spent mass after step 2.
pub const EXAMPLE_BOUNDARIES: [(i64, i64); 4] = [(2, -1), (1, -1), (2, -1), (2, -1)];
pub const EXAMPLE_SPENT: u128 = 835_628_837_112;

/// Draws, and what they end with.
pub const EXAMPLE_LINES: [(&str, &str); 5] = [
    ("1", "open 0 1 1 0 1000000\n"),
    ("10", "decided 2 2 1 100000 1000000\n"),
    ("01", "decided 2 2 1 100000 1000000\n"),
    ("00", "open 0 2 0 0 1000000\n"),
    ("0000000000", "spent 0 10 0 0 1000000\n"),
];

fn example(out: &mut Vec<(String, bool)>) {
    let draft = example_plan();
    let (plan, allowance) = (draft.plan(), LARGEST_ALLOWANCE as u128);
    let spending = |n: u128| By::from(&plan).spending(allowance, n);
    out.push(("the example's spending".into(), [0, 1, 2, 3].map(spending) == EXAMPLE_SPENDING));
    let mut walk = Literal::begin(100_000, allowance, By::from(&plan));
    for (step, boundaries) in EXAMPLE_BOUNDARIES.into_iter().enumerate() {
        walk.advance();
        out.push((format!("the example's boundaries {}", step + 1), (walk.upper, walk.lower) == boundaries));
        out.push(("the example's spent mass".into(), step != 1 || walk.spent_above == EXAMPLE_SPENT));
    }
    for (draws, line) in EXAMPLE_LINES {
        let mut test = Test::begin(&plan, Slip::None);
        let taken = draws.bytes().all(|draw| test.take((draw == b'1') as u64).is_ok());
        out.push((format!("the example's draws {draws}"), taken && test.line() == line));
    }
    let open = Test::begin(&plan, Slip::None).answer();
    out.push(("the example is accepted".into(), plan.refusal().is_none() && open == Answer::Open));
}

// ---- three ways

const PLANS: u64 = 400;

/// The last of the points by its sentence, by a search, and kept from step to step: the same at every step, never
/// falling, within the allowance, and the largest whole number that is not too much.
fn ways_agree(rng: &mut Rng) -> bool {
    let horizon = if rng.chance(1, 50) { 50_000 } else { rng.scale(1, 400) as u32 };
    let count = rng.range(1, MOST_POINTS as u64) as usize;
    let points = points_of_number(rng, count, horizon);
    let allowance = rng.scale(1, LARGEST_ALLOWANCE);
    let draft = Draft { thresholds: vec![(50_000, allowance)], horizon, points, ..plan_f() };
    let (held, by) = (plan_of(&draft), By::from(&draft.plan()));
    let mut limit = Limit::begin(allowance as u128, by.clone());
    let mut before = 0;
    let step_agrees = |n: u32| {
        if n > 0 {
            limit.advance();
        }
        let now = judge::spending(&held, 0, n);
        let share = draft.points.iter().filter(|(step, _)| *step <= n).map(|(_, share)| *share).max().unwrap_or(0);
        let whole = allowance as u128 * share as u128;
        let fits = now * MILLION <= whole && whole < (now + 1) * MILLION;
        let good = now == limit.now && now == by.spending(allowance as u128, n as u128);
        let rises = before <= now && now <= allowance as u128;
        before = now;
        good && rises && fits
    };
    (0..=horizon).all(step_agrees) && draft.plan().refusal().is_none()
}

// ---- chances

const CHANCES: u64 = 120;
const STEPS: u64 = 60;
/// At how many steps each row must come up.
const NEEDED: u64 = 10;

/// Each point with the share of the next one.
fn too_early(points: &[(u32, u32)]) -> Vec<(u32, u32)> {
    let shares = points.iter().skip(1).chain(points.last()).map(|(_, share)| *share);
    points.iter().map(|(step, _)| *step).zip(shares).collect()
}

/// Steps of a walk by other points at which more than E(n) is met, and of the walk itself: those at which the upper
/// boundary has dropped, by one or by more, and at which something is spent on a side.
fn note_steps(counts: &mut Counts<&'static str>, (at, allowance): (u64, u64), points: &[(u32, u32)]) {
    let by = by_points(points);
    let begin = |points: &[(u32, u32)]| Literal::begin(at as u128, allowance as u128, by_points(points));
    let (mut walk, mut early) = (begin(points), begin(&too_early(points)));
    let mut weights = Weights::begin(at, MILLION as u64);
    for n in 1..=STEPS {
        let before = walk.upper;
        walk.advance();
        early.advance();
        weights.advance();
        weights.settle(early.upper, early.lower);
        let limit = weights.whole.times(by.spending(allowance as u128, n as u128) as u64);
        let within = [&weights.above, &weights.below].iter().all(|met| met.times(WHOLE as u64).at_most(&limit));
        let rows = [
            ("the bound broken by the share of the next point", !within),
            ("upper boundary dropped by one", walk.upper == before - 1),
            ("upper boundary dropped by more", walk.upper < before - 1),
            ("upper mass spent", walk.spent_above > 0),
            ("lower mass spent", walk.spent_below > 0),
            ("before the first point", n < points[0].0 as u64),
        ];
        rows.into_iter().for_each(|(row, so)| *counts.entry(row).or_default() += so as u64);
    }
}

fn chances(out: &mut Vec<(String, bool)>, seed: u64) {
    let mut counts = Counts::new();
    for round in 0..CHANCES {
        let rng = &mut Rng::new(seed, 89_000 + round);
        let any = rng.range(1, 999_999);
        let at = rng.pick(&[any, any, 50_000, 100_000, 400_000, 900_000]);
        let (large, sized) = (rng.range(1 << 36, LARGEST_ALLOWANCE), rng.scale(1, LARGEST_ALLOWANCE));
        let allowance = rng.pick(&[LARGEST_ALLOWANCE, large, large, sized]);
        let count = rng.range(1, MOST_POINTS as u64) as usize;
        let points = points_of_number(rng, count, STEPS as u32);
        let good = hold(&mut Counts::new(), (at, allowance), &by_points(&points), STEPS);
        out.push((format!("chances for {at}, {allowance}, {points:?}"), good));
        note_steps(&mut counts, (at, allowance), &points);
    }
    println!("chances of {CHANCES} plans, {STEPS} steps each: {}", named(&counts));
    out.extend(counts.into_iter().map(|(row, count)| (format!("often, {row}: {count}"), count >= NEEDED)));
}

/// Checks by name.
pub fn checks(seed: u64) -> Vec<(String, bool)> {
    let mut out = Vec::new();
    example(&mut out);
    let agree = (0..PLANS).all(|place| ways_agree(&mut Rng::new(seed, 49_000_000 + place)));
    out.push((format!("three ways of spending agree, {PLANS} plans"), agree));
    chances(&mut out, seed);
    out
}
