//! The bounds on spent mass by masses rounded, beside the exact weight of the strings that met each boundary; and wrong
//! numbers of masses rounded, each of which must break one of them.

use crate::big::Big;
use crate::boundary::{By, Literal, WIDE};
use crate::plan::{LARGEST_ALLOWANCE, MILLION, WHOLE};
use crate::rng::Rng;
use crate::tally::{named, Counts};
use crate::weights::Weights;

const ROUNDS: u64 = 12;
const STEPS: u64 = 120;

/// Thresholds, allowances and delays: of the first, several masses are spent at once in few steps, so that those kept
/// are fewer than what rounding has added; of the second, all that is spent was added by rounding before.
const CHOSEN: [(u64, u64, u64); 2] = [(62_500, LARGEST_ALLOWANCE, 2), (500_000, 25, 1)];

/// At how many steps each wrong number must break its bound.
const SHOWN: u64 = 5;

/// The counts whose masses a step rounded, the highest count that got one, and the boundaries after it.
struct Step {
    rounded: Vec<i64>,
    highest: i64,
    upper: i64,
    lower: i64,
}

impl Step {
    fn of(walk: &mut Literal) -> Step {
        let (rounded, highest) = (walk.counts_rounded(&walk.spread()), walk.upper);
        walk.advance();
        Step { rounded, highest, upper: walk.upper, lower: walk.lower }
    }

    fn all(&self) -> u64 {
        self.rounded.len() as u64
    }

    fn kept(&self) -> u64 {
        self.rounded.iter().filter(|s| self.lower < **s && **s < self.upper).count() as u64
    }
}

#[derive(Clone, Copy)]
enum Bound {
    /// Of either side: its spent mass is at most the exact weight and masses rounded.
    Side,
    /// Live and both spent masses are at most the whole and masses rounded.
    Sum,
}

/// Wrong numbers, each with the bound that it must break, and what a step makes of the one before. Those that a side's
/// bound does not show leave out no more than what is live yet, or went to the other side.
const WRONG: [(&str, Bound, fn(u64, &Step) -> u64); 5] = [
    ("of the last step", Bound::Side, |_, step| step.all()),
    ("beyond a boundary", Bound::Side, |before, step| before + step.all() - step.kept()),
    ("kept", Bound::Sum, |before, step| before + step.kept()),
    ("one a step", Bound::Sum, |before, step| before + step.all().min(1)),
    ("at the highest count", Bound::Sum, |before, step| before + step.rounded.contains(&step.highest) as u64),
];

/// Do the bounds hold at every step? Counts the steps at which a wrong number breaks its own.
pub fn hold(shown: &mut Counts<&'static str>, (at, allowance): (u64, u64), by: &By, steps: u64) -> bool {
    let mut walk = Literal::begin(at as u128, allowance as u128, by.clone());
    let mut weights = Weights::begin(at, MILLION as u64);
    let mut wrong = [0; WRONG.len()];
    let mut good = true;
    for n in 1..=steps {
        let step = Step::of(&mut walk);
        weights.advance();
        weights.settle(walk.upper, walk.lower);
        let limit = weights.whole.times(by.spending(allowance as u128, n as u128) as u64);
        let scaled = |(met, spent): (&Big, u128)| (met.times(WHOLE as u64), weights.whole.times(spent as u64));
        let sides = [(&weights.above, walk.spent_above), (&weights.below, walk.spent_below)].map(scaled);
        let sum = walk.mass.values().sum::<u128>() + walk.spent_above + walk.spent_below;
        let within = |bound: Bound, rounded: u64| match bound {
            Bound::Side => sides.iter().all(|(met, spent)| spent.at_most(&met.plus(&weights.whole.times(rounded)))),
            Bound::Sum => sum <= WHOLE + rounded as u128,
        };
        good &= sides.iter().all(|(met, spent)| met.at_most(&limit) && met.at_most(spent) && spent.at_most(&limit))
            && within(Bound::Side, walk.rounded)
            && within(Bound::Sum, walk.rounded)
            && walk.rounded <= WIDE as u64 * n;
        for ((name, bound, next), rounded) in WRONG.into_iter().zip(&mut wrong) {
            *rounded = next(*rounded, &step);
            *shown.entry(name).or_default() += !within(bound, *rounded) as u64;
        }
    }
    good
}

/// Checks by name.
pub fn checks(seed: u64) -> Vec<(String, bool)> {
    let any = |round| {
        let rng = &mut Rng::new(seed, 88_000 + round);
        (rng.range(1, 999_999), rng.scale(1, LARGEST_ALLOWANCE), rng.scale(1, 3000))
    };
    let mut shown = Counts::new();
    let mut out = Vec::new();
    for plan in (0..ROUNDS).map(any).chain(CHOSEN) {
        let (at, allowance, delay) = plan;
        let good = hold(&mut shown, (at, allowance), &By::Delay(delay as u128), STEPS);
        out.push((format!("chances for threshold, allowance, delay {plan:?}"), good));
    }
    println!("bounds broken by masses rounded in place of all: {}", named(&shown));
    let enough = |(name, count): (&str, u64)| (format!("masses rounded {name} break a bound"), count >= SHOWN);
    out.extend(shown.into_iter().map(enough));
    out
}
