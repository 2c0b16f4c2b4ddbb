//! The boundaries of one threshold.
//!
//! `Literal` is the definition: a map from count to mass, and the boundaries searched over
//! their whole printed ranges. `Quick` gives the same by sums up to each count and a search
//! by halves; it is held to `Literal` by the self-check and at the start of every compared run.
//! Of points `Literal` has the rules' sentence, and `Quick` changes what may be spent when it comes to one.

use crate::plan::{Plan, Point, MILLION, WHOLE};
use std::collections::BTreeMap;

/// A walk with so many live counts is wide.
pub const WIDE: i64 = 769;

/// Allowance spent by step n.
pub fn spending(allowance: u128, delay: u128, n: u128) -> u128 {
    if n == 0 {
        0
    } else {
        allowance * n / (n + delay)
    }
}

/// By what the allowance is spent.
#[derive(Clone, Debug)]
pub enum By {
    Delay(u128),
    /// One point or more.
    Points(Vec<Point>),
}

impl From<u128> for By {
    fn from(delay: u128) -> By {
        By::Delay(delay)
    }
}

impl From<&Plan> for By {
    fn from(plan: &Plan) -> By {
        match plan.points.is_empty() {
            true => By::Delay(plan.delay),
            false => By::Points(plan.points.clone()),
        }
    }
}

/// The last point at or before n: no other one at or before n has a later step.
fn last_by(points: &[Point], n: u128) -> Option<&Point> {
    let by = |point: &&Point| point.step <= n;
    points.iter().filter(by).find(|last| points.iter().filter(by).all(|other| other.step <= last.step))
}

impl By {
    /// Allowance spent by step n.
    pub fn spending(&self, allowance: u128, n: u128) -> u128 {
        match self {
            By::Delay(delay) => spending(allowance, *delay, n),
            By::Points(points) => last_by(points, n).map_or(0, |last| allowance * last.share / MILLION),
        }
    }
}

/// What may be spent, from step to step.
#[derive(Clone)]
pub struct Limit {
    allowance: u128,
    by: By,
    step: u128,
    pub now: u128,
}

impl Limit {
    pub fn begin(allowance: u128, by: impl Into<By>) -> Limit {
        Limit { allowance, by: by.into(), step: 0, now: 0 }
    }

    /// To the next step: at a point its share, and between points what it was.
    pub fn advance(&mut self) {
        self.step += 1;
        match &self.by {
            By::Delay(delay) => self.now = self.allowance * self.step / (self.step + delay),
            By::Points(points) => {
                if let Some(here) = points.iter().find(|point| point.step == self.step) {
                    self.now = self.allowance * here.share / MILLION;
                }
            }
        }
    }
}

fn rounded_up(over: u128) -> u128 {
    let whole = over / MILLION;
    if whole * MILLION < over {
        whole + 1
    } else {
        whole
    }
}

#[derive(Clone)]
pub struct Literal {
    at: u128,
    allowance: u128,
    by: By,
    pub step: i64,
    pub upper: i64,
    pub lower: i64,
    pub mass: BTreeMap<i64, u128>,
    pub spent_above: u128,
    pub spent_below: u128,
    /// Masses rounded so far.
    pub rounded: u64,
}

impl Literal {
    pub fn begin(at: u128, allowance: u128, by: impl Into<By>) -> Literal {
        Literal {
            at,
            allowance,
            by: by.into(),
            step: 0,
            upper: 1,
            lower: -1,
            mass: BTreeMap::from([(0, WHOLE)]),
            spent_above: 0,
            spent_below: 0,
            rounded: 0,
        }
    }

    /// What rule 1 divides by a million, from the map of live counts.
    fn sum(&self, s: i64) -> u128 {
        let old = |s: i64| self.mass.get(&s).copied().unwrap_or(0);
        old(s) * (MILLION - self.at) + old(s - 1) * self.at
    }

    /// The new masses of rule 1.
    pub fn spread(&self) -> BTreeMap<i64, u128> {
        (self.lower + 1..=self.upper).map(|s| (s, rounded_up(self.sum(s)))).collect()
    }

    /// Of new masses, the counts at which they are over their share of the sum.
    pub fn counts_rounded(&self, new: &BTreeMap<i64, u128>) -> Vec<i64> {
        new.iter().filter(|(s, m)| **m * MILLION > self.sum(**s)).map(|(s, _)| *s).collect()
    }

    pub fn advance(&mut self) {
        let new = self.spread();
        self.rounded += self.counts_rounded(&new).len() as u64;
        self.step += 1;
        let limit = self.by.spending(self.allowance, self.step as u128);
        let t = self.step;
        let from = |j: i64| new.range(j..).map(|(_, m)| m).sum::<u128>();
        let to = |j: i64| new.range(..=j).map(|(_, m)| m).sum::<u128>();
        self.upper = (1..=t + 1)
            .filter(|j| from(*j) + self.spent_above <= limit)
            .min()
            .expect("an upper boundary");
        self.lower = (-1..=t)
            .filter(|j| to(*j) + self.spent_below <= limit)
            .max()
            .expect("a lower boundary");
        self.mass.clear();
        for (s, m) in new {
            if s >= self.upper {
                self.spent_above += m;
            } else if s <= self.lower {
                self.spent_below += m;
            } else {
                self.mass.insert(s, m);
            }
        }
    }
}

/// Mistakes that a comparison must be able to show; `None` is the rule.
#[derive(Clone, Copy, Debug, PartialEq)]
pub enum Slip {
    None,
    RoundDown,
    RoundNearest,
    RoundApart,
    MassGoesOn,
    StaleBoundary,
    CrossedDecided,
    /// Of the buckets that contain the interval another: the first in the plan's order, the widest, or the last of
    /// equally narrow ones.
    FirstInOrder,
    Widest,
    LastOfNarrowest,
}

/// `Quick` counts masses in 64 bits, which is faster; the build checks them for overflow.
const NARROW: u64 = MILLION as u64;

#[inline(always)]
fn slipped(slip: Slip, stay: u64, rise: u64) -> u64 {
    let up = |over: u64| over.div_ceil(NARROW);
    match slip {
        Slip::RoundDown => (stay + rise) / NARROW,
        Slip::RoundNearest => (stay + rise + NARROW / 2) / NARROW,
        Slip::RoundApart => up(stay) + up(rise),
        _ => up(stay + rise),
    }
}

/// A mass, and by how much it is over the sum rounded down: without a slip, 1 where it was rounded.
#[inline(always)]
fn cell(slip: Slip, stay: u64, rise: u64) -> (u64, u64) {
    let mass = slipped(slip, stay, rise);
    (mass, mass - (stay + rise) / NARROW)
}

/// The least j of a range from which on a test holds, or the one after the range.
fn least(from: i64, to: i64, holds: impl Fn(i64) -> bool) -> i64 {
    let (mut low, mut high) = (from, to + 1);
    while low < high {
        let middle = low + (high - low) / 2;
        if holds(middle) {
            high = middle;
        } else {
            low = middle + 1;
        }
    }
    low
}

#[derive(Clone)]
pub struct Quick {
    at: u64,
    limit: Limit,
    slip: Slip,
    pub step: i64,
    pub upper: i64,
    pub lower: i64,
    /// The masses from the count `first` on; there are none elsewhere.
    first: i64,
    mass: Vec<u64>,
    pub spent_above: u128,
    pub spent_below: u128,
    pub rounded: u64,
}

impl Quick {
    pub fn begin(at: u128, allowance: u128, by: impl Into<By>, slip: Slip) -> Quick {
        Quick {
            at: at as u64,
            limit: Limit::begin(allowance, by),
            slip,
            step: 0,
            upper: 1,
            lower: -1,
            first: 0,
            mass: vec![WHOLE as u64],
            spent_above: 0,
            spent_below: 0,
            rounded: 0,
        }
    }

    pub fn mass(&self, count: i64) -> u128 {
        match usize::try_from(count - self.first) {
            Ok(place) => self.mass.get(place).copied().unwrap_or(0) as u128,
            Err(_) => 0,
        }
    }

    /// The new masses from the count `first` on, and how many of them were rounded.
    fn spread(&self) -> (Vec<u64>, u64) {
        let mut new = Vec::with_capacity(self.mass.len() + 1);
        let (mut before, mut rounded) = (0, 0);
        for here in &self.mass {
            let (mass, more) = cell(self.slip, here * (NARROW - self.at), before * self.at);
            new.push(mass);
            rounded += more;
            before = *here;
        }
        let (mass, more) = cell(self.slip, 0, before * self.at);
        new.push(mass);
        (new, rounded + more)
    }

    pub fn advance(&mut self) {
        self.step += 1;
        let t = self.step;
        self.limit.advance();
        let limit = self.limit.now;
        let first = self.first;
        let (new, rounded) = self.spread();
        self.rounded += rounded;
        let mut sums = Vec::with_capacity(new.len() + 1);
        let mut sum = 0;
        sums.push(sum);
        for mass in &new {
            sum += *mass;
            sums.push(sum);
        }
        let under = |j: i64| sums[(j - first).clamp(0, new.len() as i64) as usize] as u128;
        let from = |j: i64| sum as u128 - under(j);
        // As j rises, the masses from j on fall and those up to j rise.
        self.upper = least(1, t + 1, |j| from(j) + self.spent_above <= limit);
        self.lower = least(-1, t, |j| under(j + 1) + self.spent_below > limit) - 1;
        if self.slip == Slip::MassGoesOn {
            self.mass = new;
            return;
        }
        self.spent_above += from(self.upper);
        self.spent_below += under(self.lower + 1);
        self.first = self.lower + 1;
        self.mass = new[(self.first - first) as usize..(self.upper - first) as usize].to_vec();
    }

    /// The same boundaries, masses, spent masses and masses rounded?
    pub fn agrees(&self, other: &Literal) -> bool {
        self.step == other.step
            && self.upper == other.upper
            && self.lower == other.lower
            && self.spent_above == other.spent_above
            && self.spent_below == other.spent_below
            && self.rounded == other.rounded
            && (0..=self.step).all(|s| self.mass(s) == other.mass.get(&s).copied().unwrap_or(0))
    }
}
