//! Mistakes in what may be spent by points, which the comparisons must notice.

use crate::host::Plan;
use crate::plan::MILLION;

#[derive(Clone, Copy, Debug, PartialEq, Eq, PartialOrd, Ord)]
pub enum Misspent {
    /// Another point than the last at or before n.
    FirstAtOrAfter,
    FirstAtOrBefore,
    LastStrictlyBefore,
    PointAfter,
    PointBefore,
    /// The share at n on a straight line from point to point.
    Between,
    /// Points that are not counted.
    PastCount,
    EighthUnread,
    /// By the delay: before the first point, at all steps, or where that allows more.
    FormulaBefore,
    FormulaAlways,
    FormulaWhereMore,
    RoundedUp,
    RoundedToNearest,
    /// Rounded before it is multiplied.
    RoundedFirst,
}

pub const MISSPENT: [Misspent; 14] = [
    Misspent::FirstAtOrAfter,
    Misspent::FirstAtOrBefore,
    Misspent::LastStrictlyBefore,
    Misspent::PointAfter,
    Misspent::PointBefore,
    Misspent::Between,
    Misspent::PastCount,
    Misspent::EighthUnread,
    Misspent::FormulaBefore,
    Misspent::FormulaAlways,
    Misspent::FormulaWhereMore,
    Misspent::RoundedUp,
    Misspent::RoundedToNearest,
    Misspent::RoundedFirst,
];

/// A step and a share.
type Point = (u128, u128);

/// The share at n on the line through two points.
fn on_line((from, low): Point, (to, high): Point, n: u128) -> u128 {
    low + (high - low) * (n - from) / (to - from)
}

impl Misspent {
    fn points(self, p: &Plan) -> Vec<Point> {
        let read = match self {
            Misspent::PastCount => p.steps.len(),
            Misspent::EighthUnread => p.placed().min(7),
            _ => p.placed(),
        };
        let each = p.steps.into_iter().zip(p.shares).take(read);
        each.map(|(step, share)| (step as u128, share as u128)).collect()
    }

    /// The share at n, none before the first point.
    fn share(self, points: &[Point], n: u128) -> Option<u128> {
        let last = points.iter().rposition(|(step, _)| *step <= n);
        let end = points.len() - 1;
        let place = match self {
            Misspent::FirstAtOrAfter => Some(points.iter().position(|(step, _)| *step >= n).unwrap_or(end)),
            Misspent::FirstAtOrBefore => last.map(|_| 0),
            Misspent::LastStrictlyBefore => points.iter().rposition(|(step, _)| *step < n),
            Misspent::PointAfter => last.map(|place| (place + 1).min(end)),
            Misspent::PointBefore => last.and_then(|place| place.checked_sub(1)),
            Misspent::Between if last.is_some_and(|place| place < end) => {
                let place = last?;
                return Some(on_line(points[place], points[place + 1], n));
            }
            _ => last,
        };
        place.map(|place| points[place].1)
    }

    fn part(self, allowance: u128, share: u128) -> u128 {
        match self {
            Misspent::RoundedUp => (allowance * share).div_ceil(MILLION),
            Misspent::RoundedToNearest => (allowance * share + MILLION / 2) / MILLION,
            Misspent::RoundedFirst => allowance / MILLION * share,
            _ => allowance * share / MILLION,
        }
    }

    /// What may be spent by step n with the mistake made.
    pub fn spending(self, p: &Plan, i: usize, n: u32) -> u128 {
        let (allowance, n) = (p.allowances[i] as u128, n as u128);
        let formula = allowance * n / (n + p.delay as u128);
        let points = self.points(p);
        if n == 0 || points.is_empty() || self == Misspent::FormulaAlways {
            return formula;
        }
        let before = if self == Misspent::FormulaBefore { formula } else { 0 };
        let by_points = self.share(&points, n).map_or(before, |share| self.part(allowance, share));
        match self {
            Misspent::FormulaWhereMore => by_points.max(formula),
            _ => by_points,
        }
    }
}
