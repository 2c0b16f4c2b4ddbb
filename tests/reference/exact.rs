//! The published rule, equation (A.1), by exact fractions.

use crate::big::Big;
use crate::plan::{MILLION, WHOLE};
use crate::weights::Weights;

/// Equation (A.1) with nothing rounded.
pub struct Exact {
    allowance: u64,
    delay: u64,
    pub step: u64,
    pub upper: i64,
    pub lower: i64,
    pub weights: Weights,
}

fn common(a: u64, b: u64) -> u64 {
    if b == 0 {
        a
    } else {
        common(b, a % b)
    }
}

/// Weights are summed from one far end inwards, onto those that met that side's boundary before, while the sum stays
/// within the limit: the first count that goes past it.
fn first_past<'a>(
    met: &Big,
    inwards: impl Iterator<Item = (&'a i64, &'a Big)>,
    within: impl Fn(&Big) -> bool,
) -> i64 {
    let mut sum = met.clone();
    for (count, weight) in inwards {
        sum.add(weight);
        if !within(&sum) {
            return *count;
        }
    }
    unreachable!("an allowance is below one half, and the other side has met no more than it")
}

impl Exact {
    pub fn begin(at: u64, allowance: u64, delay: u64) -> Exact {
        // In lowest terms the weights stay smaller.
        let divisor = common(at, MILLION as u64);
        let weights = Weights::begin(at / divisor, MILLION as u64 / divisor);
        Exact { allowance, delay, step: 0, upper: 1, lower: -1, weights }
    }

    pub fn advance(&mut self) {
        self.step += 1;
        self.weights.advance();
        // allowance × n / (n + k), times n + k on both sides.
        let limit = self.weights.whole.times(self.allowance * self.step);
        let factor = self.step + self.delay;
        let within = |weight: &Big| weight.times(WHOLE as u64).times(factor).at_most(&limit);
        self.upper = first_past(&self.weights.above, self.weights.live.iter().rev(), within) + 1;
        self.lower = first_past(&self.weights.below, self.weights.live.iter(), within) - 1;
        self.weights.settle(self.upper, self.lower);
    }
}
