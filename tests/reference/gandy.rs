//! The library's boundaries beside the published rule by exact fractions, and the mean number of draws beside the published table.

use crate::big::Big;
use crate::draft::{star_of, Draft, STAR_ALLOWANCE, STAR_DELAY, STAR_THRESHOLDS};
use crate::exact::Exact;
use crate::host::{self, Plan, State, OPEN};
use crate::judge::PART;
use crate::plan::WHOLE;
use crate::table;
use std::time::Instant;

/// How far each threshold's boundaries are walked.
const STEPS: u64 = 1000;

/// A test of one threshold in the library that is never settled.
pub struct Unsettled {
    plan: Plan,
    state: State,
    words: Vec<u64>,
}

impl Unsettled {
    pub fn begin(draft: &Draft) -> Unsettled {
        let plan = host::plan_of(draft);
        let mut words = vec![0; PART];
        let state = host::begin(plan, &mut words);
        Unsettled { plan, state, words }
    }

    /// Masses rounded so far.
    pub fn rounded(&self) -> u32 {
        self.state.records[0].rounded
    }

    /// Upper and lower boundary of the next step, after a draw that leaves the count strictly between them: the one
    /// towards the middle, or else the other.
    pub fn advance(&mut self) -> Option<(i64, i64)> {
        let before = self.state.records[0];
        let low = 2 * (self.state.ones as i64) < before.upper as i64 + before.lower as i64;
        [low, !low].into_iter().find_map(|draw| {
            let mut words = self.words.clone();
            let next = host::draw(self.plan, self.state, &mut words, draw as u8);
            let record = next.records[0];
            (record.mark == OPEN && next.n == self.state.n + 1).then(|| {
                (self.state, self.words) = (next, words);
                (record.upper as i64, record.lower as i64)
            })
        })
    }
}

/// A side's first difference must come from rounding alone: the library's boundary is the more cautious one, and the
/// exact chance is within `PART` units a step of the limit.
fn from_rounding(rule: &Exact, met: &Big, cautious: bool) -> bool {
    let n = rule.step;
    let units = met.times(WHOLE as u64).over(&rule.weights.whole);
    let limit = STAR_ALLOWANCE as f64 * n as f64 / (n + STAR_DELAY as u64) as f64;
    println!("    exact chance {units:.1} units, limit {limit:.1}, left over {:.1}", limit - units);
    cautious && limit - units < (PART as u64 * n) as f64
}

/// One threshold's boundaries at every step: how many differ, and whether rounding accounts for it.
fn boundaries_of(at: u32) -> Option<(u64, bool)> {
    let mut rule = Exact::begin(at as u64, STAR_ALLOWANCE, STAR_DELAY as u64);
    let mut test = Unsettled::begin(&star_of(at));
    let mut good = true;
    let (mut upper_same, mut lower_same) = (true, true);
    let mut differ = 0;
    let mut last = (1, -1);
    for n in 1..=STEPS {
        let here = test.advance()?;
        rule.advance();
        last = here;
        if (rule.upper, rule.lower) == here {
            continue;
        }
        differ += 1;
        println!("  threshold {at}, step {n}: library (upper, lower) {here:?}, exact {:?}", (rule.upper, rule.lower));
        if here.0 != rule.upper && upper_same {
            upper_same = false;
            good &= from_rounding(&rule, &rule.weights.above, here.0 > rule.upper);
        }
        if here.1 != rule.lower && lower_same {
            lower_same = false;
            good &= from_rounding(&rule, &rule.weights.below, here.1 < rule.lower);
        }
    }
    let pair = |upper: i64, lower: i64| format!("{upper}, {lower}");
    println!("{at:>10} {:>14} {:>14} {differ:>8}", pair(rule.upper, rule.lower), pair(last.0, last.1));
    Some((differ, good))
}

fn boundaries() -> bool {
    println!("exact boundaries of equation (A.1), allowance {STAR_ALLOWANCE}/2^42 each, k = {STAR_DELAY}, steps 1 to {STEPS}");
    println!("{:>10} {:>14} {:>14} {:>8}", "threshold", "exact", "library", "differ");
    let mut good = true;
    let (mut compared, mut differences) = (0, 0);
    for at in STAR_THRESHOLDS {
        let Some((differ, accounted)) = boundaries_of(at) else {
            println!("FAILED: the library's test of threshold {at} takes no draw that leaves it open");
            return false;
        };
        compared += STEPS;
        differences += differ;
        good &= accounted;
    }
    println!("boundaries differ at {differences} of {compared} steps");
    if !good {
        println!("FAILED: a difference that rounding up does not account for");
    }
    if 100 * differences > compared {
        println!("FAILED: differences at more than one step in a hundred");
    }
    good && 100 * differences <= compared
}

pub fn run(seed: u64) -> bool {
    let began = Instant::now();
    let same = boundaries();
    println!("({:.1} s)", began.elapsed().as_secs_f64());
    let near = table::run(seed);
    println!("gandy: {}, {:.1} s", if same && near { "as expected" } else { "FAILED" }, began.elapsed().as_secs_f64());
    same && near
}
