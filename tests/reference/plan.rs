//! The plan: its rules, and the reading of its stored form.

/// The whole, in units of 1/2^42.
pub const WHOLE: u128 = 4_398_046_511_104;
pub const MILLION: u128 = 1_000_000;
pub const LARGEST_ALLOWANCE: u64 = 2_199_023_255_551;
/// Neighbouring thresholds differ by this or more.
pub const LEAST_APART: u32 = 100;
/// A plan has at most so many points.
pub const MOST_POINTS: usize = 8;
/// The rules' numbers, as they are judged.
pub const ORDER: [u8; 8] = [1, 2, 14, 3, 4, 16, 5, 6];

#[derive(Clone, Debug, PartialEq)]
pub struct Threshold {
    pub at: u128,
    pub allowance: u128,
}

#[derive(Clone, Debug, PartialEq)]
pub struct Bucket {
    pub left: u128,
    pub right: u128,
}

/// From its step on a share of each allowance, in millionths, may be spent.
#[derive(Clone, Debug, PartialEq)]
pub struct Point {
    pub step: u128,
    pub share: u128,
}

#[derive(Clone, Debug, PartialEq)]
pub struct Plan {
    pub thresholds: Vec<Threshold>,
    pub buckets: Vec<Bucket>,
    pub delay: u128,
    pub horizon: u128,
    /// With none, spending goes by the delay.
    pub points: Vec<Point>,
}

/// An exact fraction, for the points p that matter to rule 6.
#[derive(Clone, Copy)]
struct Fraction {
    over: u128,
    under: u128,
}

impl Fraction {
    fn millionths(n: u128) -> Fraction {
        Fraction { over: n, under: MILLION }
    }

    fn between(a: u128, b: u128) -> Fraction {
        Fraction { over: a + b, under: 2 * MILLION }
    }

    fn above(self, end: u128) -> bool {
        self.over * MILLION > end * self.under
    }
}

impl Bucket {
    fn holds(&self, p: Fraction) -> bool {
        let from_left = p.above(self.left) || (self.left == 0 && p.over == 0);
        from_left && !p.above(self.right)
    }

    /// Does it contain the interval from low to high?
    pub fn contains(&self, low: u128, high: u128) -> bool {
        self.left <= low && high <= self.right
    }

    pub fn width(&self) -> u128 {
        self.right - self.left
    }
}

impl Plan {
    fn counts_bad(&self) -> bool {
        !(1..=10).contains(&self.thresholds.len()) || !(2..=16).contains(&self.buckets.len())
    }

    fn threshold_bad(&self) -> bool {
        let range = self.thresholds.iter().any(|t| t.at < 1 || t.at > 999_999);
        let order = self.thresholds.windows(2).any(|pair| pair[1].at <= pair[0].at);
        range || order
    }

    /// The least difference of neighbouring thresholds.
    pub fn closest(&self) -> Option<u128> {
        self.thresholds.windows(2).map(|pair| pair[1].at.abs_diff(pair[0].at)).min()
    }

    fn thresholds_close(&self) -> bool {
        self.closest().is_some_and(|difference| difference < LEAST_APART as u128)
    }

    fn allowance_bad(&self) -> bool {
        self.thresholds.iter().any(|t| t.allowance < 1 || t.allowance > LARGEST_ALLOWANCE as u128)
    }

    fn delay_or_horizon_bad(&self) -> bool {
        self.delay < 1 || self.delay > 65_535 || self.horizon < 1 || self.horizon > 50_000
    }

    fn points_bad(&self) -> bool {
        let out = |point: &Point| !(1..=self.horizon).contains(&point.step) || point.share > MILLION;
        let rises = |pair: &[Point]| pair[0].step < pair[1].step && pair[0].share <= pair[1].share;
        self.points.len() > MOST_POINTS || self.points.iter().any(out) || !self.points.windows(2).all(rises)
    }

    fn end_permitted(&self, end: u128) -> bool {
        end == 0 || end == MILLION || self.thresholds.iter().any(|t| t.at == end)
    }

    fn bucket_bad(&self) -> bool {
        self.buckets.iter().any(|b| {
            b.left >= b.right
                || (b.left == 0 && b.right == MILLION)
                || !self.end_permitted(b.left)
                || !self.end_permitted(b.right)
        })
    }

    /// Every p that matters: all ends, and the midpoint of neighbouring ends.
    fn p_uncovered(&self) -> bool {
        let mut ends = vec![0, MILLION];
        ends.extend(self.thresholds.iter().map(|t| t.at));
        for b in &self.buckets {
            ends.extend([b.left, b.right]);
        }
        ends.sort();
        let mut points: Vec<Fraction> = ends.iter().map(|e| Fraction::millionths(*e)).collect();
        points.extend(ends.windows(2).map(|w| Fraction::between(w[0], w[1])));
        points.iter().any(|p| !self.buckets.iter().any(|b| b.holds(*p)))
    }

    pub fn breaks(&self, rule: u8) -> bool {
        match rule {
            1 => self.counts_bad(),
            2 => self.threshold_bad(),
            3 => self.allowance_bad(),
            4 => self.delay_or_horizon_bad(),
            5 => self.bucket_bad(),
            6 => self.p_uncovered(),
            14 => self.thresholds_close(),
            16 => self.points_bad(),
            other => panic!("{other} is no rule"),
        }
    }

    /// The first refusal, each over all entries before the next.
    pub fn refusal(&self) -> Option<u8> {
        ORDER.into_iter().find(|rule| self.breaks(*rule))
    }
}

/// A number of `size` bytes, little end first.
fn number(stored: &[u8], from: usize, size: usize) -> u128 {
    (0..size).map(|i| (stored[from + i] as u128) << (8 * i)).sum()
}

/// The thresholds of a stored plan that has so many.
pub fn thresholds_in(stored: &[u8], count: usize) -> Vec<Threshold> {
    let one = |from| Threshold { at: number(stored, from, 4), allowance: number(stored, from + 4, 8) };
    (0..count).map(|i| one(16 + 12 * i)).collect()
}

/// The plan that is stored, its rules not yet judged but for the counts; or the refusal.
pub fn parsed(stored: &[u8]) -> Result<Plan, u8> {
    if stored.len() < 16 {
        return Err(7);
    }
    let count_thresholds = number(stored, 0, 2) as usize;
    let count_buckets = number(stored, 2, 2) as usize;
    if !(1..=10).contains(&count_thresholds) || !(2..=16).contains(&count_buckets) {
        return Err(1);
    }
    let buckets_from = 16 + 12 * count_thresholds;
    if number(stored, 4, 2) != 16 || number(stored, 6, 2) != buckets_from as u128 {
        return Err(7);
    }
    if stored.len() != buckets_from + 8 * count_buckets {
        return Err(7);
    }
    Ok(Plan {
        thresholds: thresholds_in(stored, count_thresholds),
        buckets: (0..count_buckets)
            .map(|i| buckets_from + 8 * i)
            .map(|from| Bucket { left: number(stored, from, 4), right: number(stored, from + 4, 4) })
            .collect(),
        delay: number(stored, 8, 4),
        horizon: number(stored, 12, 4),
        points: Vec::new(),
    })
}

/// Reads a stored plan, or gives the refusal.
pub fn read(stored: &[u8]) -> Result<Plan, u8> {
    let plan = parsed(stored)?;
    match plan.refusal() {
        Some(refusal) => Err(refusal),
        None => Ok(plan),
    }
}
