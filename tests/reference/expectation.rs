//! The mean number of draws of the star buckets, by the exact chance of every place that a test can be at.

use crate::boundary::{Quick, Slip};
use crate::draft::{STAR_DELAY, STAR_THRESHOLDS};
use crate::plan::WHOLE;
use crate::star::{ended, mark, nearest, Boundaries, Marks};
use std::collections::BTreeMap;

/// One half thousandth.
pub const HALF_THOUSANDTH: u128 = WHOLE / 2000;

/// The second distribution of the published table has density 1/2 + 10 up to here, 1/2 above.
pub const LOW: f64 = 0.05;

/// Chance by count from `first` on.
#[derive(Clone, Default)]
struct Spread {
    first: i64,
    chance: Vec<f64>,
}

impl Spread {
    fn add(&mut self, count: i64, chance: f64) {
        if self.chance.is_empty() {
            self.first = count;
        }
        while count < self.first {
            self.chance.insert(0, 0.0);
            self.first -= 1;
        }
        let place = (count - self.first) as usize;
        if place >= self.chance.len() {
            self.chance.resize(place + 1, 0.0);
        }
        self.chance[place] += chance;
    }

    fn counts(&self) -> impl Iterator<Item = (i64, f64)> + '_ {
        self.chance.iter().enumerate().map(|(i, chance)| (self.first + i as i64, *chance))
    }

    /// The chance of each count after one more draw, a one with chance (alpha + count) × scale.
    fn after_draw(&self, alpha: f64, scale: f64) -> impl Iterator<Item = (i64, f64)> + '_ {
        let mut risen = 0.0;
        let each = (0..=self.chance.len()).map(move |i| {
            let count = self.first + i as i64;
            let here = self.chance.get(i).copied().unwrap_or(0.0);
            let rising = here * (alpha + count as f64) * scale;
            let chance = here - rising + risen;
            risen = rising;
            (count, chance)
        });
        each.filter(|(_, chance)| *chance >= 1e-300)
    }
}

/// The chance of each place, marks and count of ones, that has not ended.
type Places = BTreeMap<Marks, Spread>;

/// Draws of a p that has a Beta(alpha, beta) distribution, followed without p: given s ones in n draws the next is a
/// one with chance (alpha + s) / (alpha + beta + n).
struct Draws {
    alpha: f64,
    beta: f64,
    n: u64,
    open: Places,
    crossed: f64,
}

impl Draws {
    fn begin(alpha: f64, beta: f64) -> Draws {
        let open = Places::from([([0; 9], Spread { first: 0, chance: vec![1.0] })]);
        Draws { alpha, beta, n: 0, open, crossed: 0.0 }
    }

    /// One more draw, with the boundaries of its step.
    fn advance(&mut self, boundaries: &Boundaries) {
        let mut next = Places::new();
        for (marks, spread) in std::mem::take(&mut self.open) {
            self.advance_under(&marks, &spread, boundaries, &mut next);
        }
        self.open = next;
        self.n += 1;
    }

    /// One more draw at the places with the same marks.
    fn advance_under(&mut self, marks: &Marks, spread: &Spread, boundaries: &Boundaries, next: &mut Places) {
        let scale = 1.0 / (self.alpha + self.beta + self.n as f64);
        let (upper, lower) = nearest(marks, boundaries);
        // Nearly all counts keep the marks: apart, they need no search in the map.
        let mut same = Spread::default();
        for (count, chance) in spread.after_draw(self.alpha, scale) {
            if lower < count && count < upper {
                same.add(count, chance);
                continue;
            }
            let after = mark(marks, count, boundaries);
            if !ended(&after) {
                next.entry(after).or_default().add(count, chance);
            } else if after.windows(2).any(|pair| pair[0] < pair[1]) {
                self.crossed += chance;
            }
        }
        for (count, chance) in next.get(marks).into_iter().flat_map(Spread::counts) {
            same.add(count, chance);
        }
        if !same.chance.is_empty() {
            next.insert(*marks, same);
        }
    }
}

/// Chances that a binomial number of m trials with chance c is at least j, kept where they
/// are neither nearly 1 nor nearly 0.
struct Tail {
    c: f64,
    first: usize,
    chance: Vec<f64>,
}

impl Tail {
    fn at_least(&self, j: usize) -> f64 {
        if j < self.first {
            1.0
        } else {
            self.chance.get(j - self.first).copied().unwrap_or(0.0)
        }
    }

    /// One more trial.
    fn advance(&mut self) {
        self.chance.push(0.0);
        let mut before = 1.0;
        for chance in self.chance.iter_mut() {
            let here = *chance;
            *chance = (1.0 - self.c) * here + self.c * before;
            before = here;
        }
        while self.chance.last().is_some_and(|chance| *chance < 1e-16) {
            self.chance.pop();
        }
        let ones = self.chance.iter().take_while(|chance| **chance > 1.0 - 1e-15).count();
        self.chance.drain(..ones);
        self.first += ones;
    }
}

pub struct Expectation {
    pub mean: f64,
    /// The mean for p uniform up to `LOW`; of use where p is uniform up to 1.
    pub mean_of_low: f64,
    /// Steps after which all has ended.
    pub last: u64,
    pub crossed: f64,
    pub boundaries: Vec<Boundaries>,
}

/// The boundaries of the next step; a threshold that is open nowhere walks no more.
fn advance_open(walks: &mut [Quick], open: &Places) -> Boundaries {
    let mut out = [(0, 0); 9];
    for (i, walk) in walks.iter_mut().enumerate() {
        if open.keys().any(|marks| marks[i] == 0) {
            walk.advance();
        }
        out[i] = (walk.upper, walk.lower);
    }
    out
}

/// The mean number of draws when p has a Beta(alpha, beta) distribution. With boundaries from an earlier call, these
/// are used again.
///
/// For p uniform up to c only, the chance of each place is the uniform one times the chance
/// that a Beta(s + 1, n - s + 1) is at most c, over c: a binomial tail of n + 1 trials.
pub fn expectation(alpha: f64, beta: f64, known: Option<&[Boundaries]>) -> Expectation {
    let mut walks: Vec<Quick> = STAR_THRESHOLDS
        .iter()
        .map(|at| Quick::begin(*at as u128, HALF_THOUSANDTH, STAR_DELAY as u128, Slip::None))
        .collect();
    let mut draws = Draws::begin(alpha, beta);
    let mut tail = Tail { c: LOW, first: 1, chance: vec![LOW] };
    let (mut mean, mut mean_of_low, mut boundaries) = (0.0, 0.0, Vec::new());
    while !draws.open.is_empty() {
        mean += draws.open.values().flat_map(|s| &s.chance).sum::<f64>();
        let now = match known {
            Some(known) => known[draws.n as usize],
            None => {
                for (count, chance) in draws.open.values().flat_map(Spread::counts) {
                    mean_of_low += chance * tail.at_least(count as usize + 1) / LOW;
                }
                tail.advance();
                let now = advance_open(&mut walks, &draws.open);
                boundaries.push(now);
                now
            }
        };
        draws.advance(&now);
    }
    Expectation { mean, mean_of_low, last: draws.n, crossed: draws.crossed, boundaries }
}
