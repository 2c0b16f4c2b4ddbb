//! The mean number of draws of the star buckets by simulation.

use crate::rng::Rng;
use crate::star::{ended, mark, nearest, Boundaries, Marks};
use std::collections::BTreeMap;

/// One run that has not ended.
#[derive(Clone, Copy)]
struct Run {
    place: usize,
    ones: i64,
    /// A draw is a one when a random word is below this.
    limit: u64,
}

/// The draws until the end of one run for each p; all runs go from step to step together.
fn draws_of(chances: &[f64], rng: &mut Rng, boundaries: &[Boundaries]) -> Vec<u64> {
    let mut out = vec![0; chances.len()];
    let begin = |(place, p): (usize, &f64)| Run { place, ones: 0, limit: (p * 2f64.powi(64)) as u64 };
    let mut open: BTreeMap<Marks, Vec<Run>> = BTreeMap::from([([0; 9], chances.iter().enumerate().map(begin).collect())]);
    for (n, now) in boundaries.iter().enumerate() {
        let mut moved = Vec::new();
        for (marks, runs) in open.iter_mut() {
            let (upper, lower) = nearest(marks, now);
            runs.retain_mut(|run| {
                run.ones += (rng.next() < run.limit) as i64;
                let stays = lower < run.ones && run.ones < upper;
                if !stays {
                    moved.push((*marks, *run));
                }
                stays
            });
        }
        for (before, run) in moved {
            let marks = mark(&before, run.ones, now);
            match ended(&marks) {
                true => out[run.place] = n as u64 + 1,
                false => open.entry(marks).or_default().push(run),
            }
        }
        open.retain(|_, runs| !runs.is_empty());
    }
    assert!(open.is_empty(), "every run ends within the boundaries");
    out
}

/// A mean and its standard error.
#[derive(Clone, Copy)]
pub struct Mean {
    pub mean: f64,
    pub error: f64,
}

/// The mean of several kinds of run, each with its share.
pub fn mixed<const N: usize>(shares: [f64; N], means: [Mean; N]) -> Mean {
    let each = || shares.iter().zip(&means);
    Mean {
        mean: each().map(|(share, m)| share * m.mean).sum(),
        error: each().map(|(share, m)| (share * m.error).powi(2)).sum::<f64>().sqrt(),
    }
}

/// The mean for p uniform between two ends. Two runs in each of many equal parts: then it is not by chance which parts come up.
pub fn simulated(from: f64, to: f64, runs: u64, rng: &mut Rng, boundaries: &[Boundaries]) -> Mean {
    let parts = runs / 2;
    let width = (to - from) / parts as f64;
    let chances: Vec<f64> = (0..2 * parts).map(|i| from + ((i / 2) as f64 + rng.unit()) * width).collect();
    let draws = draws_of(&chances, rng, boundaries);
    let mean = draws.iter().sum::<u64>() as f64 / draws.len() as f64;
    let squares: f64 = draws.chunks(2).map(|pair| (pair[0] as f64 - pair[1] as f64).powi(2)).sum();
    Mean { mean, error: squares.sqrt() / (2 * parts) as f64 }
}
