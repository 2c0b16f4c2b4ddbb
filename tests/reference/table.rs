//! The mean number of draws of the star buckets beside the published table.

use crate::draft::STAR_DELAY;
use crate::expectation::{expectation, HALF_THOUSANDTH, LOW};
use crate::rng::Rng;
use crate::simulation::{mixed, simulated, Mean};
use crate::star::Boundaries;
use crate::tally::conclude;
use std::time::Instant;

/// One line of the table: what is expected, the published figure, the figure to be near to within a share, and a simulation.
struct Row {
    name: &'static str,
    expected: f64,
    published: u64,
    near: f64,
    within: f64,
    simulated: Option<Mean>,
}

/// How near simulation and expectation must be; five standard errors must lie within.
const TOLERANCE: f64 = 0.03;

/// The published 13,837 is off: an independent simulation of 500,000 runs gave this, with a standard error of 46.
const SIMULATED: f64 = 13_243.0;

/// Runs of the simulation where p is low; in each of the two ranges above, a quarter of these.
const RUNS: u64 = 20_000;

/// Above the largest threshold and its neighbourhood.
const NEXT: f64 = 0.06;

impl Row {
    fn print(&self) {
        let simulation = self.simulated.map_or(String::new(), |s| format!("{:.0} (+- {:.0})", s.mean, s.error));
        println!("{:<32}{:>12.1}{:>10}{simulation:>22}", self.name, self.expected, self.published);
    }

    fn faults(&self) -> Vec<String> {
        let mut out = Vec::new();
        let apart = |figure: f64| (self.expected / figure - 1.0).abs();
        if apart(self.near) > self.within {
            out.push(format!("{}: the expectation is more than {} % from {}", self.name, 100.0 * self.within, self.near));
        }
        if let Some(simulated) = self.simulated {
            if 5.0 * simulated.error > TOLERANCE * self.expected {
                out.push(format!("{}: too few runs for {} %", self.name, 100.0 * TOLERANCE));
            }
            if apart(simulated.mean) > TOLERANCE {
                out.push(format!("{}: simulation and expectation differ", self.name));
            }
        }
        out
    }
}

/// Of the first two distributions. Runs go where they tell most: draws are many, and differ most, where p is low.
fn simulations(seed: u64, boundaries: &[Boundaries]) -> [Mean; 2] {
    let rng = &mut Rng::new(seed, 5);
    let low = simulated(0.0, LOW, RUNS, rng, boundaries);
    let next = simulated(LOW, NEXT, RUNS / 4, rng, boundaries);
    let rest = simulated(NEXT, 1.0, RUNS / 4, rng, boundaries);
    let of = |share_of_low| {
        let scale = (1.0 - share_of_low) / (1.0 - LOW);
        mixed([share_of_low, (NEXT - LOW) * scale, (1.0 - NEXT) * scale], [low, next, rest])
    };
    [of(LOW), of((1.0 + LOW) / 2.0)]
}

pub fn run(seed: u64) -> bool {
    println!("mean number of draws of the star buckets, allowance {HALF_THOUSANDTH} units each, k = {STAR_DELAY}, no horizon");
    let began = Instant::now();
    let uniform = expectation(1.0, 1.0, None);
    let first = began.elapsed().as_secs_f64();
    let beta = expectation(0.5, 25.0, Some(&uniform.boundaries));
    let second = began.elapsed().as_secs_f64() - first;
    let by_chance = simulations(seed, &uniform.boundaries);
    let third = began.elapsed().as_secs_f64() - first - second;
    println!("every run ends by draw {}; took {first:.1} + {second:.1} + {third:.1} s", uniform.last);
    println!("{:<32}{:>12}{:>10}{:>22}", "distribution of p", "expectation", "Table 2", "simulated (+- s.e.)");
    let row = |name, expected, published, simulated| {
        Row { name, expected, published, near: published as f64, within: 0.02, simulated }
    };
    let halved = (uniform.mean + uniform.mean_of_low) / 2.0;
    let rows = [
        row("uniform", uniform.mean, 1853, Some(by_chance[0])),
        Row { near: SIMULATED, within: 0.01, ..row("density 1/2, + 10 up to 0.05", halved, 13_837, Some(by_chance[1])) },
        row("Beta(0.5, 25)", beta.mean, 30_896, None),
    ];
    rows.iter().for_each(Row::print);
    println!("the published 13837 is off: an independent simulation of 500,000 runs gave {SIMULATED} (+- 46)");
    println!("chance of a crossed end, uniform p: {:.1e}", uniform.crossed);
    let faults: Vec<String> = rows.iter().flat_map(Row::faults).collect();
    conclude(&faults, "means as expected")
}
