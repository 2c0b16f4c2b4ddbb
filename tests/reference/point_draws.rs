//! Draws to tests under plans with points, each by the library and by `judge`, and the mistakes in spending that they
//! notice.

use crate::host::{self, State};
use crate::judge::{self, Fault};
use crate::misspent::{Misspent, MISSPENT};
use crate::rng::Rng;
use crate::scenes::{past_points, Scene};
use crate::tally::{named, Counts, Differing};

/// State and words that a draw hands on.
pub type Outcome = (State, Vec<u64>);

pub fn judged(scene: &Scene, fault: Fault) -> Outcome {
    let mut words = scene.words.clone();
    let state = judge::draw(&scene.plan, &scene.state, &mut words, scene.draw, fault);
    (state, words)
}

fn by_library(scene: &Scene) -> Outcome {
    let mut words = scene.words.clone();
    let state = host::draw(scene.plan, scene.state, &mut words, scene.draw);
    (state, words)
}

#[derive(Default)]
pub struct Draws {
    pub draws: u64,
    /// Draws taken again with other places past the points.
    again: u64,
    /// By the call that a mistake is tried with.
    noticed: Counts<(&'static str, Misspent)>,
    pub differ: Differing,
}

impl Draws {
    /// The library's outcome.
    pub fn compare(&mut self, scene: &Scene) -> Outcome {
        let (got, expected) = (by_library(scene), judged(scene, Fault::None));
        let show = || format!("{:?} for {:?}:\n  {:?}\n  {:?}", got.0, expected.0, scene.plan, scene.state);
        self.differ.note(got == expected, show);
        self.draws += 1;
        got
    }

    /// With other places past the points all is the same.
    pub fn compare_again(&mut self, rng: &mut Rng, scene: &Scene, got: &Outcome) {
        let mut other = scene.clone();
        past_points(rng, &mut other.plan);
        let same = by_library(&other) == *got;
        self.differ.note(same, || format!("other places past the points: {:?} {:?}", other.plan, other.state));
        self.again += (other.plan != scene.plan) as u64;
    }

    /// Is each mistake noticed?
    pub fn notice(&mut self, call: &'static str, noticed: impl Fn(Fault) -> bool) {
        for misspent in MISSPENT {
            *self.noticed.entry((call, misspent)).or_default() += noticed(Fault::Spending(misspent)) as u64;
        }
    }

    pub fn print(&self) {
        println!("draws compared: {}, and again with other places past the points: {}", self.draws, self.again);
        let mut calls: Vec<&str> = self.noticed.keys().map(|(call, _)| *call).collect();
        calls.dedup();
        for call in calls {
            let of = self.noticed.iter().filter(|((other, _), _)| *other == call);
            let list: Counts<String> = of.map(|((_, misspent), count)| (format!("{misspent:?}"), *count)).collect();
            println!("mistakes in spending noticed, {call}: {}", named(&list));
        }
    }

    /// What was noticed or came up fewer times than this.
    pub fn faults(&self, needed: u64) -> Vec<String> {
        let few = self.noticed.iter().filter(|(_, count)| **count < needed);
        let name = |(call, misspent): &(&str, Misspent)| format!("seldom noticed, {call}: {misspent:?}");
        let mut out: Vec<String> = few.map(|(key, _)| name(key)).collect();
        if self.again < 100 * needed {
            out.push("places past the points seldom changed".into());
        }
        out.extend(self.differ.fault());
        out
    }
}

pub fn count(counts: &mut Counts<String>, row: impl Into<String>, so: bool) {
    *counts.entry(row.into()).or_default() += so as u64;
}

/// Those rows, separated by semicolons, that came up fewer times than this.
pub fn seldom(counts: &Counts<String>, rows: &str, needed: u64) -> Vec<String> {
    let few = rows.split("; ").filter(|row| counts.get(*row).map_or(true, |count| *count < needed));
    few.map(|row| format!("seldom: {row}")).collect()
}
