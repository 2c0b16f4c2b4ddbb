//! Damaged plans and inputs, each from a seed and a place in the list.

use crate::any_plan::any_plan;
use crate::case::{Case, Feed, PlanFile};
use crate::damage;
use crate::draft::{plan_f, Draft};
use crate::draws::{near, render};
use crate::rng::Rng;

pub const DAMAGED_RUNS: u64 = 25_300;

/// A plan that ends soon on most inputs.
fn small_plan(rng: &mut Rng) -> Draft {
    let horizon = rng.scale(1, 60) as u32;
    let mut draft = any_plan(rng, 1, horizon);
    if rng.chance(1, 3) {
        draft.horizon = rng.scale(1, 50_000) as u32;
    }
    draft
}

/// Several at once, to see which refusal comes first.
fn several(rng: &mut Rng, mut draft: Draft, input: &mut Vec<u8>) -> PlanFile {
    for _ in 0..rng.range(2, 4) {
        match rng.below(7) {
            0 => damage::threshold(rng, &mut draft),
            1 => damage::allowance(rng, &mut draft),
            2 => draft.delay = damage::odd_number(rng, 4, &[0, 65_536]) as u32,
            3 => draft.horizon = damage::odd_number(rng, 4, &[0, 50_001]) as u32,
            4 => damage::bucket(rng, &mut draft),
            5 => damage::close(rng, &mut draft),
            _ => damage::cover(rng, &mut draft),
        }
    }
    let mut bytes = draft.store();
    if rng.chance(1, 4) {
        damage::header(rng, &mut bytes);
    }
    if rng.chance(1, 6) {
        bytes.pop();
    }
    if rng.chance(1, 4) {
        damage::input(rng, input);
    }
    PlanFile::Stored(bytes)
}

/// Close thresholds; at times the form or the input is damaged too.
fn close(rng: &mut Rng, _: Draft, input: &mut Vec<u8>) -> PlanFile {
    let mut bytes = damage::close_draft(rng).store();
    match rng.below(16) {
        0 => damage::header(rng, &mut bytes),
        1 => damage::truncate(rng, &mut bytes),
        2 => damage::extend(rng, &mut bytes),
        3 => damage::input(rng, input),
        _ => {}
    }
    PlanFile::Stored(bytes)
}

fn input_of_plan_f(rng: &mut Rng, _: Draft, input: &mut Vec<u8>) -> PlanFile {
    damage::input(rng, input);
    damage::input(rng, input);
    PlanFile::of(&plan_f())
}

/// The input goes on, with anything, after an ending answer.
fn go_on_after_end(rng: &mut Rng, draft: Draft, input: &mut Vec<u8>) -> PlanFile {
    let length = input.iter().filter(|byte| **byte != b'\n').count();
    let horizon = rng.range(1, length as u64) as u32;
    for _ in 0..rng.scale(1, 3000) {
        input.push(if rng.chance(1, 3) { rng.next() as u8 } else { b'0' + rng.below(2) as u8 });
    }
    PlanFile::of(&Draft { horizon, ..draft })
}

fn no_plan(rng: &mut Rng, _: Draft, input: &mut Vec<u8>) -> PlanFile {
    let plan = match rng.below(4) {
        0 => PlanFile::Missing,
        1 => PlanFile::Stored(Vec::new()),
        2 => PlanFile::Folder,
        _ => {
            let count = rng.scale(1, 400);
            PlanFile::Stored((0..count).map(|_| rng.next() as u8).collect())
        }
    };
    if rng.chance(1, 4) {
        damage::input(rng, input);
    }
    plan
}

/// Newlines in plenty, or input of any bytes.
fn newlines_or_any_bytes(rng: &mut Rng, input: &mut Vec<u8>) {
    if rng.chance(1, 2) {
        let at = rng.below(input.len() as u64 + 1) as usize;
        let lines = vec![b'\n'; rng.scale(1, 9000) as usize];
        input.splice(at..at, lines);
    } else {
        *input = (0..rng.below(50)).map(|_| rng.next() as u8).collect();
    }
}

/// What is damaged, and how.
#[derive(Clone, Copy)]
enum Damage {
    Draft(fn(&mut Rng, &mut Draft)),
    Stored(fn(&mut Rng, &mut Vec<u8>)),
    Input(fn(&mut Rng, &mut Vec<u8>)),
    /// The plan, which is handed back, and the input.
    Both(fn(&mut Rng, Draft, &mut Vec<u8>) -> PlanFile),
}

/// By turns: what stands here twice comes up twice as often.
const DAMAGES: [(&str, Damage); 23] = [
    ("header", Damage::Stored(damage::header)),
    ("header", Damage::Stored(damage::header)),
    ("counts", Damage::Draft(damage::counts)),
    ("threshold", Damage::Draft(damage::threshold)),
    ("allowance", Damage::Draft(damage::allowance)),
    ("delay or horizon", Damage::Draft(damage::delay_or_horizon)),
    ("bucket", Damage::Draft(damage::bucket)),
    ("cover", Damage::Draft(damage::cover)),
    ("truncated", Damage::Stored(damage::truncate)),
    ("extended", Damage::Stored(damage::extend)),
    ("bit flips", Damage::Stored(damage::flip_bits)),
    ("bit flips", Damage::Stored(damage::flip_bits)),
    ("order", Damage::Draft(damage::order)),
    ("close", Damage::Both(close)),
    ("close", Damage::Both(close)),
    ("close", Damage::Both(close)),
    ("close", Damage::Both(close)),
    ("several", Damage::Both(several)),
    ("foreign input", Damage::Input(damage::input)),
    ("foreign input", Damage::Both(input_of_plan_f)),
    ("after the end", Damage::Both(go_on_after_end)),
    ("no plan", Damage::Both(no_plan)),
    ("newlines or any bytes", Damage::Input(newlines_or_any_bytes)),
];

impl Damage {
    /// The input is changed in place, the plan's file handed back.
    fn apply(self, rng: &mut Rng, mut draft: Draft, input: &mut Vec<u8>) -> PlanFile {
        match self {
            Damage::Draft(damage) => damage(rng, &mut draft),
            Damage::Stored(damage) => {
                let mut bytes = draft.store();
                damage(rng, &mut bytes);
                return PlanFile::Stored(bytes);
            }
            Damage::Input(damage) => damage(rng, input),
            Damage::Both(damage) => return damage(rng, draft, input),
        }
        PlanFile::of(&draft)
    }
}

pub fn damaged_case(seed: u64, place: u64) -> Case {
    let rng = &mut Rng::new(seed, 900_000_000 + place);
    let draft = if rng.chance(1, 6) { plan_f() } else { small_plan(rng) };
    let length = rng.scale(1, 40);
    let p = near(rng, &draft);
    let draws: Vec<bool> = (0..length).map(|_| rng.unit() < p).collect();
    let mut input = render(rng, &draws);
    let (kind, damage) = DAMAGES[place as usize % DAMAGES.len()];
    let plan = damage.apply(rng, draft, &mut input);
    Case { kind, plan, input, feed: Feed::Whole }
}
