//! Random draws for a plan, by chance or steered along its boundaries, and the input that they make.

use crate::boundary::{Quick, Slip};
use crate::draft::Draft;
use crate::rng::Rng;
use crate::sequential::{Mark, Test};

/// Who chooses the next draw.
#[derive(Clone, Copy, Debug)]
pub enum Style {
    /// By chance alone.
    Chance(f64),
    /// By chance, but away from an ending answer where one draw leads away.
    Cling(f64),
    /// As near to one threshold's upper or lower boundary as goes without meeting it,
    /// until the release step; an ending answer is avoided likewise.
    Hug { upper: bool, release: u64 },
}

pub fn near(rng: &mut Rng, draft: &Draft) -> f64 {
    let at = rng.pick(&draft.thresholds).0 as f64 / 1e6;
    match rng.below(5) {
        0 => at,
        1 => at * (0.8 + 0.4 * rng.unit()),
        2 => at + (rng.unit() - 0.5) * 0.02,
        3 => 1.0 - (1.0 - at) * (0.8 + 0.4 * rng.unit()),
        _ => rng.unit(),
    }
    .clamp(0.0, 1.0)
}

/// The draw, or the other one where only that leads away from an ending answer.
fn away(test: &Test, draw: bool) -> bool {
    draw ^ (test.would(draw).ends() && !test.would(!draw).ends())
}

impl Style {
    fn choose(self, rng: &mut Rng, test: &Test, held: &Quick) -> bool {
        let ones = test.ones as i64;
        match self {
            Style::Chance(p) => rng.unit() < p,
            Style::Cling(p) => away(test, rng.unit() < p),
            Style::Hug { upper, release } if test.draws >= release => upper,
            Style::Hug { upper: true, .. } => away(test, ones + 1 < held.upper),
            Style::Hug { upper: false, .. } => away(test, ones <= held.lower),
        }
    }
}

/// Draws up to an ending answer, each chosen when the boundaries of its step are known.
pub fn chosen(draft: &Draft, length: usize, mut choose: impl FnMut(&Test) -> bool) -> Vec<bool> {
    let plan = draft.plan();
    assert_eq!(plan.refusal(), None, "a plan that keeps the rules");
    let mut test = Test::begin(&plan, Slip::None);
    let mut draws = Vec::new();
    while draws.len() < length && !test.answer().ends() {
        test.advance();
        let draw = choose(&test);
        draws.push(draw);
        test.settle(draw);
    }
    draws
}

pub fn steer(rng: &mut Rng, draft: &Draft, length: usize, style: Style) -> Vec<bool> {
    let mut held = rng.below(draft.thresholds.len() as u64) as usize;
    chosen(draft, length, |test| {
        if test.marks[held] != Mark::Open {
            held = test.marks.iter().position(|m| *m == Mark::Open).unwrap_or(0);
        }
        style.choose(rng, test, &test.boundaries[held])
    })
}

fn segments(rng: &mut Rng, length: usize) -> Vec<bool> {
    let mut out = Vec::new();
    while out.len() < length {
        let p = rng.pick(&[0.0, 0.0, 1.0, 1.0, 0.5, 0.05, 0.95]);
        for _ in 0..rng.scale(1, 120) {
            out.push(rng.unit() < p);
        }
    }
    out.truncate(length);
    out
}

pub fn character(draw: bool) -> u8 {
    if draw { b'1' } else { b'0' }
}

/// Draws as characters, with newlines in one of several ways.
pub fn render(rng: &mut Rng, draws: &[bool]) -> Vec<u8> {
    let style = rng.below(6);
    let width = rng.range(1, 80) as usize;
    let mut out = Vec::with_capacity(draws.len() + 8);
    if style == 4 {
        out.extend(vec![b'\n'; rng.below(5) as usize]);
    }
    for (i, draw) in draws.iter().enumerate() {
        out.push(character(*draw));
        let line_end = match style {
            2 => (i + 1) % width == 0,
            3 => rng.chance(1, 7),
            _ => false,
        };
        if line_end {
            out.push(b'\n');
        }
    }
    if style == 1 || style == 4 {
        out.push(b'\n');
    }
    out
}

pub fn draws(rng: &mut Rng, draft: &Draft, length: usize) -> Vec<bool> {
    let p = near(rng, draft);
    match rng.below(8) {
        0 => vec![rng.chance(1, 2); length],
        1 => segments(rng, length),
        2 | 3 => (0..length).map(|_| rng.unit() < p).collect(),
        4 => steer(rng, draft, length, Style::Cling(p)),
        5 => {
            let mut out = steer(rng, draft, length, Style::Chance(p));
            out.push(rng.chance(1, 2));
            out
        }
        which => {
            let release = rng.scale(1, length.max(1) as u64);
            steer(rng, draft, length, Style::Hug { upper: which == 6, release })
        }
    }
}
