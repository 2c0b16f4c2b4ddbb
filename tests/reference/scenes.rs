//! Good calls of a draw, and ways to spoil them.

use crate::any_plan::{any_horizon, any_plan};
use crate::damage;
use crate::host::{draft_of, plan_of, Plan, Record, State, ABOVE, AT_MOST, OPEN};
use crate::judge::{live, most_rounded, spending, PART, WORD_LIMIT};
use crate::plan::{LARGEST_ALLOWANCE, WHOLE};
use crate::rng::Rng;

/// All that one draw is handed.
#[derive(Clone)]
pub struct Scene {
    pub plan: Plan,
    pub state: State,
    pub words: Vec<u64>,
    pub draw: u8,
}

impl Scene {
    pub fn k(&self) -> usize {
        (self.plan.count as usize).clamp(1, 10)
    }

    pub fn part(&mut self, i: usize) -> &mut [u64] {
        let len = self.words.len();
        &mut self.words[(PART * i).min(len)..(PART * (i + 1)).min(len)]
    }

    pub fn live_of(&mut self, i: usize) -> usize {
        let r = self.state.records[i];
        live(&r, self.part(i)).len()
    }
}

// ---- good scenes

fn garbage(rng: &mut Rng) -> Record {
    let mark = rng.below(3) as u32;
    Record {
        mark,
        step: if mark == OPEN { 0 } else { rng.next() as u32 },
        lower: rng.next() as i32,
        upper: rng.next() as u32,
        over: rng.next(),
        under: rng.next(),
        rounded: rng.next() as u32,
    }
}

/// Anything in the places past the points, at times what could be points.
pub fn past_points(rng: &mut Rng, plan: &mut Plan) {
    let any = rng.chance(1, 3);
    let (mut step, mut share) = match plan.placed() {
        0 => (0, 0),
        placed => (plan.steps[placed - 1], plan.shares[placed - 1]),
    };
    for j in plan.placed()..plan.steps.len() {
        step = if any { rng.next() as u32 } else { step.wrapping_add(rng.scale(1, 200) as u32) };
        share = if any { rng.next() as u32 } else { rng.range(share as u64, share.max(1_000_000) as u64) as u32 };
        (plan.steps[j], plan.shares[j]) = (step, share);
    }
}

/// Anything in the places past the counts; a threshold at times close to the one before.
pub fn plan_past_counts(rng: &mut Rng, plan: &mut Plan) {
    for i in plan.count as usize..10 {
        let next = plan.thresholds[i - 1].wrapping_add(rng.pick(&[1, 99, 100]));
        plan.thresholds[i] = if rng.chance(1, 2) { next } else { rng.next() as u32 };
        plan.allowances[i] = rng.next();
    }
    for j in plan.buckets as usize..16 {
        plan.left[j] = rng.next() as u32;
        plan.right[j] = rng.next() as u32;
    }
    // From numbers of their own.
    past_points(&mut Rng::new(plan.allowances[9], 900), plan);
}

pub fn good_plan(rng: &mut Rng) -> Plan {
    let horizon = any_horizon(rng);
    let least = rng.pick(&[1, 1, 1000]);
    let mut plan = plan_of(&any_plan(rng, least, horizon));
    if rng.chance(1, 2) {
        plan_past_counts(rng, &mut plan);
    }
    plan
}

/// Masses rounded that pass refusal 11 after n draws, often as many as may be.
pub fn any_rounded(rng: &mut Rng, n: u32) -> u32 {
    let most = most_rounded(n);
    let any = rng.range(0, most);
    rng.pick(&[any, any, 0, most.saturating_sub(1), most]) as u32
}

/// Boundaries, spent masses and words that pass refusal 11 after n draws with so many ones, and now and then wide.
fn made_up_record(rng: &mut Rng, s: &State, limit: u64, part: &mut [u64]) -> Record {
    let (n, ones) = (s.n as i64, s.ones as i64);
    let wide = PART as i64 + 1;
    let widest = rng.pick(&[wide - 1, wide - 1, wide - 1, wide]);
    let far = (ones - widest + 2).max(-1);
    let lower = if rng.chance(1, 3) { far } else { rng.range(0, (ones - 1 - far) as u64) as i64 + far };
    let most = (n + 1).min(lower + widest);
    let upper = if rng.chance(1, 3) { most } else { rng.range(0, (most - ones - 1) as u64) as i64 + ones + 1 };
    let ends = [0, limit, limit.saturating_sub(1)];
    let mut spent = || if rng.chance(1, 2) { rng.range(0, limit) } else { rng.pick(&ends) };
    let (over, under) = (spent(), spent());
    let live = (upper - lower - 1) as usize;
    let style = rng.below(3);
    let most = rng.pick(&[1 << 20, 1 << 36, WORD_LIMIT as u64]);
    for word in part.iter_mut() {
        *word = if style == 0 { 0 } else { rng.range(0, most) };
    }
    if style == 1 {
        part[live..].fill(0);
    }
    let held = rng.below(live as u64) as usize;
    part[held] = part[held].max(WHOLE as u64 - over - under);
    let rounded = any_rounded(rng, s.n);
    Record { mark: OPEN, step: 0, lower: lower as i32, upper: upper as u32, over, under, rounded }
}

/// A state that no test was carried to, but that passes refusal 11.
pub fn made_up(rng: &mut Rng, plan: Plan) -> Scene {
    let settled = rng.pick(&[0, 1, 3]);
    let marks = [OPEN; 10].map(|open| if rng.chance(settled, 6) { rng.pick(&[ABOVE, AT_MOST]) } else { open });
    made_up_with(rng, plan, &marks)
}

/// One with given marks; before the first draw all are open.
pub fn made_up_with(rng: &mut Rng, plan: Plan, marks: &[u32; 10]) -> Scene {
    let last = plan.horizon as u64 - 1;
    let n = if rng.chance(1, 4) { last } else { rng.range(0, last) };
    made_up_at(rng, plan, marks, n)
}

/// The same, after n draws.
pub fn made_up_at(rng: &mut Rng, plan: Plan, marks: &[u32; 10], n: u64) -> Scene {
    let ones = rng.pick(&[0, n, n / 2, n / 2]);
    let mut state = State { n: n as u32, ones: ones as u32, ..State::default() };
    let mut words = vec![0; PART * plan.count as usize];
    for i in 0..10 {
        let limit = spending(&plan, i, state.n) as u64;
        state.records[i] = match i < plan.count as usize {
            true => made_up_record(rng, &state, limit, &mut words[PART * i..PART * (i + 1)]),
            false => garbage(rng),
        };
        if i < plan.count as usize && n > 0 && marks[i] != OPEN {
            let (step, rounded) = (rng.range(1, n) as u32, any_rounded(rng, n as u32));
            state.records[i] = Record { mark: marks[i], step, rounded, ..garbage(rng) };
        }
    }
    Scene { plan, state, words, draw: rng.below(2) as u8 }
}

// ---- spoils

fn spoil_counts(rng: &mut Rng, scene: &mut Scene, i: usize) {
    let (n, horizon) = (scene.state.n, scene.plan.horizon);
    let r = scene.state.records[i];
    if rng.chance(1, 2) {
        let last = [horizon, horizon.wrapping_add(1), horizon.wrapping_sub(1)];
        let near = [u32::MAX, 0, n.wrapping_add(1), n.wrapping_sub(1)];
        scene.state.n = if rng.chance(1, 2) { rng.pick(&last) } else { rng.pick(&near) };
    } else {
        let lower = r.lower as u32;
        let ends = [n, n.wrapping_add(1), 0, u32::MAX];
        let boundaries = [r.upper, r.upper.wrapping_sub(1), lower, lower.wrapping_add(1)];
        scene.state.ones = if rng.chance(1, 2) { rng.pick(&ends) } else { rng.pick(&boundaries) };
    }
}

fn spoil_mark(rng: &mut Rng, scene: &mut Scene, i: usize) {
    let n = scene.state.n;
    let r = &mut scene.state.records[i];
    r.mark = rng.pick(&[OPEN, ABOVE, ABOVE, AT_MOST, AT_MOST]);
    r.step = match r.mark {
        OPEN => 0,
        _ => rng.pick(&[0, 1, n, n.wrapping_add(1), u32::MAX]),
    };
}

fn spoil_boundary(rng: &mut Rng, scene: &mut Scene, i: usize) {
    let (n, ones) = (scene.state.n, scene.state.ones);
    let r = &mut scene.state.records[i];
    let (lower, upper) = (r.lower as u32, r.upper);
    let wide = PART as u32 + 1;
    let apart = rng.pick(&[1, 2, wide - 1, wide, wide + 1, wide + 1]);
    if rng.chance(1, 2) {
        let near = [-2, -1, i32::MIN, i32::MAX, ones.wrapping_sub(1) as i32, ones as i32];
        r.lower = if rng.chance(2, 3) { rng.pick(&near) } else { upper.wrapping_sub(apart) as i32 };
    } else {
        let near = [0, n.wrapping_add(1), n.wrapping_add(2), u32::MAX, ones, ones.wrapping_add(1)];
        r.upper = if rng.chance(1, 2) { rng.pick(&near) } else { lower.wrapping_add(apart) };
    }
}

fn spoil_spent(rng: &mut Rng, scene: &mut Scene, i: usize) {
    let limit = match scene.plan.delay {
        0 => 0,
        _ => spending(&scene.plan, i, scene.state.n) as u64,
    };
    let spent = rng.pick(&[limit, limit.wrapping_add(1), u64::MAX, 0]);
    let r = &mut scene.state.records[i];
    if rng.chance(1, 2) {
        r.over = spent;
    } else {
        r.under = spent;
    }
}

/// The place of any threshold, every other time of a settled one, where there is one.
pub fn often_settled(rng: &mut Rng, scene: &Scene) -> usize {
    let settled: Vec<usize> = (0..scene.k()).filter(|i| scene.state.records[*i].mark != OPEN).collect();
    let any = rng.below(scene.k() as u64) as usize;
    if settled.is_empty() || rng.chance(1, 2) { any } else { rng.pick(&settled) }
}

/// Masses rounded at their limit, one over it, and far over it; of a settled record at times at that of its step.
fn spoil_rounded(rng: &mut Rng, scene: &mut Scene) {
    let r = &mut scene.state.records[often_settled(rng, scene)];
    let [most, by_step] = [scene.state.n, r.step].map(|n| most_rounded(n).min(u32::MAX as u64) as u32);
    let over = most.saturating_add(1);
    r.rounded = rng.pick(&[most, most, over, over, over, by_step, 1 << 31, u32::MAX - 1, u32::MAX]);
}

fn spoil_word(rng: &mut Rng, scene: &mut Scene, i: usize) {
    let live = scene.live_of(i);
    let limit = WORD_LIMIT as u64;
    let word = rng.pick(&[limit, limit, limit + 1, limit + 1, u64::MAX, 0]);
    if live > 0 && rng.chance(1, 6) {
        scene.part(i)[..live].fill(word);
    } else if live > 0 {
        let any = rng.below(live as u64) as usize;
        scene.part(i)[rng.pick(&[0, live - 1, any])] = word;
    }
}

/// Every record at the ends of its fields' types, and every word.
fn spoil_all(rng: &mut Rng, scene: &mut Scene) {
    let settled = rng.pick(&[OPEN, OPEN, ABOVE, AT_MOST]);
    for r in scene.state.records.iter_mut() {
        let mark = rng.pick(&[OPEN, settled]);
        *r = Record {
            mark,
            step: if mark == OPEN { 0 } else { rng.pick(&[0, 1, u32::MAX]) },
            lower: rng.pick(&[i32::MIN, i32::MAX, -1, 0]),
            upper: rng.pick(&[0, 1, u32::MAX, i32::MAX as u32, 1 << 31]),
            over: rng.pick(&[0, u64::MAX]),
            under: rng.pick(&[0, u64::MAX]),
            rounded: rng.pick(&[0, u32::MAX]),
        };
    }
    let word = rng.pick(&[0, u64::MAX, WORD_LIMIT as u64]);
    scene.words.fill(word);
}

/// The whole mass at M, or one below.
fn spoil_mass(rng: &mut Rng, scene: &mut Scene, i: usize) {
    let r = scene.state.records[i];
    let live = scene.live_of(i);
    let aim = WHOLE - rng.below(2) as u128;
    let mut left = aim.saturating_sub(r.over as u128 + r.under as u128);
    for word in scene.part(i)[..live].iter_mut() {
        *word = left.min(*word as u128) as u64;
        left -= *word as u128;
    }
    if live > 0 {
        scene.part(i)[0] += left as u64;
    }
}

/// Anything where nothing is judged: behind the live words, in settled words and in records past K.
pub fn spoil_left_over(rng: &mut Rng, scene: &mut Scene, i: usize) {
    let from = match scene.state.records[i].mark {
        OPEN => scene.live_of(i),
        _ => 0,
    };
    let all = rng.chance(1, 2);
    for word in scene.part(i)[from..].iter_mut() {
        if all || rng.chance(1, 50) {
            *word = rng.next();
        }
    }
    for past in scene.state.records[scene.plan.count.min(10) as usize..].iter_mut() {
        *past = garbage(rng);
    }
}

fn spoil_length(rng: &mut Rng, scene: &mut Scene) {
    let right = scene.words.len();
    let len = rng.pick(&[right.saturating_sub(1), right + 1, 0, right + PART, right.saturating_sub(PART), PART * 10]);
    let more = rng.next();
    scene.words.resize(len, more);
}

fn spoil_apart(rng: &mut Rng, plan: &mut Plan) {
    if let Some(mut draft) = draft_of(plan) {
        damage::close(rng, &mut draft);
        *plan = plan_of(&draft);
        plan_past_counts(rng, plan);
    }
}

fn spoil_plan(rng: &mut Rng, plan: &mut Plan, n: u32) {
    let i = rng.below(10) as usize;
    let j = rng.below(16) as usize;
    let most = LARGEST_ALLOWANCE;
    match rng.below(12) {
        0 => plan.count = rng.pick(&[0, 1, 10, 11, u32::MAX]),
        1 => plan.buckets = rng.pick(&[1, 2, 16, 17, 0, u32::MAX]),
        2 => plan.thresholds[i] = rng.pick(&[0, 1, 999_999, 1_000_000, u32::MAX, plan.thresholds[9 - i]]),
        3 => plan.allowances[i] = rng.pick(&[0, 1, most, most + 1, u64::MAX]),
        4 => plan.delay = rng.pick(&[0, 1, 65_535, 65_536, u32::MAX]),
        5 => plan.horizon = rng.pick(&[0, 1, 50_000, 50_001, u32::MAX]),
        6 => plan.horizon = rng.pick(&[n, n.wrapping_add(1), n.wrapping_sub(1)]),
        7 => plan.left[j] = rng.pick(&[0, 1, 1_000_000, u32::MAX, plan.right[j], plan.thresholds[i]]),
        8..=10 => spoil_apart(rng, plan),
        _ => plan.right[j] = rng.pick(&[0, 1_000_000, 1_000_001, u32::MAX, plan.left[j], plan.thresholds[i]]),
    }
}

pub fn spoil(rng: &mut Rng, scene: &mut Scene) {
    spoil_one_of(rng, scene, 29);
}

/// Only what refusal 11 judges.
pub fn spoil_judged(rng: &mut Rng, scene: &mut Scene) {
    spoil_one_of(rng, scene, 20);
}

fn spoil_one_of(rng: &mut Rng, scene: &mut Scene, ways: u64) {
    let i = rng.below(scene.k() as u64) as usize;
    match rng.below(ways) {
        0..=2 => spoil_counts(rng, scene, i),
        3..=4 => spoil_mark(rng, scene, i),
        5..=9 => spoil_boundary(rng, scene, i),
        10..=12 => spoil_spent(rng, scene, i),
        13..=14 => spoil_word(rng, scene, i),
        15..=16 => spoil_mass(rng, scene, i),
        17..=19 => spoil_rounded(rng, scene),
        20..=21 => spoil_left_over(rng, scene, i),
        22 => spoil_length(rng, scene),
        23 => scene.draw = rng.pick(&[2, 255]),
        24 => spoil_all(rng, scene),
        _ => {
            let n = scene.state.n;
            spoil_plan(rng, &mut scene.plan, n);
        }
    }
}
