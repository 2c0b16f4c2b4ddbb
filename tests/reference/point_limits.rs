//! States under plans with points whose spent mass is at the limit of refusal 11, or one over it: drawn to, written and
//! read.

use crate::any_plan::plan_of_size;
use crate::any_points::{any_points, points_of_number};
use crate::draft::Draft;
use crate::host::{self, Plan, State, OPEN, REFUSED};
use crate::judge::{self, Fault};
use crate::kept;
use crate::misspent::{Misspent, MISSPENT};
use crate::outcomes::kind;
use crate::overlap::past_counts;
use crate::plan::{MOST_POINTS, WHOLE};
use crate::point_draws::{count, judged, seldom, Draws};
use crate::rng::Rng;
use crate::rows::{Rows, OUTCOMES};
use crate::saved_cases::numbers_of;
use crate::scenes::{made_up_at, Scene};
use crate::tally::{named, Counts};
use crate::through::{go_on, through, AFTERWARDS};
use crate::wrong::{Wrong, READ, WRITE};

const STATES: u64 = 16_000;
/// Every so many-th of them is saved.
const SAVED: u64 = 2;
/// How often each row must come up, and each mistake be noticed.
const NEEDED: u64 = 60;

/// E stands for what may be spent by the draws taken; the formula is that of the delay.
const ROWS: &str = "upper E: taken; upper E + 1: refused 11; lower E: taken; lower E + 1: refused 11; \
    0 before the first point: taken; 1 before the first point: refused 11; over the formula: taken; \
    within the formula: refused 11; at a point: taken; at a point: refused 11; one before a point: taken; \
    one before a point: refused 11; one after a point: taken; one after a point: refused 11";

/// About a point, at times one past the count: the step before it, its own, the one after; or any. A draw can follow.
fn about_point(rng: &mut Rng, p: &Plan) -> u64 {
    let last = p.horizon as u64 - 1;
    let any = rng.range(0, last);
    let Some(end) = p.placed().checked_sub(1) else { return any };
    let (counted, place) = (rng.range(0, end as u64), rng.below(MOST_POINTS as u64));
    let step = p.steps[rng.pick(&[counted, counted, end as u64, place]) as usize] as u64;
    let before = step.saturating_sub(1);
    rng.pick(&[before, before, step, step, step + 1, any]).min(last)
}

fn any_plan(rng: &mut Rng) -> Plan {
    let horizon = rng.scale(2, 700) as u32;
    let within = rng.pick(&[horizon, horizon / 2, horizon / 2]);
    let points = match rng.chance(1, 3) {
        true => points_of_number(rng, MOST_POINTS, within),
        false => any_points(rng, within),
    };
    let k = rng.pick(&[1, 1, 1, 3]);
    let draft = Draft { points, ..plan_of_size(rng, k, 1, horizon) };
    past_counts(rng, &draft)
}

/// A state that passes refusal 11 but for one spent mass: about what may be spent, by the rules or by a mistake.
struct Limit {
    scene: Scene,
    i: usize,
    upper: bool,
}

impl Limit {
    fn any(rng: &mut Rng) -> Limit {
        let plan = any_plan(rng);
        let n = about_point(rng, &plan);
        let mut scene = made_up_at(rng, plan, &[OPEN; 10], n);
        let i = rng.below(scene.k() as u64) as usize;
        scene.part(i)[0] = WHOLE as u64;
        let right = judge::spending(&plan, i, n as u32) as u64;
        let other = rng.pick(&MISSPENT).spending(&plan, i, n as u32) as u64;
        let spent = rng.pick(&[right, right, right + 1, right + 1, other, other + 1]);
        let upper = rng.chance(1, 2);
        let r = &mut scene.state.records[i];
        *(if upper { &mut r.over } else { &mut r.under }) = spent;
        Limit { scene, i, upper }
    }

    /// What the state is like, and what comes of the draw.
    fn note(&self, counts: &mut Counts<String>, got: &State) {
        let (p, n, r) = (&self.scene.plan, self.scene.state.n, &self.scene.state.records[self.i]);
        let (side, spent) = if self.upper { ("upper", r.over) } else { ("lower", r.under) };
        let limit = judge::spending(p, self.i, n) as u64;
        let formula = Misspent::FormulaAlways.spending(p, self.i, n) as u64;
        let outcome = if got.answer == REFUSED { kind(got.answer, got.number) } else { "taken".into() };
        let mut note = |row: &str, so: bool| count(counts, format!("{row}: {outcome}"), so);
        note(&format!("{side} E"), spent == limit);
        note(&format!("{side} E + 1"), spent == limit + 1);
        let steps = &p.steps[..p.placed()];
        let before = steps.first().is_some_and(|first| n < *first);
        note("0 before the first point", before && spent == 0);
        note("1 before the first point", before && spent == 1);
        note("over the formula", spent > formula && spent <= limit);
        note("within the formula", spent <= formula && spent > limit);
        note("at a point", steps.contains(&n));
        note("one before a point", steps.contains(&(n + 1)));
        note("one after a point", n > 0 && steps.contains(&(n - 1)));
    }
}

pub struct Tally {
    draws: Draws,
    counts: Counts<String>,
    rows: Rows,
}

impl Tally {
    fn compare(&mut self, rng: &mut Rng, limit: &Limit) {
        let scene = &limit.scene;
        let got = self.draws.compare(scene);
        limit.note(&mut self.counts, &got.0);
        self.draws.notice("drawn to at the limit", |fault| judged(scene, fault) != got);
        self.draws.compare_again(rng, scene, &got);
    }

    /// The state written.
    fn write(&mut self, rng: &mut Rng, scene: &Scene) {
        let (p, s) = (&scene.plan, &scene.state);
        let lent = rng.bytes(numbers_of(scene).store().len());
        let mut bytes = lent.clone();
        let got = (host::write_test(*p, *s, &scene.words, &mut bytes), bytes);
        let judged = |fault| {
            let mut bytes = lent.clone();
            (kept::write(p, s, &scene.words, &mut bytes, Wrong::Judge(fault)), bytes)
        };
        self.draws.differ.note(got == judged(Fault::None), || format!("write_test: {:?}: {p:?} {s:?}", got.0));
        self.draws.notice("written at the limit", |fault| judged(fault) != got);
        count(&mut self.counts, format!("write_test refused {}", got.0.refusal), true);
    }

    /// Its form read.
    fn read(&mut self, scene: &Scene) {
        let (p, form) = (&scene.plan, numbers_of(scene).store());
        let mut words = scene.words.clone();
        let got = (host::read_test(*p, &form, &mut words), words);
        let judged = |fault| {
            let mut words = scene.words.clone();
            (kept::read(p, &form, &mut words, Wrong::Judge(fault)), words)
        };
        let show = || format!("read_test: {:?}: {p:?} {:?}", got.0, scene.state);
        self.draws.differ.note(got == judged(Fault::None), show);
        self.draws.notice("read at the limit", |fault| judged(fault) != got);
        count(&mut self.counts, format!("read_test refused {}", got.0.refusal), true);
    }

    fn save(&mut self, rng: &mut Rng, scene: &Scene) {
        self.write(rng, scene);
        self.read(scene);
        if let Some(saved) = through(&mut self.rows, rng, scene) {
            go_on(&mut self.rows, rng, scene, &saved);
        }
    }

    pub fn print(&self) {
        println!("states at the limit of 11: {}", named(&self.counts));
        self.draws.print();
        self.rows.print();
    }

    pub fn faults(&self) -> Vec<String> {
        let mut out = seldom(&self.counts, ROWS, NEEDED);
        out.extend(self.draws.faults(NEEDED));
        out.extend(self.rows.faults());
        out
    }
}

pub fn compared(seed: u64) -> Tally {
    let mut tally = Tally { draws: Draws::default(), counts: Counts::new(), rows: Rows::untried() };
    tally.rows.need(WRITE, OUTCOMES, "done, refused 11", NEEDED);
    tally.rows.need(READ, OUTCOMES, "done", NEEDED);
    tally.rows.need(READ, AFTERWARDS, "tests", NEEDED);
    for place in 0..STATES {
        let rng = &mut Rng::new(seed, 53_000_000 + place);
        let limit = Limit::any(rng);
        tally.compare(rng, &limit);
        if place % SAVED == 0 {
            tally.save(rng, &limit.scene);
        }
    }
    tally
}
