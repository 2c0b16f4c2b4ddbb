//! Tests under plans with points, carried from a beginning to the end: each draw held to `judge` and to the reference's
//! own walk; and carried through saves.

use crate::any_plan::plan_of_size;
use crate::any_points::{any_points, points_of_number};
use crate::boundary::{Quick, Slip};
use crate::draft::Draft;
use crate::draws::draws;
use crate::host::{self, Plan, Record, State, ABOVE, AT_MOST, OPEN};
use crate::host::{CROSSED, DECIDED, SPENT, WIDE};
use crate::judge::{self, Fault, PART};
use crate::outcomes::kind;
use crate::overlap::past_counts;
use crate::plan::{LARGEST_ALLOWANCE, MOST_POINTS};
use crate::point_draws::{count, judged, seldom, Draws, Outcome};
use crate::random::crossing_run;
use crate::rng::Rng;
use crate::rows::{Rows, MET};
use crate::saved_cases::mixed;
use crate::scenes::Scene;
use crate::sequential::{Answer, Mark, Test};
use crate::tally::{named, Counts};
use crate::through::carry_under;
use crate::wrong::WRITE;

const RUNS: u64 = 2000;
const CROSSING_RUNS: u64 = 40;
/// Runs with nothing to spend by step 768, and as many with a point there.
const WIDE_RUNS: u64 = 24;
const SAVED_RUNS: u64 = 160;
/// Every so many-th draw is also judged with each mistake.
const MISTAKEN: u64 = 3;

/// How often each row must come up, and each mistake be noticed; and the rarer rows.
const NEEDED: u64 = 60;
const ROWS: &str = "ended decided; ended spent; upper dropped by one; upper dropped by more; \
    upper dropped and still open; lower rose by more; 0 marked above; 0 marked at most; 1 marked above; \
    1 marked at most; share 1,000,000 from step 1; one point at N; eight points";
const RARE_NEEDED: u64 = 20;
const RARE: &str = "ended crossed; ended wide; no points";

// ---- plans and draws

fn any_size(rng: &mut Rng, horizon: u32) -> Draft {
    let any = rng.range(1, 10) as usize;
    let (k, least) = (rng.pick(&[1, 1, 2, 3, any]), rng.pick(&[1, 1 << 30, 1 << 38]));
    plan_of_size(rng, k, least, horizon)
}

/// Of several kinds: all from step 1, all at N, nothing for a while and then much, eight, two, any, none.
fn points_for(rng: &mut Rng, place: u64, horizon: u32) -> Vec<(u32, u32)> {
    let share = rng.range(1, 1_000_000) as u32;
    let late = rng.range(1, horizon as u64) as u32;
    match place % 8 {
        0 => vec![(1, 1_000_000)],
        1 => vec![(horizon, rng.pick(&[share, 1_000_000]))],
        2 => vec![(late, rng.pick(&[share, 1_000_000]))],
        3 => points_of_number(rng, MOST_POINTS, (horizon / 2).max(1)),
        4 => points_of_number(rng, 2, horizon),
        5 if rng.chance(1, 4) => Vec::new(),
        _ => any_points(rng, horizon),
    }
}

/// A plan, and draws up to its horizon.
type Run = (Draft, Vec<bool>);

fn any_run(rng: &mut Rng, place: u64) -> Run {
    let horizon = rng.scale(2, 160) as u32;
    let points = points_for(rng, place, horizon);
    let draft = Draft { points, ..any_size(rng, horizon) };
    let draws = draws(rng, &draft, horizon as usize);
    (draft, draws)
}

fn crossing(rng: &mut Rng) -> Run {
    let points = [(1, rng.range(200_000, 1_000_000) as u32), (rng.range(2, 300) as u32, 1_000_000)];
    crossing_run(rng, &points)
}

/// Nothing to spend by step 768, in one of several ways; any draws.
fn widening(rng: &mut Rng, place: u64) -> Run {
    let horizon = rng.pick(&[769, 770, 900, 50_000]);
    let (horizon, points) = match place % 4 {
        0 => (horizon, vec![(769, 1_000_000)]),
        1 => (horizon, vec![(rng.range(769, horizon as u64) as u32, rng.range(0, 1_000_000) as u32)]),
        2 => (768, vec![(1, 0), (700, 0), (768, 0)]),
        _ => (horizon, vec![(300, 0), (horizon, 1_000_000)]),
    };
    let any = rng.unit();
    let p = rng.pick(&[0.0, 1.0, any, any]);
    let draws = (0..768).map(|_| rng.unit() < p).collect();
    (Draft { points, ..plan_of_size(rng, 1 + place as usize % 3, 1, horizon) }, draws)
}

/// Something to spend at step 768 and not before: it is not wide there.
fn narrowing(rng: &mut Rng) -> Run {
    let mut draft = Draft { points: vec![(768, 1_000_000)], ..plan_of_size(rng, 1, 1, 780) };
    draft.thresholds[0].1 = rng.range(1 << 36, LARGEST_ALLOWANCE);
    let p = draft.thresholds[0].0 as f64 / 1e6;
    let draws = (0..780).map(|_| rng.unit() < p).collect();
    (draft, draws)
}

// ---- the reference's own walk

fn answer_of(test: &Test) -> (u32, u32) {
    match test.answer() {
        Answer::Open => (OPEN, 0),
        Answer::Decided(place) => (DECIDED, place as u32),
        Answer::Crossed => (CROSSED, 0),
        Answer::Wide => (WIDE, 0),
        Answer::Spent => (SPENT, 0),
    }
}

fn record_of(test: &Test, i: usize) -> Record {
    let walk = &test.boundaries[i];
    let (mark, step) = match test.marks[i] {
        Mark::Open => (OPEN, 0),
        Mark::Above(step) => (ABOVE, step as u32),
        Mark::AtMost(step) => (AT_MOST, step as u32),
    };
    Record {
        mark,
        step,
        lower: walk.lower as i32,
        upper: walk.upper as u32,
        over: walk.spent_above as u64,
        under: walk.spent_below as u64,
        rounded: walk.rounded as u32,
    }
}

/// Is the outcome that of the walk, in every word too, and are records past K as at the beginning?
fn as_walked(test: &Test, state: &State, words: &[u64]) -> bool {
    let k = test.marks.len();
    let same_words = |(part, walk): (&[u64], &Quick)| {
        part.iter().zip(walk.lower + 1..).all(|(word, count)| *word as u128 == walk.mass(count))
    };
    (state.n as u64, state.ones as u64) == (test.draws, test.ones)
        && (state.answer, state.number) == answer_of(test)
        && (0..k).all(|i| state.records[i] == record_of(test, i))
        && words.chunks(PART).zip(&test.boundaries).all(same_words)
        && state.records[k..].iter().all(|r| *r == judge::FIRST)
}

// ---- carried tests

fn note_plan(counts: &mut Counts<String>, p: &Plan) {
    let first = (p.steps[0], p.shares[0]);
    count(counts, "share 1,000,000 from step 1", p.points == 1 && first == (1, 1_000_000));
    count(counts, "one point at N", p.points == 1 && first.0 == p.horizon);
    count(counts, "eight points", p.points == 8);
    count(counts, "no points", p.points == 0);
}

/// What a draw does to the thresholds that were open.
fn note_draw(counts: &mut Counts<String>, scene: &Scene, after: &State) {
    let records = scene.state.records.iter().zip(&after.records).take(scene.plan.count as usize);
    for (before, after) in records.filter(|(before, _)| before.mark == OPEN) {
        let dropped = before.upper.saturating_sub(after.upper);
        count(counts, "upper dropped by one", dropped == 1);
        count(counts, "upper dropped by more", dropped > 1);
        count(counts, "upper dropped and still open", dropped > 0 && after.mark == OPEN);
        count(counts, "lower rose by more", after.lower > before.lower + 1);
        count(counts, format!("{} marked above", scene.draw), after.mark == ABOVE);
        count(counts, format!("{} marked at most", scene.draw), after.mark == AT_MOST);
    }
}

pub struct Tally {
    draws: Draws,
    counts: Counts<String>,
    rows: Rows,
}

impl Tally {
    fn begin(&mut self, rng: &mut Rng, plan: Plan, test: &Test) -> Scene {
        note_plan(&mut self.counts, &plan);
        let mut words = vec![rng.next(); PART * plan.count as usize];
        let state = host::begin(plan, &mut words);
        self.draws.differ.note(as_walked(test, &state, &words), || format!("begin: {state:?}: {plan:?}"));
        Scene { plan, state, words, draw: 0 }
    }

    /// One draw by the library, by `judge` and by the walk.
    fn draw(&mut self, rng: &mut Rng, scene: &Scene, test: &mut Test) -> Outcome {
        let (got, taken) = (self.draws.compare(scene), test.take(scene.draw as u64).is_ok());
        let show = || format!("not as walked: {:?}\n  {:?}\n  {:?}", got.0, scene.plan, scene.state);
        self.draws.differ.note(taken && as_walked(test, &got.0, &got.1), show);
        note_draw(&mut self.counts, scene, &got.0);
        if self.draws.draws % MISTAKEN == 0 {
            self.draws.notice("carried", |fault| judged(scene, fault) != got);
            self.draws.compare_again(rng, scene, &got);
        }
        got
    }

    /// A test carried from its beginning to its end, or as far as the draws go; the last state.
    fn carry(&mut self, rng: &mut Rng, (draft, draws): &Run) -> State {
        let held = draft.plan();
        let plan = past_counts(rng, draft);
        let mut test = Test::begin(&held, Slip::None);
        let mut scene = self.begin(rng, plan, &test);
        for draw in draws {
            scene.draw = *draw as u8;
            (scene.state, scene.words) = self.draw(rng, &scene, &mut test);
            if scene.state.answer != OPEN {
                break;
            }
        }
        self.report(&plan, &scene.state);
        scene.state
    }

    fn report(&mut self, p: &Plan, s: &State) {
        let (got, expected) = (host::report_on(*p, *s), judge::report_on(p, s, Fault::None));
        let same = got == expected && (got.answer, got.number) == (s.answer, s.number);
        self.draws.differ.note(same, || format!("report_on: {got:?} for {expected:?}: {p:?} {s:?}"));
        count(&mut self.counts, format!("ended {}", kind(s.answer, s.number)), true);
    }

    fn carry_all(&mut self, seed: u64) {
        for place in 0..RUNS {
            let rng = &mut Rng::new(seed, 50_000_000 + place);
            let run = any_run(rng, place);
            self.carry(rng, &run);
        }
        for place in 0..CROSSING_RUNS {
            let rng = &mut Rng::new(seed, 51_000_000 + place);
            let run = crossing(rng);
            self.carry(rng, &run);
        }
        for place in 0..WIDE_RUNS {
            let rng = &mut Rng::new(seed, 52_000_000 + place);
            let run = widening(rng, place);
            let end = self.carry(rng, &run);
            let wide = end.answer == WIDE && end.n == 768;
            self.draws.differ.note(wide, || format!("not wide at 768: {end:?} {:?}", run.0));
            let run = narrowing(rng);
            let end = self.carry(rng, &run);
            self.draws.differ.note(end.answer != WIDE, || format!("wide, with a point at 768: {end:?} {:?}", run.0));
        }
    }

    fn save_all(&mut self, seed: u64) {
        for place in 0..SAVED_RUNS {
            let rng = &mut Rng::new(seed, 54_000_000 + place);
            let (draft, draws) = any_run(rng, place);
            let plan = past_counts(rng, &draft);
            let draws = mixed(rng, draws);
            carry_under(&mut self.rows, rng, plan, draws);
        }
    }

    pub fn print(&self) {
        println!("carried tests: {}", named(&self.counts));
        self.draws.print();
        self.rows.print();
    }

    pub fn faults(&self) -> Vec<String> {
        let mut out = seldom(&self.counts, ROWS, NEEDED);
        out.extend(seldom(&self.counts, RARE, RARE_NEEDED));
        out.extend(self.draws.faults(NEEDED));
        out.extend(self.rows.faults());
        out
    }
}

pub fn compared(seed: u64) -> Tally {
    let mut tally = Tally { draws: Draws::default(), counts: Counts::new(), rows: Rows::untried() };
    tally.rows.need(WRITE, MET, "carried test saved, ended test saved", NEEDED);
    tally.carry_all(seed);
    tally.save_all(seed);
    tally
}
