//! Random tests to be saved, and bytes that may be handed on as saved ones.

use crate::any_plan::{any_horizon, any_plan, plan_of_size};
use crate::damage::{allowance, bucket, counts, cover, delay_or_horizon, order, threshold};
use crate::damage::{extend, flip_bits, header, truncate};
use crate::draft::Draft;
use crate::draws::draws;
use crate::examples::{crossing_plan, widening_plan, with_thresholds};
use crate::form::Numbers;
use crate::form_damage::{damage, damage_bytes};
use crate::host::{draft_of, plan_of, Record, State, ABOVE, AT_MOST, OPEN};
use crate::judge::{most_rounded, PART};
use crate::kept::fitting;
use crate::overlap::{any_marks, before_marks, overlapping_run, past_counts};
use crate::rng::Rng;
use crate::scenes::{any_rounded, good_plan, made_up, made_up_with, often_settled, spoil, spoil_judged, Scene};
use crate::wrong::Wrong;

/// The values of a draw beside 0 and 1; of the last byte alone some are 0 or 1.
pub const OTHER_DRAWS: [u32; 7] = [2, 255, 256, 257, 1 << 31, (1 << 31) + 1, u32::MAX];

/// Draws to be carried, other values among them, and some after the end.
pub fn mixed(rng: &mut Rng, draws: Vec<bool>) -> Vec<u32> {
    let often = rng.pick(&[0, 5, 30]);
    let more: Vec<bool> = (0..4).map(|_| rng.chance(1, 2)).collect();
    let mut out = Vec::new();
    for d in draws.into_iter().chain(more) {
        if rng.chance(often, 100) {
            out.push(rng.pick(&OTHER_DRAWS));
        }
        out.push(d as u32);
    }
    out
}

/// Ten thresholds that never settle: the longest forms there are.
pub fn widest_plan() -> Draft {
    let thresholds: Vec<u32> = (1..=10).map(|i| 90_000 * i).collect();
    Draft { horizon: 50_000, ..with_thresholds(&thresholds, 1) }
}

/// The longest form: every threshold wide.
pub fn widest_scene() -> Scene {
    let mut state = State { n: 768, ones: 384, ..State::default() };
    let rounded = most_rounded(state.n) as u32;
    state.records.fill(Record { mark: OPEN, step: 0, lower: -1, upper: 769, over: 0, under: 0, rounded });
    let words = (0..10 * PART as u64).map(|i| (1 << 34) + i).collect();
    Scene { plan: plan_of(&widest_plan()), state, words, draw: 0 }
}

/// A plan and draws of any value, past the end of the test.
pub fn any_run(rng: &mut Rng, place: u64) -> (Draft, Vec<u32>) {
    let (draft, draws) = match place % 8 {
        _ if place == 0 => (widest_plan(), (0..1200).map(|_| rng.chance(1, 2)).collect()),
        _ if place == 1 => (widening_plan(50_000), (0..1200).map(|n| n % 2 == 1).collect()),
        2 => (crossing_plan(), (0..120).map(|n| n >= 80).collect()),
        3..=4 => overlapping_run(rng),
        _ => {
            let (least, horizon) = (rng.pick(&[1, 1, 1000]), any_horizon(rng));
            let draft = any_plan(rng, least, horizon);
            let length = rng.scale(1, 150) as usize;
            let draws = draws(rng, &draft, length);
            (draft, draws)
        }
    };
    (draft, mixed(rng, draws))
}

/// A state that passes 11, at times about to end or to be wide, or with no open threshold.
pub fn sound_scene(rng: &mut Rng) -> Scene {
    let (any, horizon, least) = (rng.range(1, 10) as usize, any_horizon(rng), rng.pick(&[1, 1, 1000]));
    let k = rng.pick(&[1, 1, 2, 3, any, any]);
    let draft = plan_of_size(rng, k, least, horizon);
    let plan = past_counts(rng, &draft);
    match rng.below(10) {
        0..=1 => {
            let marks = any_marks(rng, plan.count);
            before_marks(rng, plan, &marks)
        }
        2..=3 => widening_scene(rng),
        4 => {
            let marks = [(); 10].map(|_| rng.pick(&[ABOVE, AT_MOST]));
            made_up_with(rng, plan, &marks)
        }
        5..=6 => {
            // The inner two settle and no bucket is decided.
            let inner = rng.pick(&[[ABOVE, OPEN], [OPEN, AT_MOST], [ABOVE, AT_MOST], [ABOVE, ABOVE], [AT_MOST, ABOVE]]);
            let marks = std::array::from_fn(|i| if i == 1 || i == 2 { inner[i - 1] } else { OPEN });
            made_up_with(rng, plan_of(&crossing_plan()), &marks)
        }
        _ => made_up(rng, plan),
    }
}

/// With one live count fewer than a wide walk has, or wide already.
fn widening_scene(rng: &mut Rng) -> Scene {
    let at = rng.range(1, 999_999) as u32;
    let any = rng.pick(&[766, 767, 768, 769, 769]);
    let plan = plan_of(&Draft { horizon: rng.pick(&[768, 769, 50_000]), ..with_thresholds(&[at], 1) });
    let state = State { n: any.min(plan.horizon), ones: rng.below(766) as u32, ..State::default() };
    let mut scene = Scene { plan, state, words: vec![1 << 42; PART], draw: rng.below(2) as u8 };
    let rounded = any_rounded(rng, state.n);
    scene.state.records[0] = Record { mark: OPEN, upper: any.min(768) + 1, lower: -1, rounded, ..Record::default() };
    scene
}

/// The form of any state, its words cut or filled up where they are too many or too few.
pub fn numbers_of(scene: &Scene) -> Numbers {
    Numbers::of(scene.k(), &scene.state, &fitting(&scene.words, scene.k()), Wrong::None)
}

/// What 11 seldom judges alone: a boundary one further, S at a boundary, or past n where none is open; steps and masses
/// rounded of settled records.
fn spoil_marked(rng: &mut Rng, scene: &mut Scene) {
    let n = scene.state.n;
    let r = &mut scene.state.records[often_settled(rng, scene)];
    let (lower, past) = (r.lower as u32, n.wrapping_add(1));
    let most = most_rounded(n).min(u32::MAX as u64) as u32;
    match (r.mark, rng.below(4)) {
        (OPEN, 0) => r.upper = r.upper.wrapping_add(1),
        (OPEN, 1) => r.lower = r.lower.wrapping_sub(1),
        (OPEN, _) => scene.state.ones = rng.pick(&[lower, lower.wrapping_add(1), r.upper.wrapping_sub(1), r.upper]),
        (_, 0) => scene.state.ones = past,
        (_, 1) => r.rounded = rng.pick(&[most, most.saturating_add(1)]),
        _ => r.step = rng.pick(&[0, 1, n, past]),
    }
}

/// At times the plan or the number of words is refused too.
fn spoil_beside(rng: &mut Rng, scene: &mut Scene) {
    match (rng.below(14), draft_of(&scene.plan)) {
        (0, _) => drop(scene.words.pop()),
        (1, _) => scene.words.push(0),
        (2..=3, Some(mut draft)) => {
            // Twice what seldom breaks its rule.
            let ways = [counts, threshold, order, allowance, allowance, delay_or_horizon, bucket, cover, cover];
            rng.pick(&ways)(rng, &mut draft);
            scene.plan = plan_of(&draft);
        }
        _ => {}
    }
}

/// A scene, spoiled or not, and bytes that may be handed on as saved ones: its form, damaged or not, at times in the
/// older layout.
pub fn any_scene(rng: &mut Rng, good: &Scene) -> (Scene, Vec<u8>) {
    let mut scene = good.clone();
    let ways = [spoil, spoil_judged, spoil_judged, spoil_judged, spoil_marked, spoil_marked, spoil_marked];
    for _ in 0..rng.pick(&[0, 1, 1, 1, 1, 2]) {
        rng.pick(&ways)(rng, &mut scene);
    }
    spoil_beside(rng, &mut scene);
    let mut form = numbers_of(&scene);
    for _ in 0..rng.pick(&[0, 0, 0, 0, 1, 1, 2]) {
        damage(rng, &mut form);
    }
    let mut bytes = if rng.chance(1, 24) { form.store_older() } else { form.store() };
    if rng.chance(1, 8) {
        damage_bytes(rng, &mut bytes);
    }
    (scene, bytes)
}

/// The plan's bytes, at times those of another plan; damaged ones where it has none, and at times.
pub fn plan_bytes(rng: &mut Rng, scene: &Scene, good: &Scene) -> Vec<u8> {
    let plan = if rng.chance(1, 16) { good_plan(rng) } else { scene.plan };
    let stored = draft_of(&plan).map(|draft| draft.store());
    let damaged = stored.is_none() || rng.chance(1, 12);
    let mut out = stored.unwrap_or_else(|| draft_of(&good.plan).expect("counts that keep rule 1").store());
    if damaged {
        rng.pick(&[header, header, truncate, extend, flip_bits])(rng, &mut out);
    }
    out
}
