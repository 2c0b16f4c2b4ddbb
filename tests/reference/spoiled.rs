//! The library's entries on good and spoiled plans, states, words and draws, each outcome held to `judge`.

use crate::draft::Draft;
use crate::examples::{crossing_plan, widening_plan};
use crate::host::{self, draft_of, plan_of, Plan, State, OPEN, REFUSED};
use crate::judge::{self, Fault, PART};
use crate::outcomes::{kind, kind_of_refusal, mistakes, name, Tally};
use crate::plan::read;
use crate::rng::Rng;
use crate::scenes::{good_plan, made_up, spoil, Scene};
use crate::tally::conclude;
use std::time::Instant;

const SCENES: u64 = 9000;
const SPOILS: u64 = 24;
/// Every so many-th spoiled draw is also judged with each mistake.
const MISTAKEN: u64 = 12;

fn shown(scene: &Scene, got: &State, expected: &State, word: Option<usize>) -> String {
    let call = format!("draw {} of {} words\n  {:?}", scene.draw, scene.words.len(), scene.plan);
    let states = format!("handed in {:?}\n  library   {got:?}\n  expected  {expected:?}", scene.state);
    format!("{call}\n  {states}\n  first word that differs: {word:?}")
}

/// One draw by both; the outcome is the library's.
fn compare_draw(tally: &mut Tally, group: &'static str, scene: &mut Scene) -> (State, Vec<u64>) {
    let (mut words, mut expected_words) = (scene.words.clone(), scene.words.clone());
    let got = host::draw(scene.plan, scene.state, &mut words, scene.draw);
    let expected = judge::draw(&scene.plan, &scene.state, &mut expected_words, scene.draw, Fault::None);
    let word = words.iter().zip(&expected_words).position(|(a, b)| a != b);
    let same = got == expected && word.is_none();
    tally.draws += 1;
    *tally.draws_by_k.entry(scene.plan.count).or_default() += 1;
    tally.note(group, kind(got.answer, got.number), same, || shown(scene, &got, &expected, word));
    tally.note_clauses(scene, &expected);
    if got.answer != REFUSED {
        tally.note_garbage(scene);
    }
    (got, words)
}

fn compare_mistakes(tally: &mut Tally, scene: &Scene, outcome: &(State, Vec<u64>)) {
    for fault in mistakes() {
        let mut words = scene.words.clone();
        let wrong = judge::draw(&scene.plan, &scene.state, &mut words, scene.draw, fault);
        let noticed = (wrong, words) != *outcome;
        *tally.noticed.entry(name(fault)).or_default() += noticed as u64;
    }
}

fn compare_begin(tally: &mut Tally, scene: &Scene) -> (State, Vec<u64>) {
    let (mut words, mut expected_words) = (scene.words.clone(), scene.words.clone());
    let got = host::begin(scene.plan, &mut words);
    let expected = judge::begin(&scene.plan, &mut expected_words);
    let same = got == expected && words == expected_words;
    tally.note("begin", kind(got.answer, got.number), same, || shown(scene, &got, &expected, None));
    (got, words)
}

fn compare_report(tally: &mut Tally, scene: &Scene) {
    let got = host::report_on(scene.plan, scene.state);
    let expected = judge::report_on(&scene.plan, &scene.state, Fault::None);
    let show = || format!("{got:?} for {expected:?}: {:?} {:?}", scene.plan, scene.state);
    tally.note("report_on", kind(got.answer, got.number), got == expected, show);
    let (got, expected) = (host::plan_refusal(scene.plan), judge::plan_refusal(&scene.plan));
    let show = || format!("{got} for {expected}: {:?}", scene.plan);
    tally.note("plan_refusal", kind_of_refusal(got), got == expected, show);
}

/// Writes into lent bytes of about the form's length.
fn compare_stored(tally: &mut Tally, rng: &mut Rng, plan: Plan) {
    let form = draft_of(&plan).map_or(vec![], |draft| draft.store());
    for len in [0, form.len().saturating_sub(1), form.len(), form.len() + 1, 400] {
        let mut bytes: Vec<u8> = (0..len).map(|_| rng.next() as u8).collect();
        let mut expected_bytes = bytes.clone();
        let got = host::write_plan(plan, &mut bytes);
        let expected = judge::write_plan(&plan, &mut expected_bytes);
        let same = got == expected && bytes == expected_bytes;
        tally.note("write_plan", kind_of_refusal(got.refusal), same, || format!("{len} bytes: {got:?}: {plan:?}"));
    }
    compare_read(tally, rng, &plan, form);
}

/// Reads the form; one byte short, one over, cut to a header and below, and with a count or an offset replaced.
fn compare_read(tally: &mut Tally, rng: &mut Rng, plan: &Plan, mut form: Vec<u8>) {
    form.resize(form.len().max(16), 0);
    let longer = [form.clone(), vec![0]].concat();
    let mut replaced = form.clone();
    let half: u16 = rng.pick(&[0, 1, 2, 10, 11, 16, 17, 28, u16::MAX]);
    let at = 2 * rng.below(4) as usize;
    replaced[at..at + 2].copy_from_slice(&half.to_le_bytes());
    for bytes in [&form[..], &longer, &replaced, &form[..form.len() - 1], &form[..15], &form[..16]] {
        let expected = match read(bytes) {
            Ok(_) => plan_of(&draft_of(plan).expect("counts that keep rule 1")),
            Err(refusal) => Plan { refusal: refusal as u32, ..Plan::default() },
        };
        let got = host::read_plan(bytes);
        let show = || format!("{bytes:?}: {got:?} for {expected:?}");
        tally.note("read_plan", kind_of_refusal(got.refusal), got == expected, show);
    }
}

/// A test at its beginning, its lent words all the same before.
fn begun(tally: &mut Tally, plan: Plan, word: u64) -> Scene {
    let words = vec![word; PART * plan.count as usize];
    let mut scene = Scene { plan, state: State::default(), words, draw: 0 };
    (scene.state, scene.words) = compare_begin(tally, &scene);
    scene
}

/// A test carried from its beginning for some draws, each compared.
fn carried(tally: &mut Tally, rng: &mut Rng, plan: Plan) -> Scene {
    let mut scene = begun(tally, plan, rng.next());
    let p = rng.unit();
    for _ in 0..rng.scale(1, 150) {
        scene.draw = (rng.unit() < p) as u8;
        let next = compare_draw(tally, "carried draw", &mut scene);
        if next.0.answer != OPEN {
            break;
        }
        (scene.state, scene.words) = next;
    }
    scene
}

/// A test carried by given draws to its end, each compared; its states from a step on.
fn carried_to_end(tally: &mut Tally, draft: &Draft, draws: impl Fn(u32) -> bool, from: u32) -> Vec<Scene> {
    let mut scene = begun(tally, plan_of(draft), 7);
    let mut out = Vec::new();
    while scene.state.answer == OPEN {
        scene.draw = draws(scene.state.n) as u8;
        (scene.state, scene.words) = compare_draw(tally, "carried draw", &mut scene);
        if scene.state.n >= from {
            out.push(scene.clone());
        }
    }
    out
}

/// Tests whose boundaries spread to the full 769 counts, and one that crosses.
fn chosen(tally: &mut Tally) -> Vec<Scene> {
    let mut out = carried_to_end(tally, &crossing_plan(), |n| n >= 80, 90);
    for horizon in [768, 769, 50_000] {
        out.extend(carried_to_end(tally, &widening_plan(horizon), |n| n % 2 == 1, 764));
    }
    out
}

fn run_scene(tally: &mut Tally, rng: &mut Rng, good: &Scene) {
    for _ in 0..SPOILS {
        let mut scene = good.clone();
        scene.draw = rng.below(2) as u8;
        for _ in 0..rng.pick(&[0, 1, 1, 1, 1, 2, 2, 2]) {
            spoil(rng, &mut scene);
        }
        compare_report(tally, &scene);
        let outcome = compare_draw(tally, "spoiled draw", &mut scene);
        if tally.draws % MISTAKEN == 0 {
            compare_mistakes(tally, &scene, &outcome);
        }
        if rng.chance(1, 6) {
            compare_begin(tally, &scene);
            compare_stored(tally, rng, scene.plan);
        }
    }
}

pub fn run(seed: u64) -> bool {
    let began = Instant::now();
    let mut tally = Tally::default();
    for place in 0..SCENES {
        let rng = &mut Rng::new(seed, 40_000_000 + place);
        let plan = good_plan(rng);
        let good = match place % 2 {
            0 => carried(&mut tally, rng, plan),
            _ => made_up(rng, plan),
        };
        run_scene(&mut tally, rng, &good);
    }
    let rng = &mut Rng::new(seed, 41_000_000);
    for good in chosen(&mut tally) {
        run_scene(&mut tally, rng, &good);
    }
    println!("spoiled: seed {seed}, {:.1} s", began.elapsed().as_secs_f64());
    tally.print();
    let mut faults = tally.missing();
    faults.extend(tally.differ.fault());
    conclude(&faults, "spoiled: all outcomes agree")
}
