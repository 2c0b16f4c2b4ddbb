//! A test that is written, lost and read back, and what becomes of it: each call held to `kept`, and each later draw to
//! the test that was never saved.

use crate::host::{self, Plan, Record, State, Test, OPEN};
use crate::judge::{self, live, Fault, FIRST, PART};
use crate::kept;
use crate::outcomes::kind_of_refusal;
use crate::overlap::past_counts;
use crate::rng::Rng;
use crate::rows::{Outcome, Rows, MET};
use crate::saved_cases::{any_run, numbers_of};
use crate::scenes::{spoil_left_over, Scene};
use crate::wrong::{Wrong, READ, WRITE};

/// Draws to a test after its save, and to one that has ended.
const AFTER: usize = 6;
const PAST: usize = 8;

pub const AFTERWARDS: &str = "afterwards";
/// Mistakes of a reading that must show in the draws after it.
pub const LASTING: [Wrong; 5] = [
    Wrong::MassesReversed,
    Wrong::ThresholdsReversed,
    Wrong::SpentSwapped,
    Wrong::RoundedLost,
    Wrong::SettledBare,
];

// ---- one call by both

/// A writing into so many bytes; the form is the library's, none where it is refused.
pub fn write(rows: &mut Rows, rng: &mut Rng, scene: &Scene, room: usize) -> Option<Vec<u8>> {
    let (p, words) = (&scene.plan, &scene.words);
    // The answer that stands beside a state is not looked at.
    let s = &State { answer: rng.below(6) as u32, number: rng.next() as u32, ..scene.state };
    let lent = rng.bytes(room);
    let mut bytes = lent.clone();
    let got = host::write_test(*p, *s, words, &mut bytes);
    let judged = |wrong| {
        let mut bytes = lent.clone();
        (kept::write(p, s, words, &mut bytes, wrong), bytes)
    };
    let outcome = (got, bytes);
    let handed = || format!("{} words, {p:?}\n  {s:?}", words.len());
    rows.compare(WRITE, kind_of_refusal(got.refusal), &outcome, judged, handed);
    (got.refusal == 0).then(|| outcome.1[..got.size.min(room)].to_vec())
}

/// A reading into so many words: the library's outcome.
pub fn read(rows: &mut Rows, rng: &mut Rng, p: &Plan, bytes: &[u8], words: usize) -> Outcome<Test, u64> {
    let lent = vec![rng.next(); words];
    let mut words = lent.clone();
    let got = host::read_test(*p, bytes, &mut words);
    let judged = |wrong| {
        let mut words = lent.clone();
        (kept::read(p, bytes, &mut words, wrong), words)
    };
    let outcome = (got, words);
    rows.compare(READ, kind_of_refusal(got.refusal), &outcome, judged, || format!("{p:?}\n  {bytes:?}"));
    outcome
}

// ---- a test after a save

/// A test with the words that it was read into.
pub fn scene_of(plan: Plan, (test, words): Outcome<Test, u64>) -> Scene {
    let state = State { n: test.n, ones: test.ones, records: test.records, ..State::default() };
    Scene { plan, state, words, draw: 0 }
}

/// Equal tests (saved 4): n, S, the first K records and the masses of open thresholds.
fn equal(a: &Scene, b: &Scene) -> bool {
    let k = a.plan.count as usize;
    let masses = |scene: &Scene, r: &Record, i: usize| match r.mark {
        OPEN => live(r, &scene.words[PART * i..PART * (i + 1)]).to_vec(),
        _ => Vec::new(),
    };
    let same = |i: usize| {
        let (r, other) = (&a.state.records[i], &b.state.records[i]);
        r == other && masses(a, r, i) == masses(b, other, i)
    };
    (a.state.n, a.state.ones) == (b.state.n, b.state.ones) && (0..k).all(same)
}

/// All words but the masses of open thresholds zero, records past K as at a beginning.
fn bare(scene: &Scene) -> bool {
    let records = &scene.state.records;
    let zero = |(part, r): (&[u64], &Record)| {
        let from = if r.mark == OPEN { live(r, part).len() } else { 0 };
        part[from..].iter().all(|word| *word == 0)
    };
    let k = scene.plan.count as usize;
    scene.words.chunks(PART).zip(records).all(zero) && records[k..].iter().all(|r| *r == FIRST)
}

/// A test that was written, lost and read; nothing where a call refuses it.
pub fn through(rows: &mut Rows, rng: &mut Rng, scene: &Scene) -> Option<Scene> {
    let room = numbers_of(scene).store().len() + rng.pick(&[0, 1, 300]);
    let form = write(rows, rng, scene, room)?;
    let read = read(rows, rng, &scene.plan, &form, scene.words.len());
    let accepted = read.0.refusal == 0;
    let read = scene_of(scene.plan, read);
    let same = accepted && equal(scene, &read) && bare(&read);
    rows.holds(READ, same, || format!("not the test that was written: {:?} {form:?}", scene.plan));
    let again = write(rows, rng, &read, form.len());
    rows.holds(WRITE, again.as_ref() == Some(&form), || format!("not the bytes that were read: {form:?}"));
    Some(read)
}

/// Equal tests, whatever stands elsewhere, have equal bytes.
pub fn elsewhere(rows: &mut Rows, rng: &mut Rng, scene: &Scene) {
    let mut other = scene.clone();
    (0..scene.k()).for_each(|i| spoil_left_over(rng, &mut other, i));
    let form = numbers_of(scene).store();
    let written = write(rows, rng, &other, form.len());
    rows.holds(WRITE, written.as_ref() == Some(&form), || format!("not the bytes of an equal test: {form:?}"));
}

fn drawn(scene: &Scene, d: u8) -> Scene {
    let mut words = scene.words.clone();
    let state = judge::draw(&scene.plan, &scene.state, &mut words, d, Fault::None);
    Scene { state, words, ..scene.clone() }
}

fn drawn_by_library(scene: &Scene, d: u8) -> Scene {
    let mut words = scene.words.clone();
    let state = host::draw(scene.plan, scene.state, &mut words, d);
    Scene { state, words, ..scene.clone() }
}

fn same_answer(a: &Scene, b: &Scene) -> bool {
    (a.state.answer, a.state.number) == (b.state.answer, b.state.number)
}

/// The same draws to the test that was never saved and to the one that was read.
pub fn go_on(rows: &mut Rows, rng: &mut Rng, scene: &Scene, read: &Scene) {
    let draws: Vec<u8> = (0..AFTER).map(|_| rng.pick(&[0, 0, 0, 1, 1, 1, 2])).collect();
    let same = |from: &Scene, by: fn(&Scene, u8) -> Scene| {
        let (mut unsaved, mut saved) = (scene.clone(), from.clone());
        draws.iter().all(|d| {
            (unsaved, saved) = (drawn(&unsaved, *d), by(&saved, *d));
            same_answer(&unsaved, &saved) && equal(&unsaved, &saved)
        })
    };
    rows.count(READ, AFTERWARDS, "tests".into(), true);
    rows.holds(READ, same(read, drawn_by_library), || format!("draws {draws:?} to {:?} {:?}", scene.plan, scene.state));
    let form = numbers_of(scene).store();
    for wrong in LASTING {
        let mut words = vec![0; scene.words.len()];
        let test = kept::read(&scene.plan, &form, &mut words, wrong);
        let noticed = test.refusal > 0 || !same(&scene_of(scene.plan, (test, words)), drawn);
        rows.count(READ, AFTERWARDS, format!("{wrong:?} noticed"), noticed);
    }
}

pub fn carry(rows: &mut Rows, rng: &mut Rng, place: u64) {
    let (draft, draws) = any_run(rng, place);
    let plan = past_counts(rng, &draft);
    carry_under(rows, rng, plan, draws);
}

/// Carried from its beginning past its end, with saves between the draws; beside it the one that is never saved.
pub fn carry_under(rows: &mut Rows, rng: &mut Rng, plan: Plan, draws: Vec<u32>) {
    let lent = vec![rng.next(); PART * plan.count as usize];
    let mut scene = Scene { plan, state: State::default(), words: lent, draw: 0 };
    scene.state = judge::begin(&plan, &mut scene.words);
    let mut saved = scene.clone();
    let often = rng.pick(&[1, 4, 20, 60]);
    let mut past = 0;
    for d in draws {
        let ended = judge::report_on(&plan, &saved.state, Fault::None).answer != OPEN;
        past += ended as usize;
        if past > PAST {
            return;
        }
        if rng.chance(often, 60) {
            let kind = if ended { "ended" } else { "carried" };
            rows.count(WRITE, MET, format!("{kind} test saved"), true);
            let Some(read) = through(rows, rng, &saved) else { return };
            saved = read;
        }
        // The entry's draw has 8 bits.
        let d = d.min(255) as u8;
        (scene, saved) = (drawn(&scene, d), drawn_by_library(&saved, d));
        // A settled threshold's words are those of its step or, after a save, zeros (saved 5).
        let parts = scene.words.chunks(PART).zip(saved.words.chunks(PART)).zip(&scene.state.records);
        let words = parts.into_iter().all(|((a, b), r)| a == b || (r.mark != OPEN && b.iter().all(|word| *word == 0)));
        let same = same_answer(&scene, &saved) && equal(&scene, &saved) && words;
        let show = || format!("draw {d}\n  {plan:?}\n  never saved {:?}\n  saved {:?}", scene.state, saved.state);
        rows.holds(READ, same, show);
    }
}
