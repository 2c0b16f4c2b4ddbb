//! Tests written as bytes and read back: printed forms, carried and made-up tests, and damaged bytes of all kinds.

use crate::form::{held, LONGEST};
use crate::form_damage::{headers_off, in_turn};
use crate::host::{plan_of, Plan, Record, OPEN};
use crate::judge::{most_rounded, PART};
use crate::outcomes::kind_of_refusal;
use crate::rng::Rng;
use crate::rows::{Rows, MET, OUTCOMES};
use crate::saved_cases::{any_scene, numbers_of, sound_scene, widest_scene};
use crate::saved_examples::{bytes_of, carried, small_forms, FORMS, OLDER};
use crate::scenes::{good_plan, Scene};
use crate::tally::conclude;
use crate::through::{carry, elsewhere, go_on, read, scene_of, through, write, AFTERWARDS, LASTING};
use crate::wrong::{Wrong, READ, WRITE};
use std::time::Instant;

const RUNS: u64 = 120;
const SCENES: u64 = 2000;
/// Spoiled ones of each scene.
const SPOILS: u64 = 9;
/// Every so many-th scene has each number of its form's header off in turn.
const HEADERS: u64 = 40;
/// How often each row must come up, and each mistake be noticed.
const NEEDED: u64 = 20;
const NOTICED: u64 = 10;

/// Masses rounded at their limit or beyond it.
fn rounded_at(r: &Record, n: u32) -> Option<String> {
    let number = match r.rounded as u64 {
        rounded if rounded == most_rounded(n) => "769 n",
        rounded if rounded == most_rounded(n) + 1 => "769 n + 1",
        rounded if rounded == u32::MAX as u64 => "2^32 - 1",
        _ => return None,
    };
    Some(format!("{} with {number} rounded", if r.mark == OPEN { "open" } else { "settled" }))
}

/// A boundary, a count of masses or masses rounded at a limit, and what comes of it.
fn note_limits(rows: &mut Rows, k: usize, bytes: &[u8], outcome: &str) {
    let mut note = |what: String| rows.count(READ, MET, format!("{what}: {outcome}"), true);
    let state = held(k, bytes, Wrong::None).state;
    for r in &state.records[..k] {
        let count = r.upper as i64 - r.lower as i64 - 1;
        rounded_at(r, state.n).into_iter().for_each(&mut note);
        match r.mark {
            OPEN if [0, 1, 769, 770].contains(&count) => note(format!("{count} counted")),
            OPEN if [i32::MIN, i32::MAX].contains(&r.lower) => note(format!("lower {}", r.lower)),
            OPEN if r.upper == u32::MAX => note(format!("upper {}", r.upper)),
            OPEN => {}
            _ if r.lower < -1 && r.upper >> 31 == 1 && r.over >> 63 == 1 => note("settled with large numbers".into()),
            _ => {}
        }
    }
}

/// Any bytes, read; what is accepted is written again.
fn read_any(rows: &mut Rows, rng: &mut Rng, p: &Plan, bytes: &[u8], words: usize) {
    let read = read(rows, rng, p, bytes, words);
    let refusal = read.0.refusal;
    if (1..=10).contains(&p.count) {
        note_limits(rows, p.count as usize, bytes, &kind_of_refusal(refusal));
    }
    if refusal == 0 {
        rows.count(READ, MET, format!("{} thresholds", p.count), true);
        let again = write(rows, rng, &scene_of(*p, read), bytes.len());
        rows.holds(WRITE, again.as_deref() == Some(bytes), || format!("not the bytes that were read: {p:?} {bytes:?}"));
    }
}

/// The older layout is refused, whatever the test.
fn read_older(rows: &mut Rows, rng: &mut Rng, scene: &Scene) {
    let older = numbers_of(scene).store_older();
    let refusal = read(rows, rng, &scene.plan, &older, scene.words.len()).0.refusal;
    rows.count(READ, MET, format!("older layout: {}", kind_of_refusal(refusal)), true);
    rows.holds(READ, refusal == 15, || format!("older layout: {refusal}: {:?} {older:?}", scene.plan));
}

/// Lent bytes of about the form's length.
fn write_about(rows: &mut Rows, rng: &mut Rng, scene: &Scene) {
    let size = numbers_of(scene).store().len();
    let (fewer, more) = (rng.below(size as u64) as usize, size + rng.range(2, 3000) as usize);
    for room in [0, fewer, size - 1, size, size + 1, more] {
        let done = write(rows, rng, scene, room).is_some();
        let row = match room as i64 - size as i64 {
            by @ -1..=1 => format!("lent {by:+}"),
            _ => format!("lent {}", if room < size { "fewer" } else { "more" }),
        };
        rows.count(WRITE, MET, format!("{row}: {}", if done { "done" } else { "refused" }), true);
    }
}

/// A test through a save; then it and its form, spoiled and damaged.
fn compare_scene(rows: &mut Rows, rng: &mut Rng, good: &Scene) {
    read_older(rows, rng, good);
    if let Some(read) = through(rows, rng, good) {
        elsewhere(rows, rng, good);
        go_on(rows, rng, good, &read);
    }
    for _ in 0..SPOILS {
        let (scene, bytes) = any_scene(rng, good);
        match rng.chance(1, 9) {
            true => write_about(rows, rng, &scene),
            false => drop(write(rows, rng, &scene, numbers_of(&scene).store().len())),
        }
        read_any(rows, rng, &scene.plan, &bytes, scene.words.len());
    }
    // Under another plan, which may have as many thresholds.
    let other = good_plan(rng);
    read_any(rows, rng, &other, &numbers_of(good).store(), PART * other.count as usize);
}

fn compare_examples(rows: &mut Rows, rng: &mut Rng) {
    for (draft, draws, _, form) in FORMS {
        let test = carried(&draft(), draws);
        let written = write(rows, rng, &test, LONGEST);
        rows.holds(WRITE, written == Some(bytes_of(form)), || format!("not as printed: {form}"));
        through(rows, rng, &test);
    }
    for (draft, draws, form) in OLDER {
        let test = carried(&draft(), draws);
        let older = numbers_of(&test).store_older();
        rows.holds(READ, older == bytes_of(form), || format!("not as printed before: {form}"));
        read_older(rows, rng, &test);
    }
    let widest = widest_scene();
    let written = write(rows, rng, &widest, LONGEST);
    rows.holds(WRITE, written.is_some_and(|form| form.len() == LONGEST), || "not the longest form".into());
    write_about(rows, rng, &widest);
    through(rows, rng, &widest);
}

fn needed(rows: &mut Rows) {
    let refusals = "refused 1, refused 2, refused 3, refused 4, refused 5, refused 6, refused 14, refused 8, refused 11";
    for entry in [WRITE, READ] {
        rows.need(entry, OUTCOMES, refusals, NEEDED);
        rows.need(entry, OUTCOMES, "done", 1000);
        rows.need_noticed(entry, NOTICED);
    }
    rows.need(WRITE, OUTCOMES, "refused 12", 1000);
    rows.need(READ, OUTCOMES, "refused 15", 1000);
    rows.need(WRITE, MET, "lent fewer: refused, lent -1: refused, lent +0: done, lent +1: done, lent more: done", 200);
    rows.need(WRITE, MET, "carried test saved, ended test saved", 50);
    rows.need(READ, MET, "0 counted: refused 15, 1 counted: done, 769 counted: done, 770 counted: refused 15", NEEDED);
    for boundary in ["lower -2147483648", "lower 2147483647", "upper 4294967295"] {
        rows.need(READ, MET, &format!("{boundary}: refused 15"), NEEDED);
    }
    rows.need(READ, MET, "settled with large numbers: done", NEEDED);
    for mark in ["open", "settled"] {
        rows.need(READ, MET, &format!("{mark} with 769 n rounded: done"), NEEDED);
        rows.need(READ, MET, &format!("{mark} with 769 n + 1 rounded: refused 11"), NEEDED);
        rows.need(READ, MET, &format!("{mark} with 2^32 - 1 rounded: refused 11"), NEEDED);
    }
    rows.need(READ, MET, "older layout: refused 15", SCENES);
    (1..=10).for_each(|k| rows.need(READ, MET, &format!("{k} thresholds"), NEEDED));
    rows.need(READ, AFTERWARDS, "tests", 1000);
    LASTING.iter().for_each(|wrong| rows.need(READ, AFTERWARDS, &format!("{wrong:?} noticed"), NEEDED));
}

pub fn run(seed: u64) -> bool {
    let began = Instant::now();
    let rows = &mut Rows::default();
    needed(rows);
    let rng = &mut Rng::new(seed, 60_000_000);
    compare_examples(rows, rng);
    for (draft, form) in small_forms() {
        for bytes in in_turn(rng, &form) {
            read_any(rows, rng, &plan_of(&draft), &bytes, PART * draft.thresholds.len());
        }
    }
    for place in 0..RUNS {
        carry(rows, &mut Rng::new(seed, 61_000_000 + place), place);
    }
    for place in 0..SCENES {
        let rng = &mut Rng::new(seed, 62_000_000 + place);
        let good = sound_scene(rng);
        compare_scene(rows, rng, &good);
        if place % HEADERS == 0 {
            for bytes in headers_off(rng, &numbers_of(&good)) {
                read_any(rows, rng, &good.plan, &bytes, good.words.len());
            }
        }
    }
    println!("saved: seed {seed}, {:.1} s", began.elapsed().as_secs_f64());
    rows.print();
    conclude(&rows.faults(), "saved: all bytes, words and records agree")
}
