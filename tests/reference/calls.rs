//! The two calls for C: printed trials, chains of calls from a beginning, and calls with any saved bytes, each held to
//! `kept`; a chain besides to the test that is carried without saves.

use crate::damage::put;
use crate::draft::plan_f;
use crate::form::{length, LONGEST};
use crate::form_damage::in_turn;
use crate::host::{self, draft_of, plan_of, State, OPEN};
use crate::judge::{self, Fault, PART};
use crate::kept::{self, code};
use crate::outcomes::kind_of_refusal;
use crate::rng::Rng;
use crate::rows::{Outcome, Rows, MET, OUTCOMES};
use crate::saved_cases::{any_run, any_scene, numbers_of, plan_bytes, sound_scene, OTHER_DRAWS};
use crate::saved_examples::{bytes_of, small_forms, Printed, Replaced, FORMS, IN_OPEN, IN_SETTLED, OLDER, PLAN_F};
use crate::saved_examples::{F_AFTER_0, F_AFTER_11111, G_AFTER_0100};
use crate::scenes::Scene;
use crate::tally::conclude;
use crate::wrong::{Wrong, BEGIN, CHAIN, DRAW};
use std::cmp::Ordering;
use std::time::Instant;

const CHAINS: u64 = 160;
const SCENES: u64 = 2600;
/// Spoiled ones of each scene.
const SPOILS: u64 = 8;
/// Draws to a test that has ended.
const PAST: usize = 8;
/// How often each row must come up, and each mistake be noticed.
const NEEDED: u64 = 20;
const NOTICED: u64 = 4;

// ---- one call by both

pub fn kind(number: u32) -> String {
    match number {
        100 => "open".into(),
        101..=116 => "decided".into(),
        120 => "crossed".into(),
        130 => "wide".into(),
        140 => "spent".into(),
        refusal => kind_of_refusal(refusal),
    }
}

/// The form at the start of lent bytes, as long as it says.
pub fn form_in(lent: &[u8]) -> &[u8] {
    let whole = lent.get(8..12).map_or(0, |four| four.iter().rev().fold(0, |sum, byte| sum << 8 | *byte as usize));
    &lent[..whole.min(lent.len())]
}

fn begin(rows: &mut Rows, rng: &mut Rng, plan: &[u8], room: usize) -> Outcome<u32, u8> {
    let lent = rng.bytes(room);
    let mut bytes = lent.clone();
    let got = (host::call_begin(plan, &mut bytes), bytes);
    let judged = |wrong| {
        let mut bytes = lent.clone();
        (kept::begin(plan, &mut bytes, wrong), bytes)
    };
    rows.compare(BEGIN, kind(got.0), &got, judged, || format!("plan {plan:?}"));
    got
}

/// The bytes that a draw is handed, and their draw.
#[derive(Clone, Copy)]
struct Call<'a> {
    plan: &'a [u8],
    saved: &'a [u8],
    d: u32,
}

fn draw(rows: &mut Rows, rng: &mut Rng, entry: &'static str, call: Call, room: usize) -> Outcome<u32, u8> {
    let Call { plan, saved, d } = call;
    let lent = rng.bytes(room);
    let mut bytes = lent.clone();
    let got = (host::call_draw(plan, saved, d, &mut bytes), bytes);
    let judged = |wrong| {
        let mut bytes = lent.clone();
        (kept::draw(plan, saved, d, &mut bytes, wrong), bytes)
    };
    rows.compare(entry, kind(got.0), &got, judged, || format!("draw {d}\n  plan {plan:?}\n  saved {saved:?}"));
    got
}

// ---- printed trials

/// A number of a form replaced, with the draws 0 and 2.
fn compare_replaced(rows: &mut Rows, rng: &mut Rng, (draft, .., form): Printed, (at, size, other, number): Replaced) {
    let (plan, mut saved) = (draft().store(), bytes_of(form));
    put(&mut saved, at, size, other);
    for (d, number) in [(0, number), (2, if number == 15 { 15 } else { 9 })] {
        let got = draw(rows, rng, DRAW, Call { plan: &plan, saved: &saved, d }, 200).0;
        rows.holds(DRAW, got == number, || format!("{other} at {at} of {form}, draw {d}: {got} for {number}"));
    }
}

fn compare_examples(rows: &mut Rows, rng: &mut Rng) {
    let plan = bytes_of(PLAN_F);
    rows.holds(BEGIN, plan == plan_f().store(), || "plan F is not as printed".into());
    for (plan, room, number) in [(&plan[..], 67, 12), (&plan[..43], 67, 7), (&[], 68, 7)] {
        let got = begin(rows, rng, plan, room).0;
        rows.holds(BEGIN, got == number, || format!("{} bytes of the plan, {room} lent: {got} for {number}", plan.len()));
    }
    for (draft, draws, number, form) in FORMS {
        let (plan, k) = (draft().store(), draft().thresholds.len());
        let mut last = begin(rows, rng, &plan, length(k, k));
        for d in draws {
            rows.holds(DRAW, last.0 == 100, || format!("{draws:?}: {} before the last", last.0));
            last = draw(rows, rng, DRAW, Call { plan: &plan, saved: form_in(&last.1), d: *d }, LONGEST);
        }
        let same = last.0 == number && form_in(&last.1) == bytes_of(form);
        rows.holds(DRAW, same, || format!("{draws:?}: {} with {:?}", last.0, form_in(&last.1)));
    }
    for (draft, _, form) in OLDER {
        for d in [0, 1, 2] {
            let got = draw(rows, rng, DRAW, Call { plan: &draft().store(), saved: &bytes_of(form), d }, LONGEST).0;
            rows.holds(DRAW, got == 15, || format!("older layout, draw {d}: {got}: {form}"));
        }
    }
    let (ended, open) = (bytes_of(F_AFTER_11111.3), [bytes_of(F_AFTER_0.3), vec![0]].concat());
    let [ended, cut, open, short, long] = [&ended[..60], &ended[..59], &open[..76], &open[..75], &open[..77]];
    let ended = [(ended, 1, 68, 10), (ended, 2, 68, 9), (ended, 1, 0, 10), (cut, 2, 68, 15)];
    let open = [(open, 0, 84, 100), (open, 0, 83, 12), (short, 0, 84, 15), (long, 0, 84, 15), (long, 2, 84, 15)];
    for (saved, d, room, number) in ended.into_iter().chain(open) {
        let got = draw(rows, rng, DRAW, Call { plan: &plan, saved, d }, room).0;
        rows.holds(DRAW, got == number, || format!("{saved:?}, draw {d}, {room} lent: {got} for {number}"));
    }
    IN_OPEN.into_iter().for_each(|replaced| compare_replaced(rows, rng, F_AFTER_0, replaced));
    IN_SETTLED.into_iter().for_each(|replaced| compare_replaced(rows, rng, G_AFTER_0100, replaced));
}

// ---- chains

/// Room for the new form, and about as much; at times about as much as the old one has.
fn any_room(rng: &mut Rng, new: usize, old: usize) -> usize {
    let any = rng.below(new.max(old) as u64 + 1) as usize;
    let about = rng.pick(&[new - 1, new, new, new + 1, new + 8, new + 700]);
    rng.pick(&[about, about, about, old, old.saturating_sub(1), any, 0])
}

/// From a beginning past the end, each call with the form of the last one that was accepted. A draw that 12 refused is
/// handed over again, most times.
fn chain(rows: &mut Rows, rng: &mut Rng, place: u64) {
    let (draft, mut draws) = any_run(rng, place);
    let (plan, p, k) = (draft.store(), plan_of(&draft), draft.thresholds.len());
    let room = rng.pick(&[0, length(k, k) - 1, length(k, k) - 8]);
    begin(rows, rng, &plan, room);
    let begun = begin(rows, rng, &plan, length(k, k) + room % 2).1;
    let mut saved = form_in(&begun).to_vec();
    let mut carried = Scene { plan: p, state: State::default(), words: vec![rng.next(); PART * k], draw: 0 };
    carried.state = judge::begin(&p, &mut carried.words);
    rows.holds(CHAIN, saved == numbers_of(&carried).store(), || format!("begun: {saved:?}"));
    let (tight, mut past) = (rng.pick(&[1, 6, 20]), 0);
    draws.reverse();
    while let Some(d) = draws.pop() {
        past += (judge::report_on(&p, &carried.state, Fault::None).answer != OPEN) as usize;
        if past > PAST {
            return;
        }
        let mut next = carried.clone();
        next.state = judge::draw(&p, &carried.state, &mut next.words, d.min(2) as u8, Fault::None);
        let form = numbers_of(&next).store();
        let room = if rng.chance(tight, 20) { any_room(rng, form.len(), saved.len()) } else { form.len() };
        let got = draw(rows, rng, CHAIN, Call { plan: &plan, saved: &saved, d }, room);
        let number = match code(next.state.answer, next.state.number, Wrong::None) {
            100.. if room < form.len() => 12,
            number => number,
        };
        let same = got.0 == number && (number < 100 || form_in(&got.1) == form);
        rows.holds(CHAIN, same, || format!("{} for {number}, draw {d}, {room} lent: {draft:?}", got.0));
        if !same {
            return;
        }
        if number >= 100 {
            (carried, saved) = (next, form);
        } else if number == 12 && rng.chance(4, 5) {
            draws.push(d);
        }
    }
}

// ---- any plan and saved bytes

/// How many bytes the new form has, of a draw that is taken.
fn new_length(plan: &[u8], saved: &[u8], d: u32) -> Option<usize> {
    let mut lent = vec![0; LONGEST];
    let number = kept::draw(plan, saved, d, &mut lent, Wrong::None);
    (number >= 100).then(|| form_in(&lent).len())
}

fn compare_call(rows: &mut Rows, rng: &mut Rng, plan: &[u8], saved: &[u8], d: u32) {
    let new = new_length(plan, saved, d);
    let room = any_room(rng, new.unwrap_or(68), saved.len());
    let got = draw(rows, rng, DRAW, Call { plan, saved, d }, room).0;
    if let Some(new) = new {
        let longer = match new.cmp(&saved.len()) {
            Ordering::Less => "shorter",
            Ordering::Equal => "equal",
            Ordering::Greater => "longer",
        };
        let lent = match room as i64 - new as i64 {
            ..-1 => "fewer",
            -1 => "one less",
            0 => "exactly",
            1 => "one more",
            _ => "more",
        };
        rows.count(DRAW, MET, format!("{longer} form with {lent} lent"), true);
    } else if got == 9 {
        rows.count(DRAW, MET, format!("{d} refused"), true);
    }
}

/// The older layout is refused, whatever the test, the draw and the room.
fn compare_older(rows: &mut Rows, rng: &mut Rng, good: &Scene) {
    let plan = draft_of(&good.plan).expect("counts that keep rule 1").store();
    let (saved, d, room) = (numbers_of(good).store_older(), rng.pick(&[0, 1, 2]), rng.pick(&[0, LONGEST]));
    let got = draw(rows, rng, DRAW, Call { plan: &plan, saved: &saved, d }, room).0;
    rows.count(DRAW, MET, format!("older layout: {}", kind(got)), true);
    rows.holds(DRAW, got == 15, || format!("older layout, draw {d}: {got}: {plan:?} {saved:?}"));
}

fn compare_scene(rows: &mut Rows, rng: &mut Rng) {
    let good = sound_scene(rng);
    if rng.chance(1, 4) {
        compare_older(rows, rng, &good);
    }
    for _ in 0..SPOILS {
        let (scene, saved) = any_scene(rng, &good);
        let plan = plan_bytes(rng, &scene, &good);
        let other = rng.pick(&OTHER_DRAWS);
        let d = rng.pick(&[0, 0, 0, 1, 1, 1, other]);
        compare_call(rows, rng, &plan, &saved, d);
        let size = length(scene.k(), scene.k());
        let room = rng.pick(&[0, size - 1, size, size + 1, size + 300]);
        begin(rows, rng, &plan, room);
    }
}

fn needed(rows: &mut Rows) {
    let refusals = "refused 1, refused 2, refused 3, refused 4, refused 5, refused 6, refused 7, refused 14, refused 12";
    for entry in [BEGIN, DRAW] {
        rows.need(entry, OUTCOMES, refusals, NEEDED);
        rows.need_noticed(entry, NOTICED);
    }
    rows.need_noticed(CHAIN, NOTICED);
    rows.need(BEGIN, OUTCOMES, "open", 1000);
    rows.need(DRAW, OUTCOMES, "open, decided, crossed, wide, spent, refused 15, refused 9, refused 10, refused 11", NEEDED);
    rows.need(CHAIN, OUTCOMES, "open, decided, refused 9, refused 10, refused 12", NEEDED);
    rows.need(CHAIN, OUTCOMES, "crossed, wide, spent", 1);
    for new in ["shorter", "longer"] {
        for lent in ["fewer", "one less", "exactly", "one more", "more"] {
            rows.need(DRAW, MET, &format!("{new} form with {lent} lent"), NEEDED);
        }
    }
    rows.need(DRAW, MET, "older layout: refused 15", 500);
    OTHER_DRAWS.iter().for_each(|d| rows.need(DRAW, MET, &format!("{d} refused"), NEEDED));
}

pub fn run(seed: u64) -> bool {
    let began = Instant::now();
    let rows = &mut Rows::default();
    needed(rows);
    let rng = &mut Rng::new(seed, 63_000_000);
    compare_examples(rows, rng);
    for (draft, form) in small_forms() {
        for saved in in_turn(rng, &form) {
            let d = rng.pick(&[0, 0, 0, 1, 1, 1, 2]);
            compare_call(rows, rng, &draft.store(), &saved, d);
        }
    }
    for place in 0..CHAINS {
        chain(rows, &mut Rng::new(seed, 64_000_000 + place), place);
    }
    for place in 0..SCENES {
        compare_scene(rows, &mut Rng::new(seed, 65_000_000 + place));
    }
    println!("calls: seed {seed}, {:.1} s", began.elapsed().as_secs_f64());
    rows.print();
    conclude(&rows.faults(), "calls: all numbers and bytes agree")
}
