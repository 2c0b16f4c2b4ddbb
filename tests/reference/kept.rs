//! What saved 2, 3 and 6 settle of one call, for whatever it is handed.

use crate::draft::Draft;
use crate::form::{held, length, Held, Numbers};
use crate::host::{draft_of, plan_of, Plan, Record, State, Test, Written};
use crate::host::{CROSSED, DECIDED, OPEN, REFUSED, SPENT, WIDE};
use crate::judge::{self, answer, live, plan_refusal, Fault, PART};
use crate::plan;
use crate::wrong::{Wrong, PLAN, ROUNDED};
use std::borrow::Cow;

/// A refusal with its number, 0 where it does not refuse.
fn judged(number: u32, refuses: bool) -> (u32, u32) {
    (number, if refuses { number } else { 0 })
}

/// The first refusal in an order, 0 for none.
fn first<const LEN: usize>(mut order: [(u32, u32); LEN], wrong: Wrong) -> u32 {
    if let Wrong::Before(late, early) = wrong {
        let place = |number| order.iter().position(|(of, _)| *of == number);
        if let (Some(early), Some(late)) = (place(early), place(late)) {
            order[early..=late].rotate_right(1);
        }
    }
    order.into_iter().map(|(_, refusal)| refusal).find(|refusal| *refusal > 0).unwrap_or(0)
}

/// As many words as the thresholds need.
pub fn fitting(words: &[u64], k: usize) -> Cow<'_, [u64]> {
    let needed = PART * k;
    match words.len() < needed {
        true => [words, &vec![0; needed - words.len()]].concat().into(),
        false => words[..needed].into(),
    }
}

fn fault_of(wrong: Wrong) -> Fault {
    if let Wrong::Judge(fault) = wrong { fault } else { Fault::None }
}

/// Refusal 11, also where the plan is refused, but not by rule 1 or for its delay.
fn eleven(p: &Plan, s: &State, words: &[u64], wrong: Wrong) -> (u32, u32) {
    judged(11, p.delay > 0 && judge::spoiled(p, s, words, fault_of(wrong)))
}

/// Masses rounded apart from the rest of 11, where their place is the mistake.
fn rounded(p: &Plan, s: &State, wrong: Wrong) -> (u32, u32) {
    let apart = matches!(wrong, Wrong::Before(ROUNDED, _));
    (ROUNDED, judged(11, apart && judge::rounded_over(p, s)).1)
}

fn eight(p: &Plan, words: &[u64]) -> (u32, u32) {
    judged(8, words.len() as u128 != PART as u128 * p.count as u128)
}

fn twelve(lent: &[u8], size: usize, wrong: Wrong) -> (u32, u32) {
    judged(12, lent.len() < size + (wrong == Wrong::TwelveByOneMore) as usize)
}

/// The form at the start of the lent bytes, unless the call is refused.
fn lend(form: &[u8], lent: &mut [u8], refusal: u32, wrong: Wrong) {
    if refusal > 0 && wrong != Wrong::RefusedWrites(refusal) {
        return;
    }
    let size = form.len().min(lent.len());
    lent[..size].copy_from_slice(&form[..size]);
    if wrong == Wrong::BehindCleared {
        lent[size..].fill(0);
    }
}

/// What a writing hands back; the bytes are changed in place.
pub fn write(p: &Plan, s: &State, words: &[u64], lent: &mut [u8], wrong: Wrong) -> Written {
    if draft_of(p).is_none() {
        return Written { refusal: first([(PLAN, 1), eight(p, words)], wrong), size: 0 };
    }
    let fitting = fitting(words, p.count as usize);
    let form = Numbers::of(p.count as usize, s, &fitting, wrong).store();
    let (spoiled, rounded) = (eleven(p, s, &fitting, wrong), rounded(p, s, wrong));
    let room = twelve(lent, form.len(), wrong);
    let refusal = first([(PLAN, plan_refusal(p)), eight(p, words), spoiled, rounded, room], wrong);
    lend(&form, lent, refusal, wrong);
    let told = refusal == 0 || wrong == Wrong::RefusedHandsBack(refusal);
    Written { refusal, size: if told { form.len() } else { 0 } }
}

/// The words of an accepted reading.
fn fill(held: &Held, words: &mut [u64], wrong: Wrong) {
    for (i, (part, new)) in words.chunks_mut(PART).zip(held.words.chunks(PART)).enumerate() {
        let r = &held.state.records[i];
        let from = match wrong {
            Wrong::SettledKept if r.mark != OPEN => continue,
            Wrong::BehindLiveKept if r.mark == OPEN => live(r, new).len(),
            _ => part.len(),
        };
        let from = from.min(part.len());
        part[..from].copy_from_slice(&new[..from]);
    }
}

/// What a reading hands back; the words are changed in place.
pub fn read(p: &Plan, bytes: &[u8], words: &mut [u64], wrong: Wrong) -> Test {
    let refused = |refusal: u32| Test { refusal, ..Test::default() };
    if draft_of(p).is_none() {
        return refused(first([(PLAN, 1), eight(p, words)], wrong));
    }
    let held = held(p.count as usize, bytes, wrong);
    let spoiled = eleven(p, &held.state, &held.words, wrong);
    let unfit = judged(15, !held.reasons.is_empty());
    let order = [(PLAN, plan_refusal(p)), eight(p, words), unfit, spoiled, rounded(p, &held.state, wrong)];
    let refusal = first(order, wrong);
    if refusal == 0 || wrong == Wrong::RefusedWrites(refusal) {
        fill(&held, words, wrong);
    }
    if refusal > 0 && wrong != Wrong::RefusedHandsBack(refusal) {
        return refused(refusal);
    }
    let State { n, ones, mut records, .. } = held.state;
    if wrong == Wrong::PastZero {
        records[p.count as usize..].fill(Record::default());
    }
    Test { refusal, n, ones, records }
}

/// The number that a call returns for an answer.
pub fn code(answer: u32, number: u32, wrong: Wrong) -> u32 {
    let swapped = wrong == Wrong::CrossedWideSwapped;
    match answer {
        OPEN => 100,
        DECIDED => 100 + number - (wrong == Wrong::BucketFrom0) as u32,
        CROSSED => if swapped { 130 } else { 120 },
        WIDE => if swapped { 120 } else { 130 },
        SPENT => 140,
        REFUSED => number,
        other => panic!("{other} is no answer"),
    }
}

/// The plan of stored bytes, where all but its rules 2 to 6 is kept; and what refuses the bytes.
fn stored_plan(bytes: &[u8]) -> (u32, Option<Plan>) {
    let draft = |of: plan::Plan| Draft {
        thresholds: of.thresholds.iter().map(|t| (t.at as u32, t.allowance as u64)).collect(),
        delay: of.delay as u32,
        horizon: of.horizon as u32,
        buckets: of.buckets.iter().map(|b| (b.left as u32, b.right as u32)).collect(),
        points: Vec::new(),
    };
    let refusal = plan::read(bytes).err().unwrap_or(0) as u32;
    (refusal, plan::parsed(bytes).ok().map(|of| plan_of(&draft(of))))
}

/// What the call that begins returns; the bytes are changed in place.
pub fn begin(plan: &[u8], lent: &mut [u8], wrong: Wrong) -> u32 {
    let (refusal, Some(p)) = stored_plan(plan) else { return stored_plan(plan).0 };
    let k = p.count as usize;
    let refusal = first([(PLAN, refusal), twelve(lent, length(k, k), wrong)], wrong);
    let mut words = vec![0; PART * k];
    let state = judge::begin(&p, &mut words);
    lend(&Numbers::of(k, &state, &words, wrong).store(), lent, refusal, wrong);
    if refusal > 0 { refusal } else { code(state.answer, state.number, wrong) }
}

/// What the call of a draw returns; the bytes are changed in place.
pub fn draw(plan: &[u8], saved: &[u8], draw: u32, lent: &mut [u8], wrong: Wrong) -> u32 {
    let (refusal, Some(p)) = stored_plan(plan) else { return stored_plan(plan).0 };
    let k = p.count as usize;
    let Held { reasons, mut state, mut words } = held(k, saved, wrong);
    let draw = if wrong == Wrong::DrawOf8Bits { draw % 256 } else { draw };
    let (unfit, nine) = (judged(15, !reasons.is_empty()), judged(9, draw > 1));
    let ten = judged(10, refusal == 0 && answer(&p, &state, Fault::None).answer != OPEN);
    let (spoiled, rounded) = (eleven(&p, &state, &words, wrong), rounded(&p, &state, wrong));
    let before = [(PLAN, refusal), unfit, nine, ten, spoiled, rounded];
    let mut form = saved.to_vec();
    if first(before, wrong) == 0 {
        state = judge::draw(&p, &state, &mut words, draw as u8, fault_of(wrong));
        form = Numbers::of(k, &state, &words, wrong).store();
    }
    let size = if wrong == Wrong::TwelveByOld { saved.len() } else { form.len() };
    let [plan, unfit, nine, ten, spoiled, rounded] = before;
    let refusal = first([plan, unfit, nine, ten, spoiled, rounded, twelve(lent, size, wrong)], wrong);
    lend(&form, lent, refusal, wrong);
    if refusal > 0 { refusal } else { code(state.answer, state.number, wrong) }
}
