//! The library's runs: carried ones held to the whole list of their draws, any other record to `limits`, and all orders
//! of a few results to their shares.

use crate::host::{self, Run, RUN_ENDED, RUN_OPEN, RUN_REFUSED};
use crate::limits::{self, mistakes, mistakes_of_begin, name, Fault};
use crate::met::{Met, BEGIN, CARRIED, OTHER};
use crate::orders;
use crate::rng::Rng;
use crate::tally::conclude;
use crate::whole::Whole;
use std::time::Instant;

const RUNS: u64 = 1200;
/// So many of them have the largest size, with these stop counts in turn.
const LARGEST: u64 = 20;
const STOPS: [usize; 4] = [1, 500, 49_998, 49_999];
const RECORDS: u64 = 400_000;
/// Every so many-th record is also judged with each mistake.
const MISTAKEN: u64 = 4;
/// Draws handed to a run that has ended.
const PAST: usize = 6;

fn compare_begin(met: &mut Met, h: u32, n: u32) -> Run {
    let (got, expected) = (host::count_begin(h, n), limits::begin(h, n, Fault::None));
    met.note(BEGIN, &got, got == expected, || format!("h {h}, n {n}\n  library  {got:?}\n  expected {expected:?}"));
    met.note_begin(h, n, &got);
    got
}

fn shown(handed: &Run, d: u8, got: &Run, expected: &Run) -> String {
    format!("draw {d}\n  handed in {handed:?}\n  library   {got:?}\n  expected  {expected:?}")
}

/// A run carried from its beginning and past its end, each call held to the whole list: the answer that ended it.
fn carry(met: &mut Met, whole: &Whole) -> Option<(u32, u32)> {
    let mut run = compare_begin(met, whole.stop as u32, whole.size as u32);
    let mut answer = None;
    for (at, d) in whole.draws.iter().enumerate() {
        if whole.rank(at) > whole.last() + PAST {
            break;
        }
        let (got, expected) = (host::count_draw(run, *d), whole.outcome(at));
        let same = got == expected && limits::draw(&run, *d, Fault::None) == expected;
        met.note(CARRIED, &got, same, || shown(&run, *d, &got, &expected));
        if got.answer == RUN_ENDED {
            met.note_end(&got);
            answer = Some((got.first, got.second));
        }
        run = got;
    }
    answer
}

fn compare_draw(met: &mut Met, handed: &Run, d: u8) -> Run {
    let (got, expected) = (host::count_draw(*handed, d), limits::draw(handed, d, Fault::None));
    met.note(OTHER, &got, got == expected, || shown(handed, d, &got, &expected));
    met.note_draw(handed, d, &got);
    got
}

// ---- the rules' examples

type Example = (usize, usize, Vec<u8>, (u32, u32));

/// A stop count and a size, the draws, and the answer at the last of them.
fn examples() -> Vec<Example> {
    let then = |zeros: usize, ones: usize| [vec![0; zeros], vec![1; ones]].concat();
    vec![
        (1, 2, vec![1], (1, 1)),
        (1, 2, vec![0], (1, 2)),
        (2, 4, vec![1, 1], (2, 2)),
        (2, 4, vec![0, 1, 1], (2, 3)),
        (2, 4, vec![0, 0, 1], (2, 4)),
        (2, 4, vec![0, 0, 0], (1, 4)),
        (10, 1000, then(0, 10), (10, 10)),
        (10, 1000, then(990, 9), (10, 1000)),
        (10, 1000, then(989, 10), (10, 999)),
    ]
}

/// h, n, l and g with a draw, and the answer.
const STEPS: [([u32; 4], u8, [u32; 3]); 6] = [
    ([2, 5, 2, 1], 1, [RUN_ENDED, 2, 3]),
    ([2, 5, 3, 1], 0, [RUN_ENDED, 2, 5]),
    ([2, 5, 3, 1], 1, [RUN_ENDED, 2, 4]),
    ([2, 5, 3, 2], 1, [RUN_REFUSED, 10, 0]),
    ([2, 5, 5, 1], 1, [RUN_REFUSED, 11, 0]),
    ([5, 5, 0, 0], 1, [RUN_REFUSED, 13, 0]),
];

const RESULTS: [u64; 4] = [2, 3, 1, 4];

/// Draws, records and an order with their answers as printed; what is another is listed.
fn printed(met: &mut Met) -> Vec<String> {
    let mut out = Vec::new();
    for (h, n, draws, answer) in examples() {
        let last = draws.len();
        let whole = Whole::new(h, n, draws);
        if carry(met, &whole) != Some(answer) || whole.last() != last {
            out.push(format!("example {h}, {n}: {answer:?} at draw {last}"));
        }
    }
    for ([stop, size, taken, ones], d, answer) in STEPS {
        let record = Run { stop, size, taken, ones, ..Run::default() };
        let got = compare_draw(met, &record, d);
        if [got.answer, got.first, got.second] != answer {
            out.push(format!("example {record:?}, draw {d}: {answer:?}"));
        }
    }
    let (right, wrong) = (orders::draws(&RESULTS), orders::draws_of_smaller(&RESULTS));
    if right != [1, 0, 1] || orders::library_answer(2, 4, &right) != Some((2, 3)) {
        out.push("example results 2, 3, 1, 4".into());
    }
    if orders::library_answer(2, 4, &wrong) == Some((2, 3)) {
        out.push("results 2, 3, 1, 4: smaller ones counted are not noticed".into());
    }
    out
}

// ---- carried runs

/// n - 1 draws of one chance, or with a number of ones about h; at times the last is a one.
fn valid_draws(rng: &mut Rng, h: usize, n: usize) -> Vec<u8> {
    if rng.chance(1, 2) {
        let (any, near) = (rng.unit(), h as f64 / n as f64);
        let p = rng.pick(&[0.0, 1.0, any, any.powi(8), near, near]);
        return (1..n).map(|_| (rng.unit() < p) as u8).collect();
    }
    let ones = rng.pick(&[h - 1, h, h, h + 1]);
    let mut draws: Vec<u8> = (1..n).map(|place| (place <= ones) as u8).collect();
    rng.shuffle(&mut draws);
    if rng.chance(1, 2) {
        let one = draws.iter().position(|d| *d == 1).unwrap_or(0);
        draws.swap(one, n - 2);
    }
    draws
}

/// Draws of other values mixed in, and some after the end.
fn mixed(rng: &mut Rng, mut valid: Vec<u8>) -> Vec<u8> {
    valid.extend((0..PAST).map(|_| rng.below(2) as u8));
    let often = rng.pick(&[0, 0, 2, 40]);
    let mut out = Vec::new();
    for d in valid {
        while rng.chance(often, 100) {
            out.push(rng.scale(2, 255) as u8);
        }
        out.push(d);
    }
    out
}

fn any_run(rng: &mut Rng, place: u64) -> Whole {
    let n = rng.scale(2, 50_000);
    let (any, small) = (rng.range(1, n - 1), rng.scale(1, n - 1));
    let h = rng.pick(&[1, any, small, small, n - 1]);
    let (h, n) = match place < LARGEST {
        true => (STOPS[place as usize % STOPS.len()], 50_000),
        false => (h as usize, n as usize),
    };
    let valid = valid_draws(rng, h, n);
    Whole::new(h, n, mixed(rng, valid))
}

// ---- any record

/// One of these or beside it; at times any number.
fn near(rng: &mut Rng, marks: &[u32]) -> u32 {
    let any = rng.next() as u32;
    match rng.below(12) {
        0 => rng.pick(&[0, 1, u32::MAX, any]),
        _ => rng.pick(marks).wrapping_add(rng.pick(&[0, 1, u32::MAX])),
    }
}

/// One number in two is within what the others leave it, so that each limit is met while the others are kept.
fn any_record(rng: &mut Rng) -> Run {
    let either = |rng: &mut Rng, within: u64, marks: &[u32]| match rng.chance(1, 2) {
        true => within as u32,
        false => near(rng, marks),
    };
    let (few, within) = (rng.range(2, 9) as u32, rng.scale(2, 50_000));
    let size = either(rng, within, &[1, few, 50_000]);
    let before = size.wrapping_sub(1);
    let within = rng.scale(1, before.max(1).into());
    let stop = either(rng, within, &[1, before, size, 50_000]);
    let within = rng.range(0, before.into());
    let taken = either(rng, within, &[0, stop, before, size, 50_000]);
    let within = rng.range(0, taken.min(stop.saturating_sub(1)).into());
    let ones = either(rng, within, &[0, stop, taken, before, size, 50_000]);
    let answer = rng.below(4) as u32;
    Run { answer, first: rng.next() as u32, second: rng.next() as u32, stop, size, taken, ones }
}

fn compare_record(met: &mut Met, rng: &mut Rng, place: u64) {
    let (record, d) = (any_record(rng), rng.pick(&[0, 0, 1, 1, 1, 2, 255]));
    let got = compare_draw(met, &record, d);
    let begun = compare_begin(met, record.stop, record.size);
    if place % MISTAKEN != 0 {
        return;
    }
    for fault in mistakes() {
        met.note_mistake(OTHER, name(fault), limits::draw(&record, d, fault) != got);
    }
    for fault in mistakes_of_begin() {
        met.note_mistake(BEGIN, name(fault), limits::begin(record.stop, record.size, fault) != begun);
    }
}

/// Every record and draw of small numbers.
fn small_records(met: &mut Met) {
    for place in 0..7 * 7 * 9 * 9 * 3 {
        let [stop, size, taken, ones] = [place % 7, place / 7 % 7, place / 49 % 9, place / 441 % 9];
        compare_draw(met, &Run { answer: RUN_OPEN, stop, size, taken, ones, ..Run::default() }, (place / 3969) as u8);
    }
}

pub fn run(seed: u64) -> bool {
    let began = Instant::now();
    let mut met = Met::default();
    let mut faults = printed(&mut met);
    for place in 0..RUNS {
        let whole = any_run(&mut Rng::new(seed, 50_000_000 + place), place);
        carry(&mut met, &whole);
    }
    small_records(&mut met);
    let rng = &mut Rng::new(seed, 51_000_000);
    for place in 0..RECORDS {
        compare_record(&mut met, rng, place);
    }
    let shares = orders::all(&mut Rng::new(seed, 52_000_000));
    println!("counting: seed {seed}, {:.1} s", began.elapsed().as_secs_f64());
    met.print();
    shares.print();
    faults.extend(met.faults());
    faults.extend(shares.faults());
    conclude(&faults, "counting: all outcomes agree")
}
