//! The reference held to the rules' own examples and facts; no program is needed.

use crate::agreement;
use crate::any_points::points_of_number;
use crate::boundary::{spending, By, Literal, Quick, Slip, WIDE};
use crate::case::{Case, Feed};
use crate::chances;
use crate::damaged::{damaged_case, DAMAGED_RUNS};
use crate::draft::{plan_f, star_plan, Draft};
use crate::examples::{self, gap_plan, half_allowance_plan, largest_plan, narrower_plan};
use crate::host::Record;
use crate::judge::{self, Fault};
use crate::lapses::{lapses, Judged, Lapse};
use crate::lines::kind_of_line;
use crate::plan::{read, LARGEST_ALLOWANCE, MOST_POINTS, WHOLE};
use crate::point_facts::by_points;
use crate::random::{random_case, CROSSED_FROM, CROSSED_RUNS};
use crate::rng::Rng;
use crate::runner::start;
use crate::sequential::{program, program_with, Answer, Mark, Test};
use crate::tally::{named, Counts};
use std::collections::BTreeMap;
use std::path::Path;
use std::process::Child;
use std::time::Instant;

struct Report {
    passed: u32,
    failed: u32,
}

impl Report {
    fn check(&mut self, name: &str, good: bool) {
        if good {
            self.passed += 1;
        } else {
            self.failed += 1;
            println!("FAILED: {name}");
        }
    }
}

fn boundaries(at: u128, allowance: u128, delay: u128, steps: usize) -> Vec<(i64, i64)> {
    let mut walk = Literal::begin(at, allowance, delay);
    (0..steps)
        .map(|_| {
            walk.advance();
            (walk.upper, walk.lower)
        })
        .collect()
}

fn rounded(at: u128, allowance: u128, delay: u128, steps: usize) -> Vec<u64> {
    let mut walk = Literal::begin(at, allowance, delay);
    (0..steps)
        .map(|_| {
            walk.advance();
            walk.rounded
        })
        .collect()
}

fn marked(thresholds: Vec<(u32, u64)>, buckets: Vec<(u32, u32)>, marks: &[Mark]) -> ((u128, u128), Answer) {
    let draft = Draft { thresholds, buckets, ..plan_f() };
    let plan = read(&draft.store()).expect("a plan");
    let mut test = Test::begin(&plan, Slip::None);
    test.marks = marks.to_vec();
    (test.interval(), test.answer())
}

/// Its thresholds 5,000 and 10,000, its buckets up to the second, above the first and above the second.
const NARROWER_PLAN: &str = "0200030010002800e8030000c8000000881300000100000000000000102700002fdd240601000000\
                             00000000102700008813000040420f001027000040420f00";

fn numbered(report: &mut Report) {
    let thousandth = 4_398_046_511;
    report.check("P1", spending(thousandth, 1000, 1) == 4_393_652);
    report.check("P1", spending(thousandth, 1000, 1000) == 2_199_023_255);
    report.check("P2", boundaries(50_000, thousandth, 1000, 5) == [(2, -1), (3, -1), (4, -1), (5, -1), (5, -1)]);
    let first = Literal::begin(50_000, thousandth, 1000).spread();
    report.check("P3", first == BTreeMap::from([(0, 4_178_144_185_549), (1, 219_902_325_556)]));
    let first = Literal::begin(400_000, thousandth, 1000).spread();
    report.check("P4", first == BTreeMap::from([(0, 2_638_827_906_663), (1, 1_759_218_604_442)]));
    report.check("P4", first.values().sum::<u128>() == WHOLE + 1);
    let most = LARGEST_ALLOWANCE as u128;
    report.check("P5", spending(most, 1, 1) == 1_099_511_627_775 && spending(most, 1, 2) == 1_466_015_503_700);
    report.check("P6", boundaries(400_000, most, 1, 3) == [(2, -1), (2, -1), (2, 0)]);
    let of_f = rounded(50_000, thousandth, 1000, 10);
    report.check("masses rounded, plan F", of_f == [2, 5, 9, 14, 20, 25, 31, 37, 43, 50]);
    report.check("masses rounded, P6", rounded(400_000, most, 1, 6) == [2, 5, 8, 10, 12, 15]);
    // Halved 42 times, the whole is one unit; the next step rounds where the number of strings is odd.
    report.check("masses rounded, one half", rounded(500_000, 1, 1, 43)[40..] == [0, 0, 16]);

    let pair = vec![(10_000, 4_398_046_511), (50_000, 4_398_046_511)];
    let three = vec![(0, 10_000), (10_000, 50_000), (50_000, 1_000_000)];
    let p7 = marked(pair.clone(), three.clone(), &[Mark::Above(1), Mark::Open]);
    report.check("P7", p7 == ((10_000, 1_000_000), Answer::Open));
    let p8 = marked(pair, three, &[Mark::AtMost(1), Mark::Above(2)]);
    report.check("P8", p8 == ((50_000, 10_000), Answer::Crossed));
    report.check("P9", read(&half_allowance_plan().store()).err() == Some(3));
    report.check("P10", read(&gap_plan().store()).err() == Some(6));

    report.check("plan F is 44 bytes", plan_f().store().len() == 44);
    let plan = read(&plan_f().store()).expect("plan F");
    let mut ended = Test::begin(&plan, Slip::None);
    for _ in 0..5 {
        report.check("plan F takes a draw", ended.take(1).is_ok());
    }
    report.check("draw 2 to an ended test: 9", ended.take(2) == Err(9));
    report.check("draw 1 to an ended test: 10", ended.take(1) == Err(10));
    let largest = largest_plan();
    report.check("the largest plan is 264 bytes", largest.store().len() == 264 && read(&largest.store()).is_ok());
    let hex: String = narrower_plan().store().iter().map(|byte| format!("{byte:02x}")).collect();
    report.check("the plan of overlapping buckets by its bytes", hex == NARROWER_PLAN);
    report.check("the star plan keeps the rules", read(&star_plan().store()).is_ok());
}

/// Inputs whose reading is to fail do so, after their bytes: `cat` hands these on and says so.
fn failing_reads(report: &mut Report) {
    let fails = |case: &Case| matches!(case.feed, Feed::Closed | Feed::Folder | Feed::WriteOnly | Feed::Reset);
    for e in examples::all().iter().filter(|e| fails(&e.case)) {
        let ended = start(Path::new("cat"), &e.case, Path::new(".")).and_then(Child::wait_with_output);
        let failed = ended.is_ok_and(|out| out.stdout == e.case.input && out.status.code() == Some(1));
        report.check(&format!("{}: reading fails", e.name), failed);
    }
}

fn printed(report: &mut Report) {
    for e in examples::all() {
        let line = program(e.case.plan.bytes(), &e.case.input);
        if line != e.line {
            println!("  {}: {line:?} for {:?}", e.name, e.line);
        }
        report.check(&e.name, line == e.line);
    }
}

/// A record and its words after a step of `judge`, against the literal walk.
fn judged_same(record: &Record, words: &[u64], literal: &Literal) -> bool {
    let mass = |count: i64| literal.mass.get(&count).copied().unwrap_or(0);
    (record.upper as i64, record.lower as i64) == (literal.upper, literal.lower)
        && (record.over as u128, record.under as u128) == (literal.spent_above, literal.spent_below)
        && record.rounded as u64 == literal.rounded
        && words.iter().zip(literal.lower + 1..).all(|(word, count)| *word as u128 == mass(count))
}

/// The quick boundaries and those of `judge` against the literal ones, and the facts said to hold at every step.
fn facts_of(report: &mut Report, at: u128, allowance: u128, by: By, steps: u128) -> Quick {
    let mut literal = Literal::begin(at, allowance, by.clone());
    let mut quick = Quick::begin(at, allowance, by.clone(), Slip::None);
    let mut record = judge::FIRST;
    // More than `WIDE`, for a walk past a wide step.
    let mut words = vec![0; steps as usize + 2];
    words[0] = WHOLE as u64;
    let mut good = true;
    for t in 1..=steps {
        let (upper, lower) = (quick.upper, quick.lower);
        literal.advance();
        quick.advance();
        let limit = by.spending(allowance, t);
        judge::walk(at, limit, t as i64, &mut record, &mut words, Fault::None);
        let live: u128 = literal.mass.values().sum();
        let all = live + literal.spent_above + literal.spent_below;
        good &= quick.agrees(&literal)
            && judged_same(&record, &words, &literal)
            && quick.upper - quick.lower >= 2
            && quick.upper <= upper + 1
            && quick.lower >= lower
            && all >= WHOLE
            && all <= WHOLE + literal.rounded as u128
            && literal.rounded <= WIDE as u64 * t as u64
            && literal.spent_above <= limit
            && literal.spent_below <= limit;
    }
    report.check(&format!("facts for threshold {at}, allowance {allowance}, by {by:?}"), good);
    quick
}

fn facts(report: &mut Report, seed: u64) {
    for round in 0..24u64 {
        let rng = &mut Rng::new(seed, 77_000 + round);
        let any = rng.range(1, 999_999);
        let at = rng.pick(&[1, 500, 50_000, 400_000, 500_000, 999_999, any]) as u128;
        let allowance = rng.scale(1, LARGEST_ALLOWANCE) as u128;
        let delay = rng.scale(1, 65_535) as u128;
        let steps = if round < 4 { 400 } else { 150 };
        facts_of(report, at, allowance, By::Delay(delay), steps);
        let count = rng.range(1, MOST_POINTS as u64) as usize;
        let points = points_of_number(rng, count, steps as u32);
        facts_of(report, at, allowance, by_points(&points), steps);
    }
    facts_of(report, 50_000, 4_398_046_511, By::Delay(1000), 2000);
    let spread = facts_of(report, 500_000, 1, By::Delay(1), 800);
    report.check("passes wide", spread.upper - spread.lower - 1 > WIDE);
}

/// Runs in which each known mistake is looked for, and in how many it must change the line.
const MISTAKEN_RUNS: u64 = 1600;
const SHOWN: u64 = 100;
/// The same of mistakes on thresholds too close, in the damaged runs.
const LAPSE_SHOWN: u64 = 50;

/// Each known mistake must change many lines of the compared runs.
fn mistakes(report: &mut Report, seed: u64) {
    let slips = [
        Slip::RoundDown,
        Slip::RoundNearest,
        Slip::RoundApart,
        Slip::MassGoesOn,
        Slip::StaleBoundary,
        Slip::CrossedDecided,
        Slip::FirstInOrder,
        Slip::Widest,
        Slip::LastOfNarrowest,
    ];
    let mut shown: Counts<String> = Counts::new();
    for place in CROSSED_FROM..CROSSED_FROM + MISTAKEN_RUNS {
        let case = random_case(seed, place);
        let right = program(case.plan.bytes(), &case.input);
        for slip in slips {
            let wrong = program_with(case.plan.bytes(), &case.input, slip);
            *shown.entry(format!("{slip:?}")).or_default() += (wrong != right) as u64;
        }
    }
    println!("mistakes shown by {MISTAKEN_RUNS} of the runs: {}", named(&shown));
    for (slip, count) in &shown {
        report.check(&format!("{SHOWN} runs show the mistake {slip}"), *count >= SHOWN);
    }
}

/// Each mistake on thresholds too close must change many refusals of the damaged runs.
fn lapses_shown(report: &mut Report, seed: u64) {
    let mut shown: Counts<Lapse> = Counts::new();
    for place in 0..DAMAGED_RUNS {
        let case = damaged_case(seed, place);
        let stored = case.plan.bytes().unwrap_or(&[]);
        let right = read(stored).err().unwrap_or(0) as u32;
        let judged = Judged::of(stored);
        for lapse in [vec![Lapse::None, Lapse::BeforeSeven], lapses()].concat() {
            *shown.entry(lapse).or_default() += (judged.refusal(lapse) != right) as u64;
        }
    }
    println!("mistakes on thresholds too close shown by {DAMAGED_RUNS} of the runs: {shown:?}");
    for (lapse, count) in shown {
        match lapse {
            Lapse::None => report.check("without a mistake the refusals are the same", count == 0),
            _ => report.check(&format!("{LAPSE_SHOWN} runs show the mistake {lapse:?}"), count >= LAPSE_SHOWN),
        }
    }
}

/// The recipe for crossing must lead there.
fn crossings(report: &mut Report, seed: u64) {
    let mut kinds: Counts<String> = Counts::new();
    for place in CROSSED_FROM..CROSSED_FROM + CROSSED_RUNS {
        let case = random_case(seed, place);
        *kinds.entry(kind_of_line(&program(case.plan.bytes(), &case.input))).or_default() += 1;
    }
    println!("crossing recipe: {kinds:?}");
    let crossed = kinds.get("crossed").copied().unwrap_or(0);
    report.check("the crossing recipe crosses, half the time or more", 2 * crossed >= CROSSED_RUNS);
}

pub fn run(seed: u64) -> bool {
    let began = Instant::now();
    let mut report = Report { passed: 0, failed: 0 };
    numbered(&mut report);
    printed(&mut report);
    failing_reads(&mut report);
    facts(&mut report, seed);
    chances::checks(seed).iter().for_each(|(name, good)| report.check(name, *good));
    crossings(&mut report, seed);
    agreement::checks(seed).iter().for_each(|(name, good)| report.check(name, *good));
    mistakes(&mut report, seed);
    lapses_shown(&mut report, seed);
    println!("check: {} passed, {} failed, {:.1} s", report.passed, report.failed, began.elapsed().as_secs_f64());
    report.failed == 0
}
