//! Plans whose buckets overlap, put with all kinds of marks to the entries of the library that name a bucket: the first
//! of the narrowest that contain the interval.

use crate::any_plan::any_horizon;
use crate::choices::{Choice, CHOICES};
use crate::decided::{Decided, MET, OTHER_ENDS};
use crate::examples::{marked_report, marked_state, MARKED};
use crate::host::{self, plan_of, Plan, Report, State, DECIDED, OPEN};
use crate::judge::{self, Fault, PART};
use crate::outcomes::kind;
use crate::overlap::{any_marks, before_marks, marked, overlapping_draft, overlapping_run, past_counts};
use crate::plan::Bucket;
use crate::rng::Rng;
use crate::scenes::Scene;
use crate::tally::{conclude, sized, Counts, Differing};
use std::time::Instant;

const PLANS: u64 = 8000;
/// States of each plan that are reported on, beside the one that takes a draw.
const STATES: u64 = 3;
const TESTS: u64 = 600;

/// The rule that was replaced: all but the number must come out the same by it.
const OLD: Fault = Fault::Choice(Choice::First);

#[derive(Clone, Copy, Debug, PartialEq, Eq, PartialOrd, Ord)]
enum Entry {
    ReportOn,
    /// To a made-up state.
    Draw,
    /// To a test carried from its beginning.
    Carried,
}

const ENTRIES: [Entry; 3] = [Entry::ReportOn, Entry::Draw, Entry::Carried];

const ANSWERS: [&str; 5] = ["open", "decided", "crossed", "wide", "spent"];

impl Entry {
    /// How often it must come to each answer, and to each other row.
    fn needed(self, row: &str) -> u64 {
        match self {
            _ if ANSWERS.contains(&row) => 1,
            Entry::ReportOn => 200,
            Entry::Draw => 40,
            Entry::Carried => 10,
        }
    }

    /// A test that is soon settled, by draws of one chance, hardly ever comes to these.
    fn rare(self, row: &str) -> bool {
        let mistakes = [Choice::CrossedDecided, Choice::CrossedInAll].map(noticed);
        let rare = ["crossed", "wide", OTHER_ENDS];
        self == Entry::Carried && (rare.contains(&row) || mistakes.contains(&row.to_string()))
    }
}

fn noticed(choice: Choice) -> String {
    format!("noticed: {choice:?}")
}

fn rows() -> Vec<String> {
    let met = MET.map(|(name, _)| name);
    let fixed = ANSWERS.into_iter().chain(met).map(String::from);
    fixed.chain(CHOICES.map(noticed)).collect()
}

#[derive(Default)]
struct Tally {
    counts: Counts<(String, Entry)>,
    thresholds: Counts<u32>,
    buckets: Counts<u32>,
    calls: u64,
    differ: Differing,
    /// Calls in which the choice changes more than the bucket's number.
    more_changed: u64,
}

impl Tally {
    fn count(&mut self, entry: Entry, row: String, so: bool) {
        *self.counts.entry((row, entry)).or_default() += so as u64;
    }

    fn of(&self, entry: Entry, row: &str) -> u64 {
        self.counts.get(&(row.into(), entry)).copied().unwrap_or(0)
    }

    /// One call compared, and what the answer is like. Of the rule of old all but the number is the same.
    fn note(&mut self, entry: Entry, p: &Plan, expected: &Report, as_before: bool) {
        self.calls += 1;
        self.more_changed += !as_before as u64;
        self.count(entry, kind(expected.answer, expected.number), true);
        if expected.answer == DECIDED {
            let buckets: Vec<Bucket> = (0..p.buckets).map(|place| p.bucket(place)).collect();
            let decided = Decided::of(&buckets, expected.low as u128, expected.high as u128, expected.number as usize);
            for (name, is) in MET {
                self.count(entry, name.into(), is(&decided));
            }
        }
    }

    fn print(&self) {
        println!("calls compared: {}", self.calls);
        println!("plans by thresholds: {}; by buckets: {}", sized(&self.thresholds), sized(&self.buckets));
        let line = |name: &str, cells: [String; 3]| {
            println!("{name:<32}{}", cells.map(|cell| format!("{cell:>10}")).concat());
        };
        line("", ENTRIES.map(|entry| format!("{entry:?}")));
        for row in rows() {
            line(&row, ENTRIES.map(|entry| self.of(entry, &row).to_string()));
        }
    }

    fn faults(&self) -> Vec<String> {
        let mut out = Vec::new();
        for entry in ENTRIES {
            let few = |row: &String| !entry.rare(row) && self.of(entry, row) < entry.needed(row);
            let seldom = rows().into_iter().filter(few);
            out.extend(seldom.map(|row| format!("seldom, {entry:?}: {row}")));
        }
        if (1..=10).any(|k| !self.thresholds.contains_key(&k)) || (2..=16).any(|b| !self.buckets.contains_key(&b)) {
            out.push("a size of plan never came up".into());
        }
        if self.more_changed > 0 {
            out.push(format!("{} answers in which the choice changes more than the number", self.more_changed));
        }
        out.extend(self.differ.fault());
        out
    }
}

/// The number, but of a bucket only that there is one: what no choice may change.
fn but_bucket(answer: u32, number: u32) -> u32 {
    if answer == DECIDED { number.min(1) } else { number }
}

fn compare_report(tally: &mut Tally, p: &Plan, s: &State) {
    let got = host::report_on(*p, *s);
    let expected = judge::report_on(p, s, Fault::None);
    tally.differ.note(got == expected, || format!("report_on: {got:?} for {expected:?}: {p:?} {s:?}"));
    let but_bucket = |r: Report| Report { number: but_bucket(r.answer, r.number), ..r };
    let as_before = but_bucket(judge::report_on(p, s, OLD)) == but_bucket(expected);
    tally.note(Entry::ReportOn, p, &expected, as_before);
    for choice in CHOICES {
        let wrong = judge::report_on(p, s, Fault::Choice(choice));
        tally.count(Entry::ReportOn, noticed(choice), wrong != got);
    }
}

/// State and words that a draw hands on.
type Outcome = (State, Vec<u64>);

fn judged(scene: &Scene, fault: Fault) -> Outcome {
    let mut words = scene.words.clone();
    let state = judge::draw(&scene.plan, &scene.state, &mut words, scene.draw, fault);
    (state, words)
}

fn compare_draw(tally: &mut Tally, entry: Entry, scene: &Scene) -> Outcome {
    let p = &scene.plan;
    let mut words = scene.words.clone();
    let got = (host::draw(*p, scene.state, &mut words, scene.draw), words);
    let expected = judged(scene, Fault::None);
    tally.differ.note(got == expected, || format!("{entry:?}: {:?} for {:?}: {p:?} {:?}", got.0, expected.0, scene.state));
    let before = judged(scene, OLD);
    let but_bucket = |s: &State| State { number: but_bucket(s.answer, s.number), ..*s };
    let as_before = but_bucket(&before.0) == but_bucket(&expected.0) && before.1 == expected.1;
    let State { answer, number, .. } = expected.0;
    let interval = judge::report_on(p, &expected.0, Fault::None);
    tally.note(entry, p, &Report { answer, number, ..interval }, as_before);
    got
}

fn compare_mistakes(tally: &mut Tally, entry: Entry, scene: &Scene, got: &Outcome) {
    for choice in CHOICES {
        let wrong = judged(scene, Fault::Choice(choice));
        tally.count(entry, noticed(choice), wrong != *got);
    }
}

/// One plan with several states, and a draw to one that it is about to end.
fn compare_plan(tally: &mut Tally, rng: &mut Rng) {
    let horizon = any_horizon(rng);
    let draft = overlapping_draft(rng, horizon);
    let plan = past_counts(rng, &draft);
    *tally.thresholds.entry(plan.count).or_default() += 1;
    *tally.buckets.entry(plan.buckets).or_default() += 1;
    let marks = any_marks(rng, plan.count);
    let scene = before_marks(rng, plan, &marks);
    compare_report(tally, &plan, &scene.state);
    for _ in 0..STATES {
        let marks = any_marks(rng, plan.count);
        let mut state = marked(&scene.state, &marks, rng.next() as u32);
        state.n = rng.pick(&[state.n, state.n, plan.horizon]);
        compare_report(tally, &plan, &state);
    }
    let got = compare_draw(tally, Entry::Draw, &scene);
    compare_mistakes(tally, Entry::Draw, &scene, &got);
}

/// A test carried from its beginning to its ending.
fn carry(tally: &mut Tally, rng: &mut Rng) {
    let (draft, draws) = overlapping_run(rng);
    let plan = past_counts(rng, &draft);
    let mut words = vec![0; PART * plan.count as usize];
    let mut expected_words = words.clone();
    let state = host::begin(plan, &mut words);
    let expected = judge::begin(&plan, &mut expected_words);
    let same = state == expected && words == expected_words;
    tally.differ.note(same, || format!("begin: {state:?} for {expected:?}: {plan:?}"));
    let mut scene = Scene { plan, state, words, draw: 0 };
    for draw in draws {
        scene.draw = draw as u8;
        let got = compare_draw(tally, Entry::Carried, &scene);
        if got.0.answer != OPEN {
            compare_mistakes(tally, Entry::Carried, &scene, &got);
            compare_report(tally, &plan, &got.0);
            break;
        }
        (scene.state, scene.words) = got;
    }
}

fn compare_examples(tally: &mut Tally) {
    for (draft, marks, interval, number, _) in MARKED {
        let (p, s) = (plan_of(&draft()), marked_state(marks));
        let (got, expected) = (host::report_on(p, s), marked_report(interval, number));
        tally.differ.note(got == expected, || format!("example: {got:?} for {expected:?}: {p:?} {marks}"));
    }
}

pub fn run(seed: u64) -> bool {
    let began = Instant::now();
    let mut tally = Tally::default();
    compare_examples(&mut tally);
    for place in 0..PLANS {
        compare_plan(&mut tally, &mut Rng::new(seed, 44_000_000 + place));
    }
    for place in 0..TESTS {
        carry(&mut tally, &mut Rng::new(seed, 45_000_000 + place));
    }
    println!("narrower: seed {seed}, {:.1} s", began.elapsed().as_secs_f64());
    tally.print();
    conclude(&tally.faults(), "narrower: all answers agree")
}
