//! Plans with points, good and spoiled, put to every entry of the library that judges a plan.

use crate::any_points::plan_with_points;
use crate::form::Numbers;
use crate::host::{self, draft_of, Plan, Report, State, Test, Written, OPEN, REFUSED};
use crate::judge::{self, Fault, FIRST, PART};
use crate::kept;
use crate::misjudged::{misjudged, Judged, Misjudged, SEVENTEEN};
use crate::plan::{ORDER, WHOLE};
use crate::rng::Rng;
use crate::scenes::past_points;
use crate::tally::{Counts, Differing};
use crate::wrong::Wrong;
use std::collections::BTreeSet;

const PLANS: u64 = 30_000;
/// How often each row must come up with each entry.
const NEEDED: u64 = 100;

const BEGUN: State = State { answer: OPEN, number: 0, n: 0, ones: 0, records: [FIRST; 10] };

/// What the entries are handed.
#[derive(Clone)]
struct Case {
    plan: Plan,
    words: Vec<u64>,
    draw: u8,
    /// Bytes lent to the writing of the plan, and to that of the test.
    lent: Vec<u8>,
    room: Vec<u8>,
    /// What is read: the test's form, or a byte more.
    saved: Vec<u8>,
}

impl Case {
    fn of(rng: &mut Rng, plan: Plan) -> Case {
        let k = (plan.count as usize).clamp(1, 10);
        let mut words = vec![0; PART * k];
        words.iter_mut().step_by(PART).for_each(|word| *word = WHOLE as u64);
        let saved = Numbers::of(k, &BEGUN, &words, Wrong::None).store();
        let form = draft_of(&plan).map_or(0, |draft| draft.store().len());
        let room = rng.bytes(saved.len());
        Case { plan, words, draw: 1, lent: rng.bytes(form), room, saved }
    }

    /// At times more than the plan is wrong.
    fn spoil(&mut self, rng: &mut Rng) {
        match rng.below(10) {
            0..=1 => self.words.push(0),
            2 => self.draw = 2,
            3..=4 => drop((self.lent.pop(), self.room.pop())),
            5 => self.lent.truncate(rng.below(17) as usize),
            6 => self.saved.push(0),
            _ => {}
        }
    }
}

/// What a call hands back, with the words or bytes that were lent to it.
#[derive(Debug, PartialEq)]
enum Given {
    Number(u32),
    State(State, Vec<u64>),
    Report(Report),
    Bytes(Written, Vec<u8>),
    Test(Test, Vec<u64>),
}

impl Given {
    /// The refusal, 0 for none.
    fn refusal(&self) -> u32 {
        let of = |answer: u32, number: u32| if answer == REFUSED { number } else { 0 };
        match self {
            Given::Number(refusal) => *refusal,
            Given::State(state, _) => of(state.answer, state.number),
            Given::Report(report) => of(report.answer, report.number),
            Given::Bytes(written, _) => written.refusal,
            Given::Test(test, _) => test.refusal,
        }
    }
}

#[derive(Clone, Copy, Debug, PartialEq, Eq, PartialOrd, Ord)]
enum Entry {
    PlanRefusal,
    Begin,
    Draw,
    ReportOn,
    WritePlan,
    WriteTest,
    ReadTest,
}

const ENTRIES: [Entry; 7] = [
    Entry::PlanRefusal,
    Entry::Begin,
    Entry::Draw,
    Entry::ReportOn,
    Entry::WritePlan,
    Entry::WriteTest,
    Entry::ReadTest,
];

impl Entry {
    fn by_library(self, case: &Case) -> Given {
        let (plan, mut words) = (case.plan, case.words.clone());
        match self {
            Entry::PlanRefusal => Given::Number(host::plan_refusal(plan)),
            Entry::Begin => Given::State(host::begin(plan, &mut words), words),
            Entry::Draw => Given::State(host::draw(plan, BEGUN, &mut words, case.draw), words),
            Entry::ReportOn => Given::Report(host::report_on(plan, BEGUN)),
            Entry::WritePlan => {
                let mut lent = case.lent.clone();
                Given::Bytes(host::write_plan(plan, &mut lent), lent)
            }
            Entry::WriteTest => {
                let mut room = case.room.clone();
                Given::Bytes(host::write_test(plan, BEGUN, &words, &mut room), room)
            }
            Entry::ReadTest => Given::Test(host::read_test(plan, &case.saved, &mut words), words),
        }
    }

    fn by_reference(self, case: &Case) -> Given {
        let (plan, mut words) = (&case.plan, case.words.clone());
        match self {
            Entry::PlanRefusal => Given::Number(judge::plan_refusal(plan)),
            Entry::Begin => Given::State(judge::begin(plan, &mut words), words),
            Entry::Draw => Given::State(judge::draw(plan, &BEGUN, &mut words, case.draw, Fault::None), words),
            Entry::ReportOn => Given::Report(judge::report_on(plan, &BEGUN, Fault::None)),
            Entry::WritePlan => {
                let mut lent = case.lent.clone();
                Given::Bytes(judge::write_plan(plan, &mut lent), lent)
            }
            Entry::WriteTest => {
                let mut room = case.room.clone();
                Given::Bytes(kept::write(plan, &BEGUN, &words, &mut room, Wrong::None), room)
            }
            Entry::ReadTest => Given::Test(kept::read(plan, &case.saved, &mut words, Wrong::None), words),
        }
    }

    /// What refuses the call where neither the plan nor 17 does.
    fn own(self, case: &Case) -> u32 {
        let (k, b) = (case.plan.count as usize, case.plan.buckets as usize);
        let lends_words = matches!(self, Entry::Begin | Entry::Draw | Entry::WriteTest | Entry::ReadTest);
        match self {
            _ if lends_words && case.words.len() != PART * k => 8,
            Entry::Draw if case.draw > 1 => 9,
            Entry::WritePlan if case.lent.len() < 16 + 12 * k + 8 * b => 12,
            Entry::WriteTest if case.room.len() < 24 + 44 * k => 12,
            Entry::ReadTest if case.saved.len() != 24 + 44 * k => 15,
            _ => 0,
        }
    }

    fn rows(self) -> Vec<Row> {
        let more = match self {
            Entry::PlanRefusal | Entry::ReportOn => vec![],
            Entry::WritePlan => [&SEVENTEEN[..], &[Misjudged::AfterCall]].concat(),
            _ => vec![Misjudged::AfterCall],
        };
        let mut out: Vec<Row> = MET.iter().map(|(name, _)| Row::Accepted(name)).collect();
        out.extend((0..=8).map(Row::Points));
        out.extend(REASONS.iter().map(|(name, _)| Row::Alone(name)));
        out.extend(ORDER.into_iter().filter(|rule| *rule != 16).map(Row::Beside));
        out.extend(misjudged().into_iter().chain(more).map(Row::Noticed));
        if self == Entry::WritePlan {
            out.extend([Row::Seventeen(false), Row::Seventeen(true), Row::Twelve]);
        }
        out
    }
}

#[derive(Clone, Copy, PartialEq, Eq, PartialOrd, Ord)]
enum Row {
    /// So many points in a plan that is accepted, and what they are like.
    Points(u32),
    Accepted(&'static str),
    /// Refused by 16 for one reason.
    Alone(&'static str),
    /// 16 broken and of the others this one first: the earlier of the two refuses.
    Beside(u8),
    /// Refused by 17, with room for the form or without.
    Seventeen(bool),
    /// Refused by 12, with no points but something in their places.
    Twelve,
    Noticed(Misjudged),
}

/// What counted points that keep the rules are like.
const MET: [(&str, fn(&Plan) -> bool); 9] = [
    ("a point at step 1", |p| counted(p).any(|(step, _)| step == 1)),
    ("a point at step N", |p| counted(p).any(|(step, _)| step == p.horizon)),
    ("neighbouring steps", |p| pairs(p).any(|(step, next)| step.0 + 1 == next.0)),
    ("a share of 0", |p| counted(p).any(|(_, share)| share == 0)),
    ("equal shares", |p| pairs(p).any(|(share, next)| share.1 == next.1)),
    ("a share of 1,000,000", |p| counted(p).any(|(_, share)| share == 1_000_000)),
    ("points past the count that break 16", |p| p.points > 0 && all_places(p) == 16),
    ("points past the count that keep 16", |p| p.points > 0 && p.points < 8 && all_places(p) == 0),
    ("no points, and places that are not zero", |p| p.points == 0 && past(p).any(|point| point != (0, 0))),
];

/// Why 16 refuses.
const REASONS: [(&str, fn(&Plan) -> bool); 11] = [
    ("nine points", |p| p.points == 9),
    ("more than nine points", |p| p.points > 9 && p.points < u32::MAX),
    ("2^32 - 1 points", |p| p.points == u32::MAX),
    ("a step 0", |p| counted(p).any(|(step, _)| step == 0)),
    ("a step N + 1", |p| counted(p).any(|(step, _)| step == p.horizon + 1)),
    ("a step over N + 1", |p| counted(p).any(|(step, _)| step > p.horizon + 1)),
    ("equal steps", |p| pairs(p).any(|(point, next)| point.0 == next.0)),
    ("falling steps", |p| pairs(p).any(|(point, next)| point.0 > next.0)),
    ("a share of 1,000,001", |p| counted(p).any(|(_, share)| share == 1_000_001)),
    ("a share over 1,000,001", |p| counted(p).any(|(_, share)| share > 1_000_001)),
    ("falling shares", |p| pairs(p).any(|(point, next)| point.1 > next.1)),
];

fn counted(p: &Plan) -> impl Iterator<Item = (u32, u32)> {
    p.steps.into_iter().zip(p.shares).take(p.placed())
}

fn past(p: &Plan) -> impl Iterator<Item = (u32, u32)> {
    p.steps.into_iter().zip(p.shares).skip(p.placed())
}

/// The refusal if all eight were counted.
fn all_places(p: &Plan) -> u32 {
    judge::plan_refusal(&Plan { points: 8, ..*p })
}

fn pairs(p: &Plan) -> impl Iterator<Item = ((u32, u32), (u32, u32))> {
    counted(p).zip(counted(p).skip(1))
}

/// The rules that a plan breaks, in their order; of counts that break rule 1 no more is said, but for 16.
fn broken(p: &Plan) -> Vec<u8> {
    let Some(draft) = draft_of(p) else {
        let sixteen = broken(&Plan { count: 1, buckets: 2, ..*p }).contains(&16);
        return if sixteen { vec![1, 16] } else { vec![1] };
    };
    ORDER.into_iter().filter(|rule| draft.plan().breaks(*rule)).collect()
}

/// What is asked of one call.
struct Outcome<'a> {
    case: &'a Case,
    broken: &'a [u8],
    judged: &'a Judged<'a>,
    refusal: u32,
}

impl Row {
    fn name(self) -> String {
        match self {
            Row::Points(number) => format!("{number} points, accepted"),
            Row::Accepted(what) => format!("{what}, accepted"),
            Row::Alone(what) => format!("{what}, refused 16"),
            Row::Beside(rule) => format!("16 broken with {rule}, the earlier refuses"),
            Row::Seventeen(true) => "refused 17, with room".into(),
            Row::Seventeen(false) => "refused 17, with too little room".into(),
            Row::Twelve => "no points, places that are not zero, refused 12".into(),
            Row::Noticed(mistake) => format!("noticed: {mistake:?}"),
        }
    }

    fn is(self, of: &Outcome) -> bool {
        let p = &of.case.plan;
        let accepted = of.broken.is_empty();
        match self {
            Row::Points(number) => accepted && p.points == number,
            Row::Accepted(name) => accepted && MET.iter().any(|(met, is)| *met == name && is(p)),
            Row::Alone(name) => {
                let reasons = || REASONS.iter().filter(|(_, is)| is(p)).map(|(reason, _)| *reason);
                of.broken == [16] && reasons().eq([name]) && of.refusal == 16
            }
            Row::Beside(rule) => {
                let two = of.broken.contains(&16) && of.judged.broken.first() == Some(&rule);
                two && of.refusal == of.broken[0] as u32
            }
            Row::Seventeen(room) => of.refusal == 17 && room == (of.judged.own == 0),
            Row::Twelve => of.refusal == 12 && past(p).any(|point| point != (0, 0)),
            Row::Noticed(mistake) => of.judged.refusal(mistake) != of.refusal,
        }
    }
}

#[derive(Default)]
pub struct Tally {
    counts: Counts<(Row, Entry)>,
    calls: u64,
    /// Calls made again with other places past the points.
    again: u64,
    differ: Differing,
}

fn shown(case: &Case) -> String {
    let Case { plan, words, draw, lent, room, saved } = case;
    let sizes = [words.len(), lent.len(), room.len(), saved.len()];
    format!("{plan:?}\n  draw {draw}; words, bytes lent to plan and test, bytes read: {sizes:?}")
}

impl Tally {
    /// One plan to every entry, and what each mistake would have made of it.
    fn compare(&mut self, case: &Case, other: &Case) {
        let broken = broken(&case.plan);
        for entry in ENTRIES {
            let (got, expected) = (entry.by_library(case), entry.by_reference(case));
            let refusal = got.refusal();
            let numbers = (refusal, expected.refusal());
            let show = || format!("{entry:?}: {} for {}: {}", numbers.0, numbers.1, shown(case));
            self.differ.note(got == expected, show);
            let again = entry.by_library(other) == got;
            self.differ.note(again, || format!("{entry:?}, other places past the points: {}", shown(other)));
            self.calls += 1;
            self.again += (case.plan != other.plan) as u64;
            let others = broken.iter().copied().filter(|rule| *rule != 16).collect();
            let writes = entry == Entry::WritePlan;
            let judged = Judged { plan: &case.plan, broken: others, own: entry.own(case), writes };
            assert_eq!(judged.refusal(Misjudged::None), expected.refusal(), "no mistake, but another refusal");
            let of = Outcome { case, broken: &broken, judged: &judged, refusal };
            for row in entry.rows() {
                *self.counts.entry((row, entry)).or_default() += row.is(&of) as u64;
            }
        }
    }

    pub fn print(&self) {
        println!("calls compared: {}, and again with other places past the points: {}", self.calls, self.again);
        let line = |name: &str, cells: [String; 7]| {
            println!("{name:<52}{}", cells.map(|cell| format!("{cell:>12}")).concat());
        };
        line("", ENTRIES.map(|entry| format!("{entry:?}")));
        let rows: BTreeSet<Row> = self.counts.keys().map(|(row, _)| *row).collect();
        for row in rows {
            let cell = |entry| self.counts.get(&(row, entry)).map_or(String::new(), u64::to_string);
            line(&row.name(), ENTRIES.map(cell));
        }
    }

    pub fn faults(&self) -> Vec<String> {
        let mut out = Vec::new();
        for entry in ENTRIES {
            let count = |row: &Row| self.counts.get(&(*row, entry)).copied().unwrap_or(0);
            let seldom = entry.rows().into_iter().filter(|row| count(row) < NEEDED);
            out.extend(seldom.map(|row| format!("seldom, {entry:?}: {}", row.name())));
        }
        if self.again < PLANS {
            out.push("places past the points seldom changed".into());
        }
        out.extend(self.differ.fault());
        out
    }
}

pub fn compared(seed: u64) -> Tally {
    let mut tally = Tally::default();
    for place in 0..PLANS {
        let rng = &mut Rng::new(seed, 48_000_000 + place);
        let plan = plan_with_points(rng);
        let mut case = Case::of(rng, plan);
        case.spoil(rng);
        let mut other = case.clone();
        past_points(rng, &mut other.plan);
        tally.compare(&case, &other);
    }
    tally
}
