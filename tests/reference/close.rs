//! Plans with thresholds about as close as the rules permit, put to every entry of the library that judges a plan.

use crate::damage::close_draft;
use crate::draft::Draft;
use crate::examples::{with_thresholds, CLOSE};
use crate::host::{self, plan_of, Plan, State, OPEN, REFUSED};
use crate::judge::{FIRST, PART};
use crate::lapses::{lapses, Judged, Lapse};
use crate::plan::{parsed, read, WHOLE};
use crate::rng::Rng;
use crate::scenes::plan_past_counts;
use crate::tally::{conclude, Counts, Differing};
use std::collections::BTreeSet;
use std::time::Instant;

const PLANS: u64 = 20_000;
/// How often each row must come up with each entry.
const NEEDED: u64 = 200;

const BEGUN: State = State { answer: OPEN, number: 0, n: 0, ones: 0, records: [FIRST; 10] };

/// What the entries are handed.
struct Case {
    plan: Plan,
    form: Vec<u8>,
    /// What is read: the form, or one with a wrong length or offset.
    stored: Vec<u8>,
    words: Vec<u64>,
    draw: u8,
    /// Bytes lent to a writing.
    lent: usize,
}

impl Case {
    fn of(draft: &Draft) -> Case {
        let form = draft.store();
        let mut words = vec![0; PART * draft.thresholds.len()];
        words.iter_mut().step_by(PART).for_each(|word| *word = WHOLE as u64);
        Case { plan: plan_of(draft), stored: form.clone(), words, draw: 1, lent: form.len(), form }
    }

    /// At times more than the plan is wrong.
    fn spoil(&mut self, rng: &mut Rng) {
        plan_past_counts(rng, &mut self.plan);
        match rng.below(10) {
            0 => self.words.push(0),
            1 => self.draw = 2,
            2 => self.lent -= 1,
            3 => self.stored.push(0),
            4 => self.stored.truncate(self.form.len() - 1),
            5 => self.stored[rng.pick(&[4, 6])] ^= 1,
            _ => {}
        }
    }
}

#[derive(Clone, Copy, Debug, PartialEq, Eq, PartialOrd, Ord)]
enum Entry {
    PlanRefusal,
    Begin,
    Draw,
    ReportOn,
    WritePlan,
    ReadPlan,
}

const ENTRIES: [Entry; 6] =
    [Entry::PlanRefusal, Entry::Begin, Entry::Draw, Entry::ReportOn, Entry::WritePlan, Entry::ReadPlan];

impl Entry {
    /// The library's refusal, 0 for none.
    fn call(self, case: &Case) -> u32 {
        let plan = case.plan;
        let words = &mut case.words.clone();
        let of = |answer: u32, number: u32| if answer == REFUSED { number } else { 0 };
        let of_state = |s: State| of(s.answer, s.number);
        match self {
            Entry::PlanRefusal => host::plan_refusal(plan),
            Entry::Begin => of_state(host::begin(plan, words)),
            Entry::Draw => of_state(host::draw(plan, BEGUN, words, case.draw)),
            Entry::ReportOn => {
                let report = host::report_on(plan, BEGUN);
                of(report.answer, report.number)
            }
            Entry::WritePlan => host::write_plan(plan, &mut vec![0; case.lent]).refusal,
            Entry::ReadPlan => host::read_plan(&case.stored).refusal,
        }
    }

    fn bytes(self, case: &Case) -> &[u8] {
        match self {
            Entry::ReadPlan => &case.stored,
            _ => &case.form,
        }
    }

    /// What refuses the call where the plan does not.
    fn own(self, case: &Case) -> u32 {
        match self {
            Entry::Begin | Entry::Draw if case.words.len() != PART * case.plan.count as usize => 8,
            Entry::Draw if case.draw > 1 => 9,
            Entry::WritePlan if case.lent < case.form.len() => 12,
            _ => 0,
        }
    }

    fn expected(self, case: &Case) -> u32 {
        read(self.bytes(case)).err().map_or(self.own(case), u32::from)
    }

    fn judged(self, case: &Case) -> Judged {
        let past = case.plan.thresholds.get(case.plan.count as usize).copied();
        Judged::of_call(self.bytes(case), past, self.own(case))
    }

    /// What it must come to often; not every mistake is possible to it.
    fn rows(self) -> Vec<Row> {
        let more: &[Lapse] = match self {
            Entry::PlanRefusal | Entry::ReportOn => &[Lapse::PastCount],
            Entry::Begin | Entry::Draw | Entry::WritePlan => &[Lapse::PastCount, Lapse::AfterCall],
            Entry::ReadPlan => &[Lapse::BeforeSeven],
        };
        let lapses = [&lapses(), more].concat();
        let apart = APART.map(|(apart, refusal)| Row::Apart(apart, refusal));
        apart.into_iter().chain(lapses.into_iter().map(Row::Noticed)).collect()
    }
}

#[derive(Clone, Copy, PartialEq, Eq, PartialOrd, Ord)]
enum Row {
    /// The least difference of neighbours, and the refusal, 0 for none.
    Apart(u128, u32),
    Noticed(Lapse),
}

const APART: [(u128, u32); 6] = [(0, 2), (1, 14), (98, 14), (99, 14), (100, 0), (101, 0)];

impl Row {
    fn name(self) -> String {
        match self {
            Row::Apart(apart, 0) => format!("{apart} apart, accepted"),
            Row::Apart(apart, refusal) => format!("{apart} apart, refused {refusal}"),
            Row::Noticed(lapse) => format!("noticed: {lapse:?}"),
        }
    }
}

#[derive(Default)]
struct Tally {
    counts: Counts<(Row, Entry)>,
    calls: u64,
    differ: Differing,
}

fn shown(case: &Case) -> String {
    let Case { plan, stored, words, draw, lent, .. } = case;
    format!("{plan:?}\n  {} words, draw {draw}, {lent} bytes lent, read {stored:?}", words.len())
}

impl Tally {
    fn compare(&mut self, entry: Entry, case: &Case, expected: u32) -> u32 {
        let got = entry.call(case);
        self.calls += 1;
        self.differ.note(got == expected, || format!("{entry:?}: {got} for {expected}: {}", shown(case)));
        got
    }

    /// One plan to every entry, and what each mistake would have made of it.
    fn compare_all(&mut self, case: &Case) {
        let apart = parsed(&case.form).ok().and_then(|plan| plan.closest());
        for entry in ENTRIES {
            let expected = entry.expected(case);
            let got = self.compare(entry, case, expected);
            let judged = entry.judged(case);
            assert_eq!(judged.refusal(Lapse::None), expected, "no mistake, but another refusal");
            for row in entry.rows() {
                let so = match row {
                    Row::Apart(difference, refusal) => (apart, got) == (Some(difference), refusal),
                    Row::Noticed(lapse) => judged.refusal(lapse) != got,
                };
                *self.counts.entry((row, entry)).or_default() += so as u64;
            }
        }
    }

    fn print(&self) {
        println!("calls compared: {}", self.calls);
        let line = |name: &str, cells: [String; 6]| {
            println!("{name:<26}{}", cells.map(|cell| format!("{cell:>12}")).concat());
        };
        line("", ENTRIES.map(|entry| format!("{entry:?}")));
        let rows: BTreeSet<Row> = self.counts.keys().map(|(row, _)| *row).collect();
        for row in rows {
            let cell = |entry| self.counts.get(&(row, entry)).map_or(String::new(), u64::to_string);
            line(&row.name(), ENTRIES.map(cell));
        }
    }

    fn faults(&self) -> Vec<String> {
        let mut out = Vec::new();
        for entry in ENTRIES {
            let count = |row: &Row| self.counts.get(&(*row, entry)).copied().unwrap_or(0);
            let seldom = entry.rows().into_iter().filter(|row| count(row) < NEEDED);
            out.extend(seldom.map(|row| format!("seldom, {entry:?}: {}", row.name())));
        }
        out.extend(self.differ.fault());
        out
    }
}

pub fn run(seed: u64) -> bool {
    let began = Instant::now();
    let mut tally = Tally::default();
    for (thresholds, allowance, number) in CLOSE {
        let case = Case::of(&with_thresholds(thresholds, allowance));
        for entry in ENTRIES {
            tally.compare(entry, &case, number);
        }
    }
    for place in 0..PLANS {
        let rng = &mut Rng::new(seed, 43_000_000 + place);
        let mut case = Case::of(&close_draft(rng));
        case.spoil(rng);
        tally.compare_all(&case);
    }
    println!("close: seed {seed}, {:.1} s", began.elapsed().as_secs_f64());
    tally.print();
    conclude(&tally.faults(), "close: all refusals agree")
}
