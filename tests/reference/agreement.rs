//! The choice among the buckets in its two shapes, `judge` and `sequential`: held to examples, and to each other.

use crate::boundary::Slip;
use crate::choices::Choice;
use crate::draft::Draft;
use crate::examples::{marked_report, marked_state, MARKED};
use crate::host::{plan_of, Report, State, ABOVE, AT_MOST, CROSSED, DECIDED, OPEN, SPENT, WIDE};
use crate::judge::{self, Fault};
use crate::overlap::{any_marks, marked, overlapping_draft};
use crate::plan::read;
use crate::rng::Rng;
use crate::sequential::{Answer, Mark, Test};

const ROUNDS: u64 = 4000;

/// The choice, and mistakes that both shapes can make.
const PAIRS: [(Fault, Slip); 4] = [
    (Fault::None, Slip::None),
    (Fault::Choice(Choice::First), Slip::FirstInOrder),
    (Fault::Choice(Choice::Widest), Slip::Widest),
    (Fault::Choice(Choice::LastOfNarrowest), Slip::LastOfNarrowest),
];

fn by_judge(draft: &Draft, state: &State, fault: Fault) -> Report {
    judge::report_on(&plan_of(draft), state, fault)
}

fn by_sequential(draft: &Draft, state: &State, slip: Slip) -> Report {
    let plan = read(&draft.store()).expect("a plan that keeps the rules");
    let mut test = Test::begin(&plan, slip);
    for (mark, record) in test.marks.iter_mut().zip(&state.records) {
        *mark = match record.mark {
            ABOVE => Mark::Above(record.step as u64),
            AT_MOST => Mark::AtMost(record.step as u64),
            _ => Mark::Open,
        };
    }
    test.draws = state.n as u64;
    let (answer, number) = match test.answer() {
        Answer::Open => (OPEN, 0),
        Answer::Decided(place) => (DECIDED, place as u32),
        Answer::Crossed => (CROSSED, 0),
        Answer::Wide => (WIDE, 0),
        Answer::Spent => (SPENT, 0),
    };
    let (low, high) = test.interval();
    Report { answer, number, low: low as u32, high: high as u32 }
}

/// Checks by name: each example by both shapes, and by both with the choice of old.
fn of_examples() -> Vec<(String, bool)> {
    let mut out = Vec::new();
    for (draft, marks, interval, number, in_order) in MARKED {
        let (draft, state) = (draft(), marked_state(marks));
        for ((fault, slip), number) in PAIRS.into_iter().zip([number, in_order]) {
            let expected = marked_report(interval, number);
            let name = |shape: &str| format!("{marks} of {} buckets by {shape}, {slip:?}", draft.buckets.len());
            out.push((name("judge"), by_judge(&draft, &state, fault) == expected));
            out.push((name("sequential"), by_sequential(&draft, &state, slip) == expected));
        }
    }
    out
}

pub fn checks(seed: u64) -> Vec<(String, bool)> {
    let mut out = of_examples();
    for (fault, slip) in PAIRS {
        let agree = |place: u64| {
            let rng = &mut Rng::new(seed, 46_000_000 + place);
            let horizon = rng.range(1, 50) as u32;
            let draft = overlapping_draft(rng, horizon);
            let begun = State { n: rng.range(1, 50) as u32, ..State::default() };
            let state = marked(&begun, &any_marks(rng, draft.thresholds.len() as u32), 1);
            by_judge(&draft, &state, fault) == by_sequential(&draft, &state, slip)
        };
        out.push((format!("judge and sequential agree, {slip:?}"), (0..ROUNDS).all(agree)));
    }
    out
}
