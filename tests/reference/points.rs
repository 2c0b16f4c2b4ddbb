//! Plans that spend by points: judged, written, carried, saved, at the limit of refusal 11, and their exact chances.

use crate::host::{self, plan_of, State, OPEN};
use crate::judge::PART;
use crate::outcomes::kind;
use crate::point_facts::{checks, example_plan, EXAMPLE_BOUNDARIES, EXAMPLE_LINES, EXAMPLE_SPENT};
use crate::tally::{conclude, Differing};
use crate::{point_limits, point_plans, point_tests};
use std::time::Instant;

/// The state after each draw by the library, up to an ending answer.
fn carried(draws: &str) -> Vec<State> {
    let plan = plan_of(&example_plan());
    let mut words = vec![7; PART];
    let mut state = host::begin(plan, &mut words);
    let mut out = Vec::new();
    for draw in draws.bytes() {
        if state.answer != OPEN {
            break;
        }
        state = host::draw(plan, state, &mut words, draw - b'0');
        out.push(state);
    }
    out
}

fn line(state: &State) -> String {
    let report = host::report_on(plan_of(&example_plan()), *state);
    let word = kind(report.answer, report.number);
    format!("{word} {} {} {} {} {}\n", report.number, state.n, state.ones, report.low, report.high)
}

/// The rules' example by the library.
fn compare_example(differ: &mut Differing) {
    for (draws, expected) in EXAMPLE_LINES {
        let states = carried(draws);
        let got = states.last().map(line);
        let same = got.as_deref() == Some(expected) && states.len() == draws.len();
        differ.note(same, || format!("example, draws {draws}: {got:?} for {expected:?}"));
    }
    let states = carried("0000000000");
    for (state, boundaries) in states.iter().zip(EXAMPLE_BOUNDARIES) {
        let r = &state.records[0];
        let same = (r.upper as i64, r.lower as i64) == boundaries && (state.n != 2 || r.over as u128 == EXAMPLE_SPENT);
        differ.note(same, || format!("example, step {}: {r:?} for {boundaries:?}", state.n));
    }
}

pub fn run(seed: u64) -> bool {
    let began = Instant::now();
    let since = || began.elapsed().as_secs_f64();
    let mut differ = Differing::default();
    compare_example(&mut differ);
    let checks = checks(seed);
    let mut faults: Vec<String> = checks.iter().filter(|(_, good)| !good).map(|(name, _)| name.clone()).collect();
    println!("points: {} checks without the library, {:.1} s", checks.len(), since());
    let plans = point_plans::compared(seed);
    println!("points: plans, {:.1} s", since());
    plans.print();
    let tests = point_tests::compared(seed);
    println!("points: tests, {:.1} s", since());
    tests.print();
    let limits = point_limits::compared(seed);
    println!("points: states at the limit, {:.1} s", since());
    limits.print();
    faults.extend(differ.fault());
    faults.extend([plans.faults(), tests.faults(), limits.faults()].concat());
    println!("points: seed {seed}, {:.1} s", since());
    conclude(&faults, "points: all refusals, answers, records, words and bytes agree")
}
