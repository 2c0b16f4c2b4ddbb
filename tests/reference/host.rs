//! The library's entries, by way of the crate `host`, and its two calls for C.

use crate::draft::Draft;
use crate::plan::Bucket;

/// Any plan; `refusal` is that of a reading.
#[repr(C)]
#[derive(Clone, Copy, Debug, Default, PartialEq)]
pub struct Plan {
    pub refusal: u32,
    pub count: u32,
    pub buckets: u32,
    pub delay: u32,
    pub horizon: u32,
    pub points: u32,
    pub thresholds: [u32; 10],
    pub allowances: [u64; 10],
    pub left: [u32; 16],
    pub right: [u32; 16],
    pub steps: [u32; 8],
    pub shares: [u32; 8],
}

impl Plan {
    /// What stands in a place, counted or not.
    pub fn bucket(&self, place: u32) -> Bucket {
        let of = |ends: &[u32; 16]| ends[place as usize] as u128;
        Bucket { left: of(&self.left), right: of(&self.right) }
    }

    /// How many points have a place and are counted.
    pub fn placed(&self) -> usize {
        self.points.min(self.steps.len() as u32) as usize
    }
}

pub const OPEN: u32 = 0;
pub const ABOVE: u32 = 1;
pub const AT_MOST: u32 = 2;

/// The step of an open mark is 0.
#[repr(C)]
#[derive(Clone, Copy, Debug, Default, PartialEq)]
pub struct Record {
    pub mark: u32,
    pub step: u32,
    pub lower: i32,
    pub upper: u32,
    pub over: u64,
    pub under: u64,
    pub rounded: u32,
}

pub const DECIDED: u32 = 1;
pub const CROSSED: u32 = 2;
pub const WIDE: u32 = 3;
pub const SPENT: u32 = 4;
pub const REFUSED: u32 = 5;

/// Any state, behind the answer that came with it.
#[repr(C)]
#[derive(Clone, Copy, Debug, Default, PartialEq)]
pub struct State {
    pub answer: u32,
    pub number: u32,
    pub n: u32,
    pub ones: u32,
    pub records: [Record; 10],
}

#[repr(C)]
#[derive(Clone, Copy, Debug, Default, PartialEq)]
pub struct Report {
    pub answer: u32,
    pub number: u32,
    pub low: u32,
    pub high: u32,
}

#[repr(C)]
#[derive(Clone, Copy, Debug, Default, PartialEq)]
pub struct Written {
    pub refusal: u32,
    pub size: usize,
}

/// A saved test that was read; `refusal` is that of the reading.
#[repr(C)]
#[derive(Clone, Copy, Debug, Default, PartialEq)]
pub struct Test {
    pub refusal: u32,
    pub n: u32,
    pub ones: u32,
    pub records: [Record; 10],
}

pub const RUN_OPEN: u32 = 0;
pub const RUN_ENDED: u32 = 1;
pub const RUN_REFUSED: u32 = 2;

/// Any run's record, behind the answer that came with it: `first` / `second`, or the number of a refusal and 0.
#[repr(C)]
#[derive(Clone, Copy, Debug, Default, PartialEq)]
pub struct Run {
    pub answer: u32,
    pub first: u32,
    pub second: u32,
    pub stop: u32,
    pub size: u32,
    pub taken: u32,
    pub ones: u32,
}

mod entries {
    use super::*;

    // A slice is lent as its address and its length.
    #[link(name = "host", kind = "static")]
    extern "C" {
        pub fn host_plan_refusal(p: Plan) -> u32;
        pub fn host_begin(p: Plan, words: *mut u64, len: usize) -> State;
        pub fn host_draw(p: Plan, s: State, words: *mut u64, len: usize, d: u8) -> State;
        pub fn host_report_on(p: Plan, s: State) -> Report;
        pub fn host_read_plan(bytes: *const u8, len: usize) -> Plan;
        pub fn host_write_plan(p: Plan, bytes: *mut u8, len: usize) -> Written;
        pub fn host_write_test(
            p: Plan,
            s: State,
            words: *const u64,
            words_len: usize,
            bytes: *mut u8,
            len: usize,
        ) -> Written;
        pub fn host_read_test(p: Plan, bytes: *const u8, len: usize, words: *mut u64, words_len: usize) -> Test;
        pub fn host_count_begin(h: u32, n: u32) -> Run;
        pub fn host_count_draw(r: Run, d: u8) -> Run;
    }

    #[link(name = "calls", kind = "static")]
    extern "C" {
        pub fn vimorake_begin(plan: *const u8, plan_len: usize, lent: *mut u8, lent_len: usize) -> u32;
        pub fn vimorake_draw(
            plan: *const u8,
            plan_len: usize,
            saved: *const u8,
            saved_len: usize,
            draw: u32,
            lent: *mut u8,
            lent_len: usize,
        ) -> u32;
    }
}

pub fn plan_refusal(p: Plan) -> u32 {
    unsafe { entries::host_plan_refusal(p) }
}

pub fn begin(p: Plan, words: &mut [u64]) -> State {
    unsafe { entries::host_begin(p, words.as_mut_ptr(), words.len()) }
}

pub fn draw(p: Plan, s: State, words: &mut [u64], d: u8) -> State {
    unsafe { entries::host_draw(p, s, words.as_mut_ptr(), words.len(), d) }
}

pub fn report_on(p: Plan, s: State) -> Report {
    unsafe { entries::host_report_on(p, s) }
}

pub fn read_plan(bytes: &[u8]) -> Plan {
    unsafe { entries::host_read_plan(bytes.as_ptr(), bytes.len()) }
}

pub fn write_plan(p: Plan, bytes: &mut [u8]) -> Written {
    unsafe { entries::host_write_plan(p, bytes.as_mut_ptr(), bytes.len()) }
}

/// Of the state its answer is not looked at.
pub fn write_test(p: Plan, s: State, words: &[u64], bytes: &mut [u8]) -> Written {
    unsafe { entries::host_write_test(p, s, words.as_ptr(), words.len(), bytes.as_mut_ptr(), bytes.len()) }
}

pub fn read_test(p: Plan, bytes: &[u8], words: &mut [u64]) -> Test {
    unsafe { entries::host_read_test(p, bytes.as_ptr(), bytes.len(), words.as_mut_ptr(), words.len()) }
}

pub fn call_begin(plan: &[u8], lent: &mut [u8]) -> u32 {
    unsafe { entries::vimorake_begin(plan.as_ptr(), plan.len(), lent.as_mut_ptr(), lent.len()) }
}

pub fn call_draw(plan: &[u8], saved: &[u8], draw: u32, lent: &mut [u8]) -> u32 {
    let (old, old_len) = (saved.as_ptr(), saved.len());
    unsafe { entries::vimorake_draw(plan.as_ptr(), plan.len(), old, old_len, draw, lent.as_mut_ptr(), lent.len()) }
}

pub fn count_begin(h: u32, n: u32) -> Run {
    unsafe { entries::host_count_begin(h, n) }
}

/// Of the run only the record counts: its answer is not looked at.
pub fn count_draw(r: Run, d: u8) -> Run {
    unsafe { entries::host_count_draw(r, d) }
}

/// The draft's plan, with zeros past its counts.
pub fn plan_of(draft: &Draft) -> Plan {
    let mut p = Plan {
        count: draft.thresholds.len() as u32,
        buckets: draft.buckets.len() as u32,
        delay: draft.delay,
        horizon: draft.horizon,
        points: draft.points.len() as u32,
        ..Plan::default()
    };
    for (i, (at, allowance)) in draft.thresholds.iter().take(10).enumerate() {
        p.thresholds[i] = *at;
        p.allowances[i] = *allowance;
    }
    for (j, (left, right)) in draft.buckets.iter().take(16).enumerate() {
        p.left[j] = *left;
        p.right[j] = *right;
    }
    for (j, (step, share)) in draft.points.iter().take(8).enumerate() {
        p.steps[j] = *step;
        p.shares[j] = *share;
    }
    p
}

/// The points that a plan counts; of those that have no place one stands for all, as zeros.
fn points_of(p: &Plan) -> Vec<(u32, u32)> {
    let mut out: Vec<(u32, u32)> = p.steps.into_iter().zip(p.shares).take(p.placed()).collect();
    if p.points as usize > out.len() {
        out.push((0, 0));
    }
    out
}

/// The draft that a plan holds, where its counts keep rule 1.
pub fn draft_of(p: &Plan) -> Option<Draft> {
    if !(1..=10).contains(&p.count) || !(2..=16).contains(&p.buckets) {
        return None;
    }
    let (k, b) = (p.count as usize, p.buckets as usize);
    Some(Draft {
        thresholds: (0..k).map(|i| (p.thresholds[i], p.allowances[i])).collect(),
        delay: p.delay,
        horizon: p.horizon,
        buckets: (0..b).map(|j| (p.left[j], p.right[j])).collect(),
        points: points_of(p),
    })
}
