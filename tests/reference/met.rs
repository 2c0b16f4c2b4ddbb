//! What the calls of `counting` came to, what has to come up, and the mistakes that were noticed.

use crate::host::{Run, RUN_ENDED, RUN_OPEN, RUN_REFUSED};
use crate::limits::{mistakes, mistakes_of_begin, name, Call, LIMITS, NEVER_TAKEN, RANGES};
use crate::tally::{named, Counts, Differing};

/// How often each mistake must be noticed.
const NOTICED: u64 = 100;

pub const BEGIN: &str = "begin";
pub const CARRIED: &str = "carried draw";
pub const OTHER: &str = "other draw";

/// The outcomes that must come up, by kind of call.
const EXPECTED: [(&str, &[&str]); 3] = [
    (BEGIN, &["open", "refused 13"]),
    (CARRIED, &["open", "h/l", "(g + 1)/n", "refused 9", "refused 10"]),
    (OTHER, &["open", "h/l", "(g + 1)/n", "refused 9", "refused 10", "refused 11", "refused 13"]),
];

/// Ends of carried runs that must come up.
const ENDS: [(&str, fn(&Run) -> bool); 8] = [
    ("h/h", |r| r.first == r.second),
    ("h/(n - 1)", |r| (r.first, r.second) == (r.stop, r.size.wrapping_sub(1))),
    ("1/n", |r| (r.first, r.second) == (1, r.size)),
    ("h/n", |r| (r.first, r.second) == (r.stop, r.size)),
    ("h/l of 50,000", |r| r.size == 50_000 && r.second < 50_000),
    ("(g + 1)/50,000", |r| r.second == 50_000),
    ("h is 49,999", |r| r.stop == 49_999),
    ("n is 2", |r| r.size == 2),
];

/// An answer over n comes after n - 1 draws: every l is below n.
fn kind(r: &Run) -> &'static str {
    match (r.answer, r.first) {
        (RUN_OPEN, _) => "open",
        (RUN_ENDED, _) if r.second == r.size => "(g + 1)/n",
        (RUN_ENDED, _) => "h/l",
        (RUN_REFUSED, 9) => "refused 9",
        (RUN_REFUSED, 10) => "refused 10",
        (RUN_REFUSED, 11) => "refused 11",
        (RUN_REFUSED, 13) => "refused 13",
        _ => "no such answer",
    }
}

#[derive(Default)]
pub struct Met {
    counts: Counts<(&'static str, &'static str)>,
    ends: Counts<&'static str>,
    /// For each limit: calls at it taken, and refused by 10; just past it, and past no other limit of its number.
    limits: [[u64; 3]; 9],
    ranges: [[u64; 3]; 9],
    noticed: Counts<(&'static str, String)>,
    calls: u64,
    differ: Differing,
}

/// Where a call stands to each limit.
fn note_limits(limits: &mut [[u64; 3]; 9], handed: &Run, d: u8, got: &Run) {
    let slacks = Call::of(handed, d).slacks();
    let sound = |number: u32| (0..9).all(|i| LIMITS[i].0 != number || slacks[i] >= 0);
    let past = |number: u32| (0..9).filter(|i| LIMITS[*i].0 == number && slacks[*i] < 0).count();
    let refusal = if got.answer == RUN_REFUSED { got.first } else { 0 };
    for (place, counts) in limits.iter_mut().enumerate() {
        let number = LIMITS[place].0;
        match (slacks[place], refusal) {
            (0, 0) => counts[0] += 1,
            (0, 10) if sound(11) => counts[1] += 1,
            (-1, refusal) if refusal == number && past(number) == 1 => counts[2] += 1,
            _ => {}
        }
    }
}

impl Met {
    pub fn note(&mut self, group: &'static str, got: &Run, same: bool, show: impl FnOnce() -> String) {
        self.calls += 1;
        *self.counts.entry((group, kind(got))).or_default() += 1;
        self.differ.note(same, || format!("{group}: {}", show()));
    }

    pub fn note_end(&mut self, end: &Run) {
        for (name, _) in ENDS.iter().filter(|(_, is)| is(end)) {
            *self.ends.entry(name).or_default() += 1;
        }
    }

    pub fn note_draw(&mut self, handed: &Run, d: u8, got: &Run) {
        note_limits(&mut self.limits, handed, d, got);
    }

    pub fn note_begin(&mut self, h: u32, n: u32, got: &Run) {
        note_limits(&mut self.ranges, &Run { stop: h, size: n, ..Run::default() }, 0, got);
    }

    pub fn note_mistake(&mut self, group: &'static str, fault: String, noticed: bool) {
        *self.noticed.entry((group, fault)).or_default() += noticed as u64;
    }

    fn noticed_in(&self, group: &str) -> Counts<String> {
        let of = self.noticed.iter().filter(|((of, _), _)| *of == group);
        of.map(|((_, fault), count)| (fault.clone(), *count)).collect()
    }

    pub fn print(&self) {
        println!("calls compared: {}", self.calls);
        for (group, _) in EXPECTED {
            let of = self.counts.iter().filter(|((of, _), _)| *of == group);
            let kinds: Counts<&str> = of.map(|((_, kind), count)| (*kind, *count)).collect();
            println!("{group}: {}", named(&kinds));
        }
        println!("ends of carried runs: {}", named(&self.ends));
        let columns = ["in, taken", "in, by 10", "just out", "begin, in", "just out"];
        println!("{:<20}{}", "limit", columns.map(|column| format!("{column:>12}")).concat());
        for (place, (number, name, _)) in LIMITS.iter().enumerate() {
            let ([taken, ended, past], [begun, _, refused]) = (self.limits[place], self.ranges[place]);
            let begin = if place < RANGES { format!("{begun:>12}{refused:>12}") } else { String::new() };
            println!("{:<20}{taken:>12}{ended:>12}{past:>12}{begin}", format!("{number}: {name}"));
        }
        for group in [OTHER, BEGIN] {
            println!("mistakes noticed, {group}: {}", named(&self.noticed_in(group)));
        }
    }

    /// What never came up, and what differed.
    pub fn faults(&self) -> Vec<String> {
        let mut out = Vec::new();
        for (group, kinds) in EXPECTED {
            let never = kinds.iter().filter(|kind| !self.counts.contains_key(&(group, **kind)));
            out.extend(never.map(|kind| format!("no {group}: {kind}")));
        }
        let never = ENDS.iter().filter(|(name, _)| !self.ends.contains_key(name));
        out.extend(never.map(|(name, _)| format!("no run ended: {name}")));
        for (place, [taken, ended, past]) in self.limits.into_iter().enumerate() {
            let inside = if NEVER_TAKEN.contains(&place) { ended } else { taken };
            let [begun, _, refused] = self.ranges[place];
            if inside == 0 || past == 0 || (place < RANGES && (begun == 0 || refused == 0)) {
                out.push(format!("a limit was not met: {}", LIMITS[place].1));
            }
        }
        for (group, list) in [(OTHER, mistakes()), (BEGIN, mistakes_of_begin())] {
            let noticed = self.noticed_in(group);
            let seldom = list.into_iter().map(name).filter(|fault| noticed.get(fault).map_or(true, |n| *n < NOTICED));
            out.extend(seldom.map(|fault| format!("{group}: seldom noticed: {fault}")));
        }
        out.extend(self.differ.fault());
        out
    }
}
