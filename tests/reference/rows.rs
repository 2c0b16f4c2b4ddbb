//! What the calls of a command came to, by entry, and how often each row must come up.

use crate::tally::{named, Counts, Differing};
use crate::wrong::{mistakes, name, Wrong, WRITE};
use std::collections::BTreeSet;
use std::fmt::Debug;

pub const OUTCOMES: &str = "outcomes";
pub const MET: &str = "met";
const NOTICED: &str = "mistakes noticed";

/// An entry, a group of rows, and a row.
type Key = (&'static str, &'static str, String);

/// What a call hands back, and the bytes or words that were lent to it, after it.
pub type Outcome<A, B> = (A, Vec<B>);

/// Every so many-th call of an entry is also judged with each mistake, if no more than this is lent to it.
fn mistaken(entry: &str) -> u64 {
    if entry == WRITE { 4 } else { 2 }
}

const LENT: usize = 7000;

#[derive(Default)]
pub struct Rows {
    counts: Counts<Key>,
    needed: Counts<Key>,
    calls: Counts<&'static str>,
    differ: Differing,
    /// No mistakes are tried.
    untried: bool,
}

impl Rows {
    pub fn untried() -> Rows {
        Rows { untried: true, ..Rows::default() }
    }

    /// So often must each of these rows come up, separated by commas.
    pub fn need(&mut self, entry: &'static str, group: &'static str, rows: &str, times: u64) {
        for row in rows.split(", ") {
            self.needed.insert((entry, group, row.into()), times);
        }
    }

    /// So often must each mistake of the entry be noticed.
    pub fn need_noticed(&mut self, entry: &'static str, times: u64) {
        for wrong in mistakes(entry) {
            self.needed.insert((entry, NOTICED, name(wrong)), times);
        }
    }

    pub fn count(&mut self, entry: &'static str, group: &'static str, row: String, so: bool) {
        *self.counts.entry((entry, group, row)).or_default() += so as u64;
    }

    /// One call by the library and by the reference.
    pub fn compare<A: PartialEq + Debug, B: PartialEq>(
        &mut self,
        entry: &'static str,
        kind: String,
        got: &Outcome<A, B>,
        judged: impl Fn(Wrong) -> Outcome<A, B>,
        handed: impl FnOnce() -> String,
    ) {
        let expected = judged(Wrong::None);
        let place = got.1.iter().zip(&expected.1).position(|(a, b)| a != b);
        let show = || {
            let lent = format!("lent {}, of them the first that differs: {place:?}", got.1.len());
            format!("{lent}\n  library  {:?}\n  expected {:?}\n  {}", got.0, expected.0, handed())
        };
        let calls = self.calls.entry(entry).or_default();
        *calls += 1;
        let mistaken = !self.untried && *calls % mistaken(entry) == 0 && got.1.len() <= LENT;
        self.count(entry, OUTCOMES, kind, true);
        self.holds(entry, *got == expected, show);
        if mistaken {
            for wrong in mistakes(entry) {
                self.count(entry, NOTICED, name(wrong), judged(wrong) != *got);
            }
        }
    }

    pub fn holds(&mut self, entry: &'static str, so: bool, show: impl FnOnce() -> String) {
        self.differ.note(so, || format!("{entry}: {}", show()));
    }

    pub fn print(&self) {
        println!("calls compared: {}", named(&self.calls));
        let headings: BTreeSet<(&str, &str)> = self.counts.keys().map(|(entry, group, _)| (*entry, *group)).collect();
        for (entry, group) in headings {
            let of = self.counts.iter().filter(|((e, g, _), _)| (*e, *g) == (entry, group));
            let rows: Counts<&String> = of.map(|((.., row), count)| (row, *count)).collect();
            println!("{entry}, {group}: {}", named(&rows));
        }
    }

    pub fn faults(&self) -> Vec<String> {
        let seldom = |(key, times): &(&Key, &u64)| self.counts.get(key).map_or(true, |count| count < times);
        let few = self.needed.iter().filter(seldom).map(|(key, _)| key);
        let mut out: Vec<String> = few.map(|(entry, group, row)| format!("seldom, {entry}, {group}: {row}")).collect();
        out.extend(self.differ.fault());
        out
    }
}
