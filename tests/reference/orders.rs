//! All orders of n different results, the first the real one: h/l of them have an answer at most h/l, and so for j/n.

use crate::host::{self, Run, RUN_ENDED, RUN_OPEN};
use crate::limits::{self, Fault, OF_VALUES};
use crate::rng::Rng;
use crate::tally::{named, Counts};

const SIZES: std::ops::RangeInclusive<usize> = 2..=7;

/// How often each answer was given.
type Answers = Counts<(u32, u32)>;

/// One order for each place: its digits, to the bases n, n - 1 and so on, each take one of the results that are left.
fn order(results: &[u64], mut place: usize) -> Vec<u64> {
    let mut left = results.to_vec();
    let mut out = Vec::new();
    while !left.is_empty() {
        let digit = place % left.len();
        place /= left.len();
        out.push(left.remove(digit));
    }
    out
}

fn orders(results: &[u64]) -> Vec<Vec<u64>> {
    let all = (1..=results.len()).product();
    (0..all).map(|place| order(results, place)).collect()
}

/// A shuffle's draw is 1 where its result is at least as large as the real one.
pub fn draws(order: &[u64]) -> Vec<u8> {
    order[1..].iter().map(|result| (*result >= order[0]) as u8).collect()
}

/// The mistake of counting the smaller ones.
pub fn draws_of_smaller(order: &[u64]) -> Vec<u8> {
    order[1..].iter().map(|result| (*result < order[0]) as u8).collect()
}

/// Draws taken while the run is open: its answer, if it ended.
fn answer(begun: Run, draws: &[u8], take: impl Fn(&Run, u8) -> Run) -> Option<(u32, u32)> {
    let next = |run: Run, d: &u8| if run.answer == RUN_OPEN { take(&run, *d) } else { run };
    let run = draws.iter().fold(begun, next);
    (run.answer == RUN_ENDED).then_some((run.first, run.second))
}

pub fn library_answer(h: u32, n: u32, draws: &[u8]) -> Option<(u32, u32)> {
    answer(host::count_begin(h, n), draws, |run, d| host::count_draw(*run, d))
}

/// Whether counting the smaller ones changes the answer.
fn shows_smaller(h: u32, n: u32, order: &[u64]) -> bool {
    library_answer(h, n, &draws(order)) != library_answer(h, n, &draws_of_smaller(order))
}

fn mistaken_answer(h: u32, n: u32, draws: &[u8], fault: Fault) -> Option<(u32, u32)> {
    answer(limits::begin(h, n, fault), draws, |run, d| limits::draw(run, d, fault))
}

/// Those of the answers that are at most a/b.
fn at_most(answers: &Answers, a: u64, b: u64) -> u64 {
    let within = |(first, second): (u32, u32)| first as u64 * b <= a * second as u64;
    answers.iter().filter(|(answer, _)| within(**answer)).map(|(_, count)| count).sum()
}

/// The fractions whose share is to be themselves: h/l for l from h to n - 1, j/n for j from 1 to h.
fn fractions(h: u64, n: u64) -> Vec<(u64, u64)> {
    (h..n).map(|l| (h, l)).chain((1..=h).map(|j| (j, n))).collect()
}

/// The fractions whose share among so many orders is another.
fn unmet(h: u64, n: u64, answers: &Answers, orders: u64) -> Vec<(u64, u64)> {
    fractions(h, n).into_iter().filter(|(a, b)| at_most(answers, *a, *b) * b != a * orders).collect()
}

fn counted(list: &[Vec<u8>], answer: impl Fn(&[u8]) -> Option<(u32, u32)>) -> Answers {
    let mut out = Answers::new();
    for found in list.iter().filter_map(|draws| answer(draws)) {
        *out.entry(found).or_default() += 1;
    }
    out
}

fn different_results(rng: &mut Rng, n: usize) -> Vec<u64> {
    let mut out = Vec::new();
    let most = rng.pick(&[n as u64, 1000, u64::MAX]);
    while out.len() < n {
        let result = rng.below(most);
        if !out.contains(&result) {
            out.push(result);
        }
    }
    out
}

#[derive(Default)]
pub struct Shares {
    orders: u64,
    runs: u64,
    compared: u64,
    /// For each mistake, how many h and n had a wrong share by it.
    noticed: Counts<String>,
    /// Runs whose answer counting the smaller results changes.
    smaller: u64,
    wrong: Vec<String>,
}

impl Shares {
    fn stop_count(&mut self, h: u32, list: &[Vec<u64>]) {
        let n = list[0].len() as u32;
        let all = list.len() as u64;
        let right: Vec<Vec<u8>> = list.iter().map(|order| draws(order)).collect();
        let answers = counted(&right, |draws| library_answer(h, n, draws));
        if answers.values().sum::<u64>() != all {
            self.wrong.push(format!("not every order of {n} results ended at h = {h}"));
        }
        let wrong = unmet(h.into(), n.into(), &answers, all);
        self.wrong.extend(wrong.iter().map(|(a, b)| format!("h = {h}, n = {n}: the share of {a}/{b} is another")));
        self.runs += all;
        self.compared += fractions(h.into(), n.into()).len() as u64;
        for fault in OF_VALUES {
            let answers = counted(&right, |draws| mistaken_answer(h, n, draws, fault));
            let noticed = !unmet(h.into(), n.into(), &answers, all).is_empty();
            *self.noticed.entry(limits::name(fault)).or_default() += noticed as u64;
        }
        self.smaller += list.iter().filter(|order| shows_smaller(h, n, order)).count() as u64;
    }

    pub fn print(&self) {
        println!("orders: {}, runs over them {}, shares compared {}", self.orders, self.runs, self.compared);
        println!("mistakes noticed by shares: {}", named(&self.noticed));
        println!("smaller results counted, noticed: {}", self.smaller);
    }

    /// What was wrong, and the mistakes that were not noticed.
    pub fn faults(&self) -> Vec<String> {
        let never = self.noticed.iter().filter(|(_, count)| **count == 0);
        let mut out: Vec<String> = never.map(|(fault, _)| format!("not noticed by shares: {fault}")).collect();
        if self.smaller == 0 {
            out.push("smaller results counted are not noticed".into());
        }
        [self.wrong.clone(), out].concat()
    }
}

/// Every stop count over all orders of some results of each size.
pub fn all(rng: &mut Rng) -> Shares {
    let mut shares = Shares::default();
    for n in SIZES {
        let list = orders(&different_results(rng, n));
        let mut different = list.clone();
        different.sort();
        different.dedup();
        if different.len() != (1..=n).product() {
            shares.wrong.push(format!("orders of {n} results that come twice"));
        }
        shares.orders += list.len() as u64;
        for h in 1..n as u32 {
            shares.stop_count(h, &list);
        }
    }
    shares
}
