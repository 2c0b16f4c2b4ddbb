//! The program's lines: what each run must print, what came up, and what differs.

use crate::case::{Case, PlanFile};
use crate::decided::{Decided, MET, OTHER_ENDS};
use crate::plan::{read, Plan};
use crate::tally::{join, named, sized, Counts};
use std::fs;
use std::path::Path;

/// Draws that make a run long, and how many such runs there must be.
const LONG: u64 = 1000;
const LONG_NEEDED: u64 = 300;

/// Accepted plans with thresholds about as close as the rules permit, and how many of the random plans must be so.
const CLOSE: [(&str, u64, fn(&Plan) -> bool); 3] = [
    ("the closest 100 apart", 500, |p| p.closest() == Some(100)),
    ("the closest 101 apart", 300, |p| p.closest() == Some(101)),
    ("ten, each 100 apart", 15, |p| p.thresholds.len() == 10 && p.thresholds[9].at - p.thresholds[0].at == 900),
];

/// Of the random runs that are decided, how many must come to each row of `MET` but the rare one.
const MET_NEEDED: u64 = 100;

/// Runs that must print each refusal.
const REFUSED_NEEDED: u64 = 100;

/// All that the program can print first.
const REACHABLE: [&str; 14] = [
    "open", "decided", "crossed", "wide", "spent", "refused 1", "refused 2", "refused 3", "refused 4",
    "refused 5", "refused 6", "refused 7", "refused 9", "refused 14",
];

pub fn kind_of_line(line: &str) -> String {
    let words: Vec<&str> = line.split_whitespace().collect();
    match words.first() {
        Some(&"refused") => words[..2.min(words.len())].join(" "),
        Some(word) => word.to_string(),
        None => String::new(),
    }
}

/// One run of the program, and the line that it must print.
pub struct Run {
    pub place: u64,
    pub group: &'static str,
    pub name: String,
    pub case: Case,
    pub expected: String,
}

pub struct Mismatch {
    pub run: Run,
    pub got: String,
}

#[derive(Default)]
pub struct Tally {
    pub lines: Counts<(&'static str, String)>,
    pub kinds: Counts<&'static str>,
    pub thresholds: Counts<u64>,
    pub buckets: Counts<u64>,
    pub close: Counts<&'static str>,
    pub met: Counts<&'static str>,
    pub random: u64,
    pub damaged: u64,
    pub examples: u64,
    pub long: u64,
    pub draws: u64,
    pub longest: u64,
    pub mismatches: Vec<Mismatch>,
    pub count_mismatches: u64,
}

impl Tally {
    pub fn join(&mut self, other: Tally) {
        join(&mut self.lines, other.lines);
        join(&mut self.kinds, other.kinds);
        join(&mut self.thresholds, other.thresholds);
        join(&mut self.buckets, other.buckets);
        join(&mut self.close, other.close);
        join(&mut self.met, other.met);
        self.random += other.random;
        self.damaged += other.damaged;
        self.examples += other.examples;
        self.long += other.long;
        self.draws += other.draws;
        self.longest = self.longest.max(other.longest);
        self.mismatches.extend(other.mismatches);
        self.count_mismatches += other.count_mismatches;
    }

    /// Takes in the buckets of a decided line.
    fn note_decided(&mut self, plan: &Plan, line: &str) {
        let numbers: Vec<u128> = line.split_whitespace().filter_map(|word| word.parse().ok()).collect();
        let decided = Decided::of(&plan.buckets, numbers[3], numbers[4], numbers[0] as usize);
        for (name, is) in MET {
            *self.met.entry(name).or_default() += is(&decided) as u64;
        }
    }

    /// Takes in one expected line.
    pub fn note(&mut self, run: &Run) {
        let (case, line) = (&run.case, &run.expected);
        *self.lines.entry((run.group, kind_of_line(line))).or_default() += 1;
        *self.kinds.entry(case.kind).or_default() += 1;
        let taken: u64 = match line.starts_with("refused") {
            true => 0,
            false => line.split_whitespace().nth(2).and_then(|n| n.parse().ok()).unwrap_or(0),
        };
        self.draws += taken;
        self.longest = self.longest.max(taken);
        match run.group {
            "random" => {
                self.random += 1;
                self.long += (taken > LONG) as u64;
                if let Some(bytes) = case.plan.bytes() {
                    *self.thresholds.entry(bytes[0] as u64).or_default() += 1;
                    *self.buckets.entry(bytes[2] as u64).or_default() += 1;
                    let plan = read(bytes).expect("a plan that keeps the rules");
                    for (name, _, _) in CLOSE.iter().filter(|(_, _, is)| is(&plan)) {
                        *self.close.entry(name).or_default() += 1;
                    }
                    if line.starts_with("decided") {
                        self.note_decided(&plan, line);
                    }
                }
            }
            "damaged" => self.damaged += 1,
            _ => self.examples += 1,
        }
    }

    fn total(&self, kind: &str) -> u64 {
        self.lines.iter().filter(|((_, k), _)| k == kind).map(|(_, count)| count).sum()
    }

    pub fn print(&self) {
        println!("runs: {} examples, {} random, {} damaged", self.examples, self.random, self.damaged);
        println!("draws taken: {}; longest run {}; runs over {LONG} draws: {}", self.draws, self.longest, self.long);
        println!("{:<12}{:>10}{:>10}{:>10}{:>10}", "line", "example", "random", "damaged", "all");
        for kind in REACHABLE {
            let of = |group| self.lines.get(&(group, kind.to_string())).copied().unwrap_or(0);
            let (e, r, d) = (of("example"), of("random"), of("damaged"));
            println!("{kind:<12}{e:>10}{r:>10}{d:>10}{:>10}", e + r + d);
        }
        println!("random plans by thresholds: {}", sized(&self.thresholds));
        println!("random plans by buckets: {}", sized(&self.buckets));
        println!("random plans with close thresholds: {}", named(&self.close));
        println!("random runs decided, their bucket: {}", named(&self.met));
        println!("by kind: {}", named(&self.kinds));
    }

    /// What the set of runs failed to reach.
    fn missing(&self) -> Vec<String> {
        let needed = |kind: &str| if kind.starts_with("refused") { REFUSED_NEEDED } else { 1 };
        let seldom = REACHABLE.iter().filter(|kind| self.total(kind) < needed(kind));
        let mut out: Vec<String> = seldom.map(|kind| format!("never or seldom printed: '{kind}'")).collect();
        if self.random < 5000 || self.damaged < 20_000 {
            out.push("too few runs".into());
        }
        if self.long < LONG_NEEDED {
            out.push(format!("only {} runs over {LONG} draws", self.long));
        }
        if (1..=10).any(|k| !self.thresholds.contains_key(&k)) || (2..=16).any(|b| !self.buckets.contains_key(&b)) {
            out.push("a size of plan never came up".into());
        }
        let seldom = CLOSE.iter().filter(|(name, needed, _)| self.close.get(name).copied().unwrap_or(0) < *needed);
        out.extend(seldom.map(|(name, _, _)| format!("few random plans with thresholds: {name}")));
        let often = MET.map(|(name, _)| name).into_iter().filter(|name| *name != OTHER_ENDS);
        let seldom = often.filter(|name| self.met.get(name).copied().unwrap_or(0) < MET_NEEDED);
        out.extend(seldom.map(|name| format!("few random runs decided, their bucket: {name}")));
        out
    }

    pub fn faults(&self, given_up: bool) -> Vec<String> {
        let mut out = Vec::new();
        if self.count_mismatches > 0 {
            out.push(format!("{} mismatches", self.count_mismatches));
        }
        if given_up {
            out.push("given up early".into());
        } else {
            out.extend(self.missing());
        }
        out
    }
}

/// Prints a mismatch, and keeps its plan and its input.
pub fn show(mismatch: &Mismatch, keep: Option<&str>) {
    let run = &mismatch.run;
    println!("MISMATCH: {}", run.name);
    match &run.case.plan {
        PlanFile::Stored(bytes) => {
            let hex: Vec<String> = bytes.iter().take(400).map(|b| format!("{b:02x}")).collect();
            let more = if bytes.len() > 400 { " ..." } else { "" };
            println!("  plan ({} bytes): {}{more}", bytes.len(), hex.join(""));
        }
        PlanFile::Missing => println!("  plan: missing"),
        PlanFile::Folder => println!("  plan: a folder"),
    }
    let input = &run.case.input;
    let head: String = input.iter().take(3000).map(|b| std::ascii::escape_default(*b).to_string()).collect();
    let more = if input.len() > 3000 { " ..." } else { "" };
    println!("  input ({} bytes, {:?}): {head}{more}", input.len(), run.case.feed);
    println!("  expected: {:?}", run.expected);
    println!("  program:  {}", mismatch.got);
    if let Some(folder) = keep {
        let folder = Path::new(folder).join(run.place.to_string());
        let kept = fs::create_dir_all(&folder)
            .and_then(|_| fs::write(folder.join("plan"), run.case.plan.bytes().unwrap_or(&[])))
            .and_then(|_| fs::write(folder.join("input"), input));
        match kept {
            Ok(()) => println!("  kept in {}", folder.display()),
            Err(e) => println!("  not kept: {e}"),
        }
    }
}
