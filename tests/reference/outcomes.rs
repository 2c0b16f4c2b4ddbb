//! What the calls of `spoiled` came to, what has to come up, and the mistakes to be noticed.

use crate::host::{State, CROSSED, DECIDED, OPEN, REFUSED, SPENT, WIDE};
use crate::judge::{most_rounded, slacks, Fault, CLAUSES, COUNTING, JUDGING};
use crate::judge::{NEVER_ALONE, NEVER_TAKEN, OPEN_ROUNDED, SETTLED_ROUNDED};
use crate::scenes::Scene;
use crate::tally::{named, sized, Counts, Differing};

#[derive(Default)]
pub struct Tally {
    counts: Counts<(&'static str, String)>,
    /// For each clause: draws at its limit taken, and refused by 10; just past it, and so alone.
    clauses: [[u64; 4]; CLAUSES.len()],
    pub noticed: Counts<String>,
    pub draws_by_k: Counts<u32>,
    pub draws: u64,
    calls: u64,
    pub differ: Differing,
}

pub fn kind(answer: u32, number: u32) -> String {
    match answer {
        OPEN => "open".into(),
        DECIDED => "decided".into(),
        CROSSED => "crossed".into(),
        WIDE => "wide".into(),
        SPENT => "spent".into(),
        REFUSED => format!("refused {number}"),
        other => format!("answer {other}"),
    }
}

pub fn kind_of_refusal(number: u32) -> String {
    match number {
        0 => "done".into(),
        number => kind(REFUSED, number),
    }
}

impl Tally {
    fn count(&mut self, group: &'static str, what: String) {
        *self.counts.entry((group, what)).or_default() += 1;
    }

    pub fn note(&mut self, group: &'static str, what: String, same: bool, show: impl FnOnce() -> String) {
        self.calls += 1;
        self.count(group, what);
        self.differ.note(same, || format!("{group}: {}", show()));
    }

    /// Where the draw's state stands to each clause of refusal 11, once 1 to 9 let it through.
    pub fn note_clauses(&mut self, scene: &Scene, outcome: &State) {
        let refusal = if outcome.answer == REFUSED { outcome.number } else { 0 };
        if ![0, 10, 11].contains(&refusal) {
            return;
        }
        let slacks = slacks(&scene.plan, &scene.state, &scene.words, Fault::None);
        let broken = slacks.iter().flatten().filter(|slack| **slack < 0).count();
        if refusal == 11 && broken == 1 {
            self.note_far(scene, &slacks);
        }
        for (clause, slack) in slacks.iter().enumerate() {
            match (slack, refusal) {
                (Some(0), 0) => self.clauses[clause][0] += 1,
                (Some(0), 10) if broken == 0 => self.clauses[clause][1] += 1,
                (Some(-1), 11) => {
                    self.clauses[clause][2] += 1;
                    self.clauses[clause][3] += (broken == 1) as u64;
                }
                _ => {}
            }
        }
    }

    /// Large numbers of masses rounded that alone break a clause.
    fn note_far(&mut self, scene: &Scene, slacks: &[Option<i128>]) {
        let most = most_rounded(scene.state.n) as i128;
        let met = FAR.into_iter().filter(|(clause, number)| slacks[*clause] == Some(most - *number as i128));
        met.for_each(|far| self.count(FAR_ROUNDED, far_name(far)));
    }

    /// What of the left-over contents a taken draw met.
    pub fn note_garbage(&mut self, scene: &mut Scene) {
        let k = scene.k();
        for i in 0..k {
            let live = scene.live_of(i);
            let settled = scene.state.records[i].mark != OPEN;
            if !settled && scene.part(i)[live..].iter().any(|w| *w != 0) {
                self.count(OVER_GARBAGE, "behind the live words".into());
            }
            if settled && scene.part(i).iter().all(|w| *w != 0) {
                self.count(OVER_GARBAGE, "settled words".into());
            }
        }
        if scene.state.records[k..].iter().any(|r| r.over != 0) {
            self.count(OVER_GARBAGE, "records past K".into());
        }
        let most = most_rounded(scene.state.n);
        if scene.state.records[k..].iter().any(|r| r.rounded as u64 > most) {
            self.count(OVER_GARBAGE, "rounded past K".into());
        }
    }
}

pub fn mistakes() -> Vec<Fault> {
    let limits = (0..CLAUSES.len()).flat_map(|clause| [Fault::Limit(clause, -1), Fault::Limit(clause, 1)]);
    let unseen = |f: &Fault| match f {
        Fault::Limit(clause, -1) => NEVER_ALONE.contains(clause),
        Fault::Limit(clause, _) => NEVER_TAKEN.contains(clause),
        _ => false,
    };
    let mut out: Vec<Fault> = limits.filter(|f| !unseen(f)).collect();
    out.extend([
        Fault::NineBeforeEight,
        Fault::TenBeforeNine,
        Fault::ElevenBeforeTen,
        Fault::BehindKept,
        Fault::PastCleared,
        Fault::SettledCleared,
        Fault::MarkOfStepBefore,
        Fault::RefusalCounts,
    ]);
    out.extend(COUNTING);
    out.extend(JUDGING);
    out.extend([8, 9, 10].map(Fault::RoundedBefore));
    out
}

/// A mistake with masses rounded must be noticed often, any other at all.
fn needed_noticed(fault: Fault) -> u64 {
    let rounded = match fault {
        Fault::Limit(clause, _) => [OPEN_ROUNDED, SETTLED_ROUNDED].contains(&clause),
        Fault::RoundedBefore(_) => true,
        other => COUNTING.contains(&other) || JUDGING.contains(&other),
    };
    if rounded { 20 } else { 1 }
}

pub fn name(fault: Fault) -> String {
    match fault {
        Fault::Limit(clause, by) => format!("'{}' by {by}", CLAUSES[clause]),
        other => format!("{other:?}"),
    }
}

/// The outcomes that must come up, by entry.
const EXPECTED: [(&str, &str); 7] = [
    ("carried draw", "open decided crossed wide spent"),
    ("spoiled draw", "open decided crossed wide spent 1 2 3 4 5 6 8 9 10 11 14"),
    ("begin", "open 1 2 3 4 5 6 8 14"),
    ("report_on", "open decided crossed wide spent 1 2 3 4 5 6 14"),
    ("plan_refusal", "done 1 2 3 4 5 6 14"),
    ("write_plan", "done 1 2 3 4 5 6 12 14"),
    ("read_plan", "done 1 2 3 4 5 6 7 14"),
];

/// A refusal must come up often, an answer at all.
fn needed(kind: &str) -> u64 {
    if kind.parse::<u32>().is_ok() { 40 } else { 1 }
}

const LEFT_OVER: [&str; 4] = ["behind the live words", "settled words", "records past K", "rounded past K"];
const OVER_GARBAGE: &str = "taken over garbage";

/// Numbers of masses rounded far over their limit, by clause.
const FAR: [(usize, u32); 6] = [
    (OPEN_ROUNDED, 1 << 31),
    (OPEN_ROUNDED, u32::MAX - 1),
    (OPEN_ROUNDED, u32::MAX),
    (SETTLED_ROUNDED, 1 << 31),
    (SETTLED_ROUNDED, u32::MAX - 1),
    (SETTLED_ROUNDED, u32::MAX),
];
const FAR_ROUNDED: &str = "refused for masses rounded alone";

fn far_name((clause, number): (usize, u32)) -> String {
    format!("{}: {number}", CLAUSES[clause])
}

impl Tally {
    fn of(&self, group: &'static str, what: &str) -> u64 {
        let what = if what.parse::<u32>().is_ok() { format!("refused {what}") } else { what.to_string() };
        self.counts.get(&(group, what)).copied().unwrap_or(0)
    }

    pub fn print(&self) {
        println!("calls compared: {}, of them draws {}", self.calls, self.draws);
        println!("draws by thresholds: {}", sized(&self.draws_by_k));
        for (group, kinds) in EXPECTED {
            let list: Vec<String> = kinds.split(' ').map(|kind| format!("{kind} {}", self.of(group, kind))).collect();
            println!("{group}: {}", list.join(", "));
        }
        let list: Vec<String> = LEFT_OVER.iter().map(|what| format!("{what} {}", self.of(OVER_GARBAGE, what))).collect();
        println!("draws taken over garbage: {}", list.join(", "));
        let list = FAR.map(far_name).map(|far| format!("{far} {}", self.of(FAR_ROUNDED, &far)));
        println!("draws {FAR_ROUNDED}: {}", list.join(", "));
        println!("{:<20}{:>12}{:>12}{:>12}{:>12}", "refusal 11", "in, taken", "in, by 10", "just out", "alone");
        for (name, [taken, ended, out, alone]) in CLAUSES.iter().zip(self.clauses) {
            println!("{name:<20}{taken:>12}{ended:>12}{out:>12}{alone:>12}");
        }
        println!("mistakes noticed: {}", named(&self.noticed));
    }

    /// What never came up.
    pub fn missing(&self) -> Vec<String> {
        let mut out = Vec::new();
        for (group, kinds) in EXPECTED {
            let seldom = kinds.split(' ').filter(|kind| self.of(group, kind) < needed(kind));
            out.extend(seldom.map(|kind| format!("never or seldom, {group}: {kind}")));
        }
        out.extend(LEFT_OVER.iter().filter(|what| self.of(OVER_GARBAGE, what) == 0).map(|what| format!("never {what}")));
        let far = FAR.map(far_name).into_iter().filter(|far| self.of(FAR_ROUNDED, far) == 0);
        out.extend(far.map(|far| format!("never {FAR_ROUNDED}: {far}")));
        for (clause, [taken, ended, past, alone]) in self.clauses.into_iter().enumerate() {
            let inside = if NEVER_TAKEN.contains(&clause) { ended } else { taken };
            if inside == 0 || past == 0 || (alone == 0 && !NEVER_ALONE.contains(&clause)) {
                out.push(format!("a limit was not met: {}", CLAUSES[clause]));
            }
        }
        let noticed = |fault: Fault| self.noticed.get(&name(fault)).copied().unwrap_or(0);
        let mistakes = mistakes().into_iter().filter(|fault| noticed(*fault) < needed_noticed(*fault));
        out.extend(mistakes.map(|fault| format!("never or seldom noticed: {}", name(fault))));
        if self.draws < 200_000 {
            out.push("too few draws".into());
        }
        out
    }
}
