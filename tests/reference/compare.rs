//! Runs a program on many plans and inputs and holds its line to the reference's.

use crate::damaged::{damaged_case, DAMAGED_RUNS};
use crate::examples::{self, Example};
use crate::lines::{show, Mismatch, Run, Tally};
use crate::random::{random_case, RANDOM_RUNS};
use crate::runner::{watch, Runner, Watched};
use crate::sequential::program;
use crate::tally::conclude;
use std::fs;
use std::path::{Path, PathBuf};
use std::sync::atomic::{AtomicBool, AtomicU64, Ordering};
use std::sync::{Arc, Mutex};
use std::time::Instant;

pub struct Setting {
    pub program: String,
    pub seed: u64,
    pub keep: Option<String>,
}

/// Runs at a time.
const THREADS: usize = 2;
const SHOWN: usize = 5;
/// Mismatches after which a program counts as wrong everywhere, and need not be run to the end.
const MANY: u64 = 200;

/// The run at a place in the list; the random ones first, as they take the longest.
fn run_at(place: u64, seed: u64, examples: &[Example]) -> Option<Run> {
    let damaged_from = RANDOM_RUNS + examples.len() as u64;
    let (group, name, case, fixed) = if place < RANDOM_RUNS {
        let case = random_case(seed, place);
        ("random", format!("{} (random {place})", case.kind), case, None)
    } else if place < damaged_from {
        let e = &examples[(place - RANDOM_RUNS) as usize];
        ("example", e.name.clone(), e.case.clone(), Some(e.line.clone()))
    } else if place < damaged_from + DAMAGED_RUNS {
        let which = place - damaged_from;
        let case = damaged_case(seed, which);
        ("damaged", format!("{} (damaged {which})", case.kind), case, None)
    } else {
        return None;
    };
    let expected = fixed.unwrap_or_else(|| program(case.plan.bytes(), &case.input));
    Some(Run { place, group, name, case, expected })
}

/// What the workers share: the place of the next run, and the mismatches of all.
#[derive(Default)]
struct Shared {
    next: AtomicU64,
    mismatches: AtomicU64,
}

fn work(runner: &Runner, seed: u64, shared: &Shared) -> Tally {
    let examples = examples::all();
    let mut tally = Tally::default();
    while let Some(run) = run_at(shared.next.fetch_add(1, Ordering::Relaxed), seed, &examples) {
        tally.note(&run);
        let got = match runner.output(&run.case, run.place) {
            Ok(out) if out == run.expected.as_bytes() => continue,
            Ok(out) => format!("{:?}", String::from_utf8_lossy(&out)),
            Err(trouble) => trouble,
        };
        tally.count_mismatches += 1;
        if tally.mismatches.len() < SHOWN {
            tally.mismatches.push(Mismatch { run, got });
        }
        if shared.mismatches.fetch_add(1, Ordering::Relaxed) > MANY {
            break;
        }
    }
    tally
}

/// The program's path, once the reference itself prints the examples' lines, and a temporary folder.
fn prepare(setting: &Setting) -> Result<(PathBuf, PathBuf), String> {
    let path = fs::canonicalize(&setting.program).map_err(|e| format!("{}: {e}", setting.program))?;
    for e in examples::all() {
        if program(e.case.plan.bytes(), &e.case.input) != e.line {
            return Err(format!("the reference itself misses the example '{}'", e.name));
        }
    }
    let base = std::env::temp_dir().join(format!("reference-{}-{}", std::process::id(), setting.seed));
    fs::create_dir(&base).map_err(|e| format!("{}: {e}", base.display()))?;
    Ok((path, base))
}

/// All runs, over the threads, and whether they were given up.
fn run_all(setting: &Setting, program: &Path, base: &Path) -> (Tally, bool) {
    let shared = Shared::default();
    let done = Arc::new(AtomicBool::new(false));
    let slots: Vec<Watched> = (0..THREADS).map(|_| Arc::new(Mutex::new(None))).collect();
    let watcher = {
        let (slots, done) = (slots.clone(), done.clone());
        std::thread::spawn(move || watch(slots, done))
    };
    let mut tally = Tally::default();
    std::thread::scope(|scope| {
        let start = |slot: &Watched| {
            let runner = Runner { program, base, slot: slot.clone() };
            let shared = &shared;
            scope.spawn(move || work(&runner, setting.seed, shared))
        };
        let workers: Vec<_> = slots.iter().map(start).collect();
        for worker in workers {
            tally.join(worker.join().expect("a worker"));
        }
    });
    done.store(true, Ordering::Relaxed);
    let _ = watcher.join();
    (tally, shared.mismatches.load(Ordering::Relaxed) > MANY)
}

pub fn run(setting: &Setting) -> bool {
    let began = Instant::now();
    let (program, base) = match prepare(setting) {
        Ok(prepared) => prepared,
        Err(trouble) => {
            println!("FAILED: {trouble}");
            return false;
        }
    };
    let (mut tally, given_up) = run_all(setting, &program, &base);
    let _ = fs::remove_dir_all(&base);

    println!("compare: seed {}, {:.1} s", setting.seed, began.elapsed().as_secs_f64());
    tally.print();
    tally.mismatches.sort_by_key(|m| m.run.place);
    for mismatch in tally.mismatches.iter().take(SHOWN) {
        show(mismatch, setting.keep.as_deref());
    }
    conclude(&tally.faults(given_up), "compare: all lines agree")
}
