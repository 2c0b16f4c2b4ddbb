//! The damaged files that tests/shuffle kept, and what the example in C made of each, held to `kept`.

use crate::calls::{form_in, kind};
use crate::form::{held, LONGEST};
use crate::host::State;
use crate::kept;
use crate::tally::{conclude, named, Counts, Differing};
use crate::wrong::Wrong;
use std::collections::{BTreeMap, BTreeSet};
use std::path::{Path, PathBuf};
use std::{fs, io};

const CASES: &str = "target/reference/shuffle";
/// How many files there must be, and how many of each outcome.
const FILES: u64 = 800;
const NEEDED: [(&str, u64); 3] = [("refused 15", 200), ("refused 11", 100), ("taken", 100)];

// ---- what was kept

struct Case {
    plan: Vec<u8>,
    /// The saved file before any damage.
    whole: Vec<u8>,
    /// By number.
    files: BTreeMap<String, Vec<u8>>,
    /// A number, then `taken` or `refused` of the first draw, and the line printed at the end.
    lines: String,
}

impl Case {
    fn load(folder: &Path) -> io::Result<Case> {
        let damaged = folder.join("damaged");
        let mut files = BTreeMap::new();
        for file in fs::read_dir(&damaged)? {
            let file = file?;
            files.insert(file.file_name().to_string_lossy().into_owned(), fs::read(file.path())?);
        }
        files.remove("lines");
        let (plan, whole) = (fs::read(folder.join("plan"))?, fs::read(folder.join("whole"))?);
        Ok(Case { plan, whole, files, lines: fs::read_to_string(damaged.join("lines"))? })
    }

    fn cut_to(&self, length: usize) -> bool {
        self.files.values().any(|file| file[..] == self.whole[..length])
    }

    fn changed_at(&self, at: usize) -> bool {
        let (whole, size) = (&self.whole, self.whole.len());
        let alone = |file: &Vec<u8>| (0..size).all(|i| (file[i] != whole[i]) == (i == at));
        self.files.values().any(|file| file.len() == size && alone(file))
    }

    /// Every shorter length and every byte, and as many lines as files.
    fn is_complete(&self) -> bool {
        let damaged = (0..self.whole.len()).all(|at| self.cut_to(at) && self.changed_at(at));
        damaged && self.lines.lines().count() == self.files.len()
    }
}

/// The folders of cases whose saved files were damaged.
fn folders() -> Vec<PathBuf> {
    let all = fs::read_dir(CASES).into_iter().flatten().flatten().map(|entry| entry.path());
    let mut out: Vec<PathBuf> = all.filter(|folder| folder.join("damaged").exists()).collect();
    out.sort();
    out
}

// ---- what the reference makes of it

/// The example's line for the number that ends its run, and the form that came with it.
fn line_of(number: u32, form: &[u8]) -> String {
    let State { n, ones, .. } = held(0, form, Wrong::None).state;
    let word = kind(number);
    match number {
        101..=116 => format!("{word} {} {n} {ones}", number - 100),
        117.. => format!("{word} 0 {n} {ones}"),
        _ => word,
    }
}

/// What may stand in `lines` behind a file's number. A shuffle gives 0 or 1, which the reference does not know: both are
/// tried at every step. Equal tests have equal forms, so few are open at a time.
fn permitted(plan: &[u8], saved: &[u8]) -> BTreeSet<String> {
    let (mut open, mut out) = (BTreeSet::from([saved.to_vec()]), BTreeSet::new());
    while !open.is_empty() {
        let calls = std::mem::take(&mut open).into_iter().flat_map(|form| [(form.clone(), 0), (form, 1)]);
        for (form, d) in calls {
            let mut lent = vec![0; LONGEST];
            let number = kept::draw(plan, &form, d, &mut lent, Wrong::None);
            let new = form_in(&lent);
            let first = if number < 100 && form == saved { "refused" } else { "taken" };
            match number {
                100 => open.insert(new.to_vec()),
                _ => out.insert(format!("{first} {}", line_of(number, new))),
            };
        }
    }
    out
}

#[derive(Default)]
struct Found {
    kinds: Counts<String>,
    differ: Differing,
    faults: Vec<String>,
}

impl Found {
    fn judge(&mut self, name: &str, case: &Case) {
        if !case.is_complete() {
            self.faults.push(format!("{name}: not every length, every byte, and one line for each file"));
        }
        let lines: BTreeMap<&str, &str> = case.lines.lines().filter_map(|line| line.split_once(' ')).collect();
        for (number, file) in &case.files {
            let made = lines.get(&number[..]).copied().unwrap_or("no line");
            let permitted = permitted(&case.plan, file);
            self.differ.note(permitted.contains(made), || format!("{name}, {number}: '{made}' for {permitted:?}"));
            *self.kinds.entry(made.strip_prefix("refused ").unwrap_or("taken").into()).or_default() += 1;
        }
    }

    fn files(&self) -> u64 {
        self.kinds.values().sum()
    }

    fn faults(mut self) -> Vec<String> {
        if self.files() < FILES {
            self.faults.push("too few files".into());
        }
        let seldom = NEEDED.iter().filter(|(kind, times)| self.kinds.get(*kind).map_or(true, |count| count < times));
        self.faults.extend(seldom.map(|(kind, _)| format!("never or seldom: {kind}")));
        self.faults.extend(self.differ.fault());
        self.faults
    }
}

pub fn run() -> bool {
    let mut found = Found::default();
    for folder in folders() {
        let name = folder.display().to_string();
        match Case::load(&folder) {
            Ok(case) => found.judge(&name, &case),
            Err(e) => found.faults.push(format!("{name}: {e}")),
        }
    }
    println!("damaged: {} files, {}", found.files(), named(&found.kinds));
    conclude(&found.faults(), "damaged: each file taken or refused as by the reference")
}
