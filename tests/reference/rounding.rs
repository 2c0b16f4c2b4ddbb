//! Steps of a walk whose sums leave chosen remainders, with masses up to the largest that a state may hold. Besides
//! `judge`, each live word is held to what rounding up means, the least whole number that is enough, and masses rounded
//! to the sums that leave a remainder; those of the star thresholds over 50,000 steps.

use crate::boundary::{Quick, Slip};
use crate::draft::{plan_f, star_of, two_buckets, Draft, STAR_ALLOWANCE, STAR_DELAY, STAR_THRESHOLDS};
use crate::examples::with_thresholds;
use crate::gandy::Unsettled;
use crate::host::{self, plan_of, State, OPEN, REFUSED};
use crate::judge::{self, most_rounded, Fault, PART, WORD_LIMIT};
use crate::plan::{LARGEST_ALLOWANCE, LEAST_APART, MILLION, WHOLE};
use crate::rng::Rng;
use crate::scenes::{made_up_with, Scene};
use crate::tally::{conclude, named, sized, Counts, Differing};
use std::time::Instant;

const CALLS: u64 = 20_000;
/// How many calls must notice each mistake, and how many live cells must have each number of `MET`.
const NEEDED: u64 = 1000;

const THRESHOLDS: [u128; 7] = [1, 2, 50_000, 333_333, 400_000, 500_000, 999_999];
const REMAINDERS: [u128; 8] = [0, 1, 2, 499_999, 500_000, 500_001, 999_998, 999_999];
const LARGE: u128 = 1 << 62;

/// What a live cell has, and the numbers that must come up; the last of the sums is the largest that there is.
const MET: [(&str, fn(&Cell) -> Option<u128>, &[u128]); 4] = [
    ("thresholds", |cell| Some(cell.a), &THRESHOLDS),
    ("sums", |cell| Some(cell.sum()), &[0, 1, MILLION, WORD_LIMIT * MILLION]),
    ("remainders", |cell| Some(cell.remainder()), &REMAINDERS),
    ("remainders of sums from 2^62 on", |cell| (cell.sum() >= LARGE).then(|| cell.remainder()), &REMAINDERS),
];

const M: u64 = WHOLE as u64;

/// A threshold, masses from count 0 on, and a count with its mass after a step.
const EXAMPLES: [(u32, &[u64], usize, u64); 7] = [
    (50_000, &[M], 0, 4_178_144_185_549),
    (50_000, &[M], 1, 219_902_325_556),
    (400_000, &[M], 0, 2_638_827_906_663),
    (400_000, &[M], 1, 1_759_218_604_442),
    (333_333, &[7, 3, M], 1, 5),
    (500_000, &[1, 1, M], 1, 1),
    (500_000, &[2, 1, M], 1, 2),
];

/// What each mistake makes of the cells of a step: so many rounded.
const MISCOUNTS: [(&str, fn(&Step) -> u32); 9] = [
    ("every cell counted", |step| step.count(|_| true)),
    ("every mass over 0 counted", |step| step.count(|cell| cell.sum() > 0)),
    ("live cells counted alone", |step| step.count(|cell| cell.leaves() && cell.word.is_some())),
    ("cells beyond a boundary counted alone", |step| step.count(|cell| cell.leaves() && cell.word.is_none())),
    ("the lowest cell not counted", |step| step.count(Cell::leaves) - step.cells[0].leaves() as u32),
    ("the highest cell not counted", |step| {
        step.count(Cell::leaves) - step.cells.last().is_some_and(Cell::leaves) as u32
    }),
    ("a remainder of 1 not counted", |step| step.count(|cell| cell.remainder() > 1)),
    ("a remainder of 999,999 not counted", |step| step.count(|cell| ![0, 999_999].contains(&cell.remainder()))),
    ("remainders counted from a half on", |step| step.count(|cell| cell.remainder() >= MILLION / 2)),
];

/// A threshold with its allowance and delay, and masses rounded after each step.
const ROUNDED: [(u32, u64, u32, &[u32]); 2] = [
    (50_000, 4_398_046_511, 1000, &[2, 5, 9, 14, 20, 25, 31, 37, 43, 50]),
    (400_000, LARGEST_ALLOWANCE, 1, &[2, 5, 8, 10, 12, 15]),
];

/// Steps of the star thresholds' walks, and masses rounded after them.
const STAR_STEPS: u32 = 50_000;
const STAR_ROUNDED: [u32; 9] =
    [1_608_110, 2_315_020, 3_294_000, 6_549_693, 7_300_575, 8_037_421, 15_277_744, 15_334_204, 16_799_793];

/// What each mistake makes of the two products.
const MISTAKES: [(&str, fn(u128, u128) -> u128); 7] = [
    ("999,998 added", |stay, rise| (stay + rise + 999_998) / MILLION),
    // The same as one added after the division.
    ("1,000,000 added", |stay, rise| (stay + rise + MILLION) / MILLION),
    ("rounded down", |stay, rise| (stay + rise) / MILLION),
    ("rounded to nearest", |stay, rise| (stay + rise + MILLION / 2) / MILLION),
    ("products rounded apart", |stay, rise| stay.div_ceil(MILLION) + rise.div_ceil(MILLION)),
    ("a sum of 62 bits", |stay, rise| ((stay + rise) % LARGE).div_ceil(MILLION)),
    ("floating point", |stay, rise| ((stay + rise) as f64 / 1e6).ceil() as u128),
];

/// A count that gets a new mass in a step: what its old mass and the one before bring, and the word that was left where
/// it is live.
#[derive(Debug)]
struct Cell {
    a: u128,
    stay: u128,
    rise: u128,
    word: Option<u128>,
}

impl Cell {
    fn sum(&self) -> u128 {
        self.stay + self.rise
    }

    fn remainder(&self) -> u128 {
        self.sum() % MILLION
    }

    /// Does its sum leave a remainder?
    fn leaves(&self) -> bool {
        self.remainder() > 0
    }

    fn rounded_up(&self) -> bool {
        let enough = |mass: u128| mass * MILLION >= self.sum();
        self.word.map_or(true, |word| enough(word) && (word == 0 || !enough(word - 1)))
    }
}

/// One step of a walk by the library.
#[derive(Debug)]
struct Step {
    cells: Vec<Cell>,
    /// By how much masses rounded rose.
    rounded: u32,
}

impl Step {
    fn count(&self, counted: impl Fn(&Cell) -> bool) -> u32 {
        self.cells.iter().filter(|cell| counted(cell)).count() as u32
    }

    fn is_right(&self) -> bool {
        self.cells.iter().all(Cell::rounded_up) && self.rounded == self.count(Cell::leaves)
    }
}

/// The steps of a draw, of thresholds that were all open.
fn steps(scene: &Scene, after: &State, words: &[u64]) -> Vec<Step> {
    let mut out = Vec::new();
    for (i, (before, part)) in scene.words.chunks(PART).zip(words.chunks(PART)).enumerate() {
        let (r, left) = (&scene.state.records[i], &after.records[i]);
        let (before, part) = (judge::live(r, before), judge::live(left, part));
        let at = |words: &[u64], lower: i32, count: i64| {
            let place = usize::try_from(count - lower as i64 - 1).ok();
            place.and_then(|place| words.get(place)).map(|word| *word as u128)
        };
        let old = |count: i64| at(before, r.lower, count).unwrap_or(0);
        let a = scene.plan.thresholds[i] as u128;
        let counts = r.lower as i64 + 1..=r.upper as i64;
        let cell = |s| Cell { a, stay: old(s) * (MILLION - a), rise: old(s - 1) * a, word: at(part, left.lower, s) };
        out.push(Step { cells: counts.map(cell).collect(), rounded: left.rounded.wrapping_sub(r.rounded) });
    }
    out
}

// ---- steps with chosen remainders

/// The least x for which factor × x leaves the rest on division, where there is one; both are below the divisor.
fn solved(factor: u128, rest: u128, divisor: u128) -> Option<u128> {
    if factor == 0 {
        return (rest == 0).then_some(0);
    }
    // factor × x = rest + divisor × y: so y is one for a division by the factor.
    let y = solved(divisor % factor, (factor - rest % factor) % factor, factor)?;
    Some((rest + divisor * y) / factor)
}

/// The largest mass, up to a limit, that after the one before makes the sum leave the remainder, where there is one.
fn leaving(remainder: u128, a: u128, before: u128, limit: u128) -> Option<u128> {
    let rest = (remainder + MILLION - before * a % MILLION) % MILLION;
    let least = solved(MILLION - a, rest, MILLION)?;
    Some(limit - limit.checked_sub(least)? % MILLION)
}

/// Masses of all sizes, small or large; two in three are to leave a remainder.
fn any_masses(rng: &mut Rng, a: u128, live: usize) -> Vec<u64> {
    let limit = WORD_LIMIT as u64;
    let (least, most) = rng.pick(&[(0, limit), (0, 20), (M, limit)]);
    let mut before = 0;
    let one = |_| {
        let any = rng.scale(least, most);
        let size = rng.pick(&[any, any, least, least + 1, most - 1, most]) as u128;
        let (listed, any) = (rng.pick(&REMAINDERS), rng.below(MILLION as u64) as u128);
        let remainder = rng.pick(&[listed, listed, listed, any]);
        let chosen = leaving(remainder, a, before, size).filter(|_| rng.chance(2, 3));
        before = chosen.unwrap_or(size);
        before as u64
    };
    (0..live).map(one).collect()
}

fn any_thresholds(rng: &mut Rng) -> Vec<u32> {
    let mut out: Vec<u32> = Vec::new();
    for _ in 0..rng.scale(1, 10) {
        let (listed, any) = (rng.pick(&THRESHOLDS) as u32, rng.range(1, 999_999) as u32);
        let at = rng.pick(&[listed, listed, any]);
        if out.iter().all(|other| at.abs_diff(*other) >= LEAST_APART) {
            out.push(at);
        }
    }
    out.sort();
    out
}

/// A state that takes a draw, all its thresholds open. Of the allowance 1 nothing is ever spent: no mass but 0 leaves.
fn any_scene(rng: &mut Rng) -> Scene {
    let any = rng.scale(1, LARGEST_ALLOWANCE);
    let allowance = rng.pick(&[1, 1, any]);
    // After fewer draws than this no state is wide.
    let horizon = rng.scale(1, PART as u64 - 1) as u32;
    let delay = rng.scale(1, 65_535) as u32;
    let plan = plan_of(&Draft { delay, horizon, ..with_thresholds(&any_thresholds(rng), allowance) });
    let mut scene = made_up_with(rng, plan, &[OPEN; 10]);
    for i in 0..scene.k() {
        let r = scene.state.records[i];
        let live = scene.live_of(i);
        let masses = any_masses(rng, plan.thresholds[i] as u128, live);
        scene.part(i)[..live].copy_from_slice(&masses);
        if masses.iter().sum::<u64>() + r.over + r.under < M {
            scene.part(i)[rng.below(live as u64) as usize] = M;
        }
    }
    scene
}

// ---- comparison

#[derive(Default)]
struct Tally {
    calls: u64,
    cells: u64,
    /// Masses rounded after the last step, by star threshold.
    star: Counts<u32>,
    differ: Differing,
    met: [Counts<u128>; 4],
    noticed: Counts<&'static str>,
}

impl Tally {
    fn note(&mut self, steps: &[Step]) {
        let cells: Vec<&Cell> = steps.iter().flat_map(|step| &step.cells).filter(|cell| cell.word.is_some()).collect();
        self.cells += cells.len() as u64;
        for ((_, of, numbers), counts) in MET.iter().zip(&mut self.met) {
            let listed = cells.iter().filter_map(|cell| of(cell)).filter(|number| numbers.contains(number));
            listed.for_each(|number| *counts.entry(number).or_default() += 1);
        }
        for (name, mass) in MISTAKES {
            let noticed = cells.iter().any(|cell| Some(mass(cell.stay, cell.rise)) != cell.word);
            *self.noticed.entry(name).or_default() += noticed as u64;
        }
        for (name, rounded) in MISCOUNTS {
            let noticed = steps.iter().any(|step| rounded(step) != step.rounded);
            *self.noticed.entry(name).or_default() += noticed as u64;
        }
    }

    /// One draw by both; the words are the library's.
    fn compare(&mut self, scene: &Scene) -> Vec<u64> {
        let (p, s) = (&scene.plan, &scene.state);
        let (mut words, mut expected_words) = (scene.words.clone(), scene.words.clone());
        let got = host::draw(*p, *s, &mut words, scene.draw);
        let expected = judge::draw(p, s, &mut expected_words, scene.draw, Fault::None);
        let steps = steps(scene, &got, &words);
        let wrong = steps.iter().find(|step| !step.is_right());
        let same = got == expected && words == expected_words && wrong.is_none() && got.answer != REFUSED;
        self.differ.note(same, || format!("{wrong:?}\n  {p:?}\n  {s:?}\n  library  {got:?}\n  expected {expected:?}"));
        self.calls += 1;
        self.note(&steps);
        words
    }

    /// Each is a beginning with its masses replaced; the whole alone leaves it as it is.
    fn compare_examples(&mut self) {
        for (at, masses, count, mass) in EXAMPLES {
            let plan = plan_of(&with_thresholds(&[at], 1));
            let mut words = vec![0; PART];
            let mut state = host::begin(plan, &mut words);
            words[..masses.len()].copy_from_slice(masses);
            state.n = masses.len() as u32 - 1;
            state.records[0].upper = masses.len() as u32;
            let got = self.compare(&Scene { plan, state, words, draw: 0 })[count];
            self.differ.note(got == mass, || format!("example {at}, {masses:?}, count {count}: {got} for {mass}"));
        }
        for (at, allowance, delay, rounded) in ROUNDED {
            let thresholds = vec![(at, allowance)];
            let mut test = Unsettled::begin(&Draft { thresholds, delay, buckets: two_buckets(at), ..plan_f() });
            let got: Vec<u32> = rounded.iter().filter_map(|_| test.advance().map(|_| test.rounded())).collect();
            self.differ.note(got == rounded, || format!("rounded at {at}: {got:?} for {rounded:?}"));
        }
    }

    /// The star thresholds' walks, at every step with `Quick` beside the library.
    fn compare_star(&mut self) {
        for (at, rounded) in STAR_THRESHOLDS.into_iter().zip(STAR_ROUNDED) {
            let mut test = Unsettled::begin(&star_of(at));
            let mut walk = Quick::begin(at as u128, STAR_ALLOWANCE as u128, STAR_DELAY as u128, Slip::None);
            let agree = (0..STAR_STEPS).all(|_| {
                walk.advance();
                test.advance() == Some((walk.upper, walk.lower)) && test.rounded() as u64 == walk.rounded
            });
            self.star.insert(at, test.rounded().into());
            let same = agree && test.rounded() == rounded;
            self.differ.note(same, || format!("threshold {at}, step {}: {} rounded", walk.step, test.rounded()));
        }
    }

    fn print(&self) {
        println!("calls compared: {}, live cells: {}", self.calls, self.cells);
        MET.iter().zip(&self.met).for_each(|((what, ..), counts)| println!("{what}: {}", sized(counts)));
        println!("mistakes noticed: {}", named(&self.noticed));
        let most = most_rounded(STAR_STEPS);
        println!("masses rounded after {STAR_STEPS} steps, of at most {most}, by threshold: {}", sized(&self.star));
    }

    fn faults(&self) -> Vec<String> {
        let mut out = Vec::new();
        for ((what, _, numbers), counts) in MET.iter().zip(&self.met) {
            let few = numbers.iter().filter(|number| counts.get(number).map_or(true, |count| *count < NEEDED));
            out.extend(few.map(|number| format!("seldom, {what}: {number}")));
        }
        let few = self.noticed.iter().filter(|(_, count)| **count < NEEDED);
        out.extend(few.map(|(name, _)| format!("seldom noticed: {name}")));
        out.extend(self.differ.fault());
        out
    }
}

pub fn run(seed: u64) -> bool {
    let began = Instant::now();
    let mut tally = Tally::default();
    tally.compare_examples();
    tally.compare_star();
    for place in 0..CALLS {
        tally.compare(&any_scene(&mut Rng::new(seed, 47_000_000 + place)));
    }
    println!("rounding: seed {seed}, {:.1} s", began.elapsed().as_secs_f64());
    tally.print();
    conclude(&tally.faults(), "rounding: all masses agree")
}
