//! What the rules settle of one call, for any plan, state, words and draw. Spending and walk are its own, to be
//! independent of `boundary`.

use crate::choices::Choice;
use crate::host::{draft_of, Plan, Record, Report, State, Written};
use crate::host::{ABOVE, AT_MOST, CROSSED, DECIDED, OPEN, REFUSED, SPENT, WIDE};
use crate::misspent::Misspent;
use crate::plan::{MILLION, WHOLE};

/// Words of a part.
pub const PART: usize = 769;
pub const WORD_LIMIT: u128 = 1 << 43;

/// The most that masses rounded may be after n draws.
pub fn most_rounded(n: u32) -> u64 {
    PART as u64 * n as u64
}

/// The clauses of refusal 11.
pub const CLAUSES: [&str; 16] = [
    "n over N",
    "S over n",
    "settled before 1",
    "settled after n",
    "lower under -1",
    "upper over n + 1",
    "apart under 2",
    "apart over 770",
    "S at lower",
    "S at upper",
    "upper spent",
    "lower spent",
    "live word",
    "mass under M",
    "rounded, open",
    "rounded, settled",
];

/// Masses rounded, of an open record and of a settled one.
pub const OPEN_ROUNDED: usize = 14;
pub const SETTLED_ROUNDED: usize = 15;

/// Never broken alone: each open threshold breaks another with it, and where none is open the answer ends the test.
pub const NEVER_ALONE: [usize; 2] = [1, 6];
/// At their limit the answer is `spent` or `wide`: refusal 10.
pub const NEVER_TAKEN: [usize; 2] = [0, 7];

/// Mistakes that the comparison must notice.
#[derive(Clone, Copy, Debug, PartialEq)]
pub enum Fault {
    None,
    /// A clause's limit moved: -1 lets one more pass, 1 one less.
    Limit(usize, i128),
    NineBeforeEight,
    TenBeforeNine,
    ElevenBeforeTen,
    BehindKept,
    PastCleared,
    SettledCleared,
    MarkOfStepBefore,
    RefusalCounts,
    /// Another choice among the buckets.
    Choice(Choice),
    /// Other cells counted as rounded.
    EveryCellRounded,
    KeptRounded,
    SpentRounded,
    /// Masses rounded in the last step alone.
    RoundedAnew,
    /// Of a settled threshold its masses rounded lost: those of the settling step, or all of them at the next draw.
    SettlingUnrounded,
    SettledUnrounded,
    /// Other limits to masses rounded: none where settled, 768 × n, 769 × the mark's step, one for signed numbers.
    SettledUnjudged,
    RoundedBy768,
    RoundedByStep,
    RoundedSigned,
    /// Masses rounded judged before this refusal.
    RoundedBefore(u32),
    /// Another spending.
    Spending(Misspent),
}

/// Mistakes in counting masses rounded, and in judging them.
pub const COUNTING: [Fault; 6] = [
    Fault::EveryCellRounded,
    Fault::KeptRounded,
    Fault::SpentRounded,
    Fault::RoundedAnew,
    Fault::SettlingUnrounded,
    Fault::SettledUnrounded,
];
pub const JUDGING: [Fault; 4] =
    [Fault::SettledUnjudged, Fault::RoundedBy768, Fault::RoundedByStep, Fault::RoundedSigned];

pub fn plan_refusal(p: &Plan) -> u32 {
    match draft_of(p) {
        None => 1,
        Some(draft) => draft.plan().refusal().unwrap_or(0) as u32,
    }
}

/// What a writing hands back; the bytes are changed in place.
pub fn write_plan(p: &Plan, lent: &mut [u8]) -> Written {
    let form = draft_of(p).map_or(vec![], |draft| draft.store());
    let refusal = match plan_refusal(p) {
        0 if p.points > 0 => 17,
        0 if lent.len() < form.len() => 12,
        number => number,
    };
    if refusal > 0 {
        return Written { refusal, size: 0 };
    }
    lent[..form.len()].copy_from_slice(&form);
    Written { refusal, size: form.len() }
}

pub fn spending(p: &Plan, i: usize, n: u32) -> u128 {
    let allowance = p.allowances[i] as u128;
    let steps = &p.steps[..p.placed()];
    if steps.is_empty() {
        return allowance * n as u128 / (n as u128 + p.delay as u128);
    }
    // Steps rise: so many points are at or before n.
    let come = steps.partition_point(|step| *step <= n);
    come.checked_sub(1).map_or(0, |last| allowance * p.shares[last] as u128 / MILLION)
}

fn spending_with(p: &Plan, i: usize, n: u32, fault: Fault) -> u128 {
    match fault {
        Fault::Spending(misspent) => misspent.spending(p, i, n),
        _ => spending(p, i, n),
    }
}

fn apart(r: &Record) -> i128 {
    r.upper as i128 - r.lower as i128
}

/// The number of the narrowest bucket that contains the interval, the first of equally narrow ones.
fn narrowest(p: &Plan, low: u32, high: u32) -> Option<u32> {
    let contains = |place: &u32| p.bucket(*place).contains(low as u128, high as u128);
    let narrowest = (0..p.buckets).filter(contains).min_by_key(|place| (p.bucket(*place).width(), *place));
    narrowest.map(|place| place + 1)
}

/// The answer rule with its interval, put to any state under an accepted plan.
pub fn answer(p: &Plan, s: &State, fault: Fault) -> Report {
    let k = p.count as usize;
    let marked = |mark: u32| (0..k).filter(move |i| s.records[*i].mark == mark).map(|i| p.thresholds[i]);
    let low = marked(ABOVE).max().unwrap_or(0);
    let high = marked(AT_MOST).min().unwrap_or(MILLION as u32);
    let (crossed, bucket) = match fault {
        Fault::Choice(choice) => (low > high && !choice.passes_crossed(), choice.number(p, low, high)),
        _ => (low > high, narrowest(p, low, high)),
    };
    let wide = (0..k).any(|i| s.records[i].mark == OPEN && apart(&s.records[i]) - 1 == PART as i128);
    let (answer, number) = match bucket {
        _ if crossed => (CROSSED, 0),
        Some(number) => (DECIDED, number),
        None if wide => (WIDE, 0),
        None if s.n == p.horizon => (SPENT, 0),
        None => (OPEN, 0),
    };
    Report { answer, number, low, high }
}

/// The answer to a state as it stands; a refused plan has no interval.
pub fn report_on(p: &Plan, s: &State, fault: Fault) -> Report {
    match plan_refusal(p) {
        0 => answer(p, s, fault),
        number => Report { answer: REFUSED, number, low: 0, high: 0 },
    }
}

/// The live words of a record, as many as its part has.
pub fn live<'a>(r: &Record, part: &'a [u64]) -> &'a [u64] {
    &part[..(apart(r) - 1).clamp(0, part.len() as i128) as usize]
}

/// How far inside their limit a record's masses rounded are; none where they are not judged.
fn rounded_slack(r: &Record, n: u32, fault: Fault) -> Option<i128> {
    let settled = r.mark != OPEN;
    let limit = match fault {
        Fault::SettledUnjudged if settled => return None,
        Fault::RoundedByStep if settled => most_rounded(r.step),
        Fault::RoundedBy768 => most_rounded(n) - n as u64,
        _ => most_rounded(n),
    };
    let rounded = if fault == Fault::RoundedSigned { r.rounded as i32 as i128 } else { r.rounded as i128 };
    Some(limit as i128 - rounded)
}

/// Too many masses rounded in one of the first K records.
pub fn rounded_over(p: &Plan, s: &State) -> bool {
    let over = |r: &Record| rounded_slack(r, s.n, Fault::None).is_some_and(|slack| slack < 0);
    s.records[..p.count as usize].iter().any(over)
}

/// How far inside each clause's limit the state is, the least over its records: 0 at the limit, below 0 broken.
pub fn slacks(p: &Plan, s: &State, words: &[u64], fault: Fault) -> [Option<i128>; CLAUSES.len()] {
    let mut out = [None; CLAUSES.len()];
    let mut note = |clause: usize, slack: i128| {
        out[clause] = Some(out[clause].map_or(slack, |least: i128| least.min(slack)));
    };
    let (n, ones) = (s.n as i128, s.ones as i128);
    note(0, p.horizon as i128 - n);
    note(1, n - ones);
    for i in 0..p.count as usize {
        let r = &s.records[i];
        if let Some(slack) = rounded_slack(r, s.n, fault) {
            note(if r.mark == OPEN { OPEN_ROUNDED } else { SETTLED_ROUNDED }, slack);
        }
        if r.mark != OPEN {
            note(2, r.step as i128 - 1);
            note(3, n - r.step as i128);
            continue;
        }
        let limit = spending_with(p, i, s.n, fault) as i128;
        let live = live(r, &words[PART * i..PART * (i + 1)]);
        let mass: u128 = live.iter().map(|w| *w as u128).sum::<u128>() + r.over as u128 + r.under as u128;
        note(4, r.lower as i128 + 1);
        note(5, n + 1 - r.upper as i128);
        note(6, apart(r) - 2);
        note(7, PART as i128 + 1 - apart(r));
        note(8, ones - r.lower as i128 - 1);
        note(9, r.upper as i128 - ones - 1);
        note(10, limit - r.over as i128);
        note(11, limit - r.under as i128);
        note(12, WORD_LIMIT as i128 - live.iter().copied().max().unwrap_or(0) as i128);
        note(13, mass as i128 - WHOLE as i128);
    }
    out
}

/// Refusal 11, of words that fit the plan.
pub fn spoiled(p: &Plan, s: &State, words: &[u64], fault: Fault) -> bool {
    let limit = |clause: usize| match fault {
        Fault::Limit(moved, by) if moved == clause => by,
        _ => 0,
    };
    let mut slacks = slacks(p, s, words, fault).into_iter().enumerate();
    slacks.any(|(clause, slack)| slack.is_some_and(|slack| slack < limit(clause)))
}

fn counts_as_rounded(rounded: bool, kept: bool, fault: Fault) -> bool {
    match fault {
        Fault::EveryCellRounded => true,
        Fault::KeptRounded => rounded && kept,
        Fault::SpentRounded => rounded && !kept,
        _ => rounded,
    }
}

/// One step of a walk to step t: masses by count, boundaries searched over their printed ranges. The self-check holds it to
/// the literal search.
pub fn walk(a: u128, limit: u128, t: i64, r: &mut Record, part: &mut [u64], fault: Fault) {
    let (lower, upper) = (r.lower as i64, r.upper as i64);
    let counts: Vec<i64> = (lower + 1..=upper).collect();
    let old = |s: i64| match lower < s && s < upper {
        true => part.get((s - lower - 1) as usize).copied().unwrap_or(0) as u128,
        false => 0,
    };
    let cell = |s: &i64| {
        let sum = old(*s) * (MILLION - a) + old(*s - 1) * a;
        let rounded = sum % MILLION > 0;
        (sum / MILLION + rounded as u128, rounded)
    };
    let (new, rounded): (Vec<u128>, Vec<bool>) = counts.iter().map(cell).unzip();
    let mut sums = vec![0u128];
    for mass in &new {
        sums.push(sums[sums.len() - 1] + mass);
    }
    let all = sums[new.len()];
    let below = |j: i64| sums[(j - lower - 1).clamp(0, new.len() as i64) as usize];
    let (over, under) = (r.over as u128, r.under as u128);
    // Both exist for every state that is not refused.
    let top = (1..=t + 1).find(|j| all - below(*j) + over <= limit).unwrap_or(i64::MAX);
    let bottom = (-1..=t).rev().find(|j| below(*j + 1) + under <= limit).unwrap_or(-2);
    let sum = |from: &dyn Fn(i64) -> bool| counts.iter().zip(&new).filter(|c| from(*c.0)).map(|c| c.1).sum::<u128>();
    r.over = (over + sum(&|s| s >= top)) as u64;
    r.under = (under + sum(&|s| s <= bottom)) as u64;
    r.lower = bottom as i32;
    r.upper = top as u32;
    if fault != Fault::BehindKept {
        part.fill(0);
    }
    let kept = |s: &i64| bottom < *s && *s < top;
    let masses = counts.iter().zip(&new).filter(|c| kept(c.0)).map(|c| *c.1 as u64);
    part.iter_mut().zip(masses).for_each(|(word, mass)| *word = mass);
    let counted = counts.iter().zip(&rounded).filter(|c| counts_as_rounded(*c.1, kept(c.0), fault)).count();
    let before = if fault == Fault::RoundedAnew { 0 } else { r.rounded };
    // Only a mistake lets so large a number through that this is not the sum.
    r.rounded = before.wrapping_add(counted as u32);
}

fn refused(number: u32, s: &State) -> State {
    State { answer: REFUSED, number, ..*s }
}

/// The refusal of a draw, or 0.
fn draw_refusal(p: &Plan, s: &State, words: &[u64], d: u8, fault: Fault) -> u32 {
    let bad = plan_refusal(p);
    if bad > 0 {
        return bad;
    }
    let eight = words.len() != PART * p.count as usize;
    let nine = d > 1;
    let ten = || answer(p, s, fault).answer != OPEN;
    let eleven = || spoiled(p, s, words, fault);
    let rounded = |before: u32| fault == Fault::RoundedBefore(before) && rounded_over(p, s);
    match fault {
        Fault::NineBeforeEight if nine => 9,
        _ if rounded(8) => 11,
        _ if eight => 8,
        Fault::TenBeforeNine if ten() => 10,
        _ if rounded(9) => 11,
        _ if nine => 9,
        Fault::ElevenBeforeTen if eleven() => 11,
        _ if rounded(10) => 11,
        _ if ten() => 10,
        _ if eleven() => 11,
        _ => 0,
    }
}

fn turn(p: &Plan, s: &mut State, words: &mut [u64], fault: Fault) {
    for i in 0..p.count as usize {
        let r = &mut s.records[i];
        let part = &mut words[PART * i..PART * (i + 1)];
        if r.mark != OPEN {
            match fault {
                Fault::SettledCleared => part.fill(0),
                Fault::SettledUnrounded => r.rounded = 0,
                _ => {}
            }
            continue;
        }
        let before = r.rounded;
        walk(p.thresholds[i] as u128, spending_with(p, i, s.n, fault), s.n as i64, r, part, fault);
        let step = s.n - (fault == Fault::MarkOfStepBefore) as u32;
        if s.ones as i64 >= r.upper as i64 {
            (r.mark, r.step) = (ABOVE, step);
        } else if s.ones as i64 <= r.lower as i64 {
            (r.mark, r.step) = (AT_MOST, step);
        }
        if r.mark != OPEN && fault == Fault::SettlingUnrounded {
            r.rounded = before;
        }
    }
}

/// What a draw hands back; the words are changed in place.
pub fn draw(p: &Plan, s: &State, words: &mut [u64], d: u8, fault: Fault) -> State {
    let number = draw_refusal(p, s, words, d, fault);
    if number > 0 {
        let counted = s.n.wrapping_add((fault == Fault::RefusalCounts) as u32);
        return refused(number, &State { n: counted, ..*s });
    }
    let mut next = *s;
    next.n = next.n.wrapping_add(1);
    next.ones = next.ones.wrapping_add(d as u32);
    turn(p, &mut next, words, fault);
    if fault == Fault::PastCleared {
        next.records[p.count as usize..].fill(Record::default());
    }
    let settled = answer(p, &next, fault);
    State { answer: settled.answer, number: settled.number, ..next }
}

/// Step 0.
pub const FIRST: Record = Record { mark: OPEN, step: 0, lower: -1, upper: 1, over: 0, under: 0, rounded: 0 };

/// What a beginning hands back; the words are changed in place.
pub fn begin(p: &Plan, words: &mut [u64]) -> State {
    let bad = plan_refusal(p);
    if bad > 0 {
        return refused(bad, &State::default());
    }
    if words.len() != PART * p.count as usize {
        return refused(8, &State::default());
    }
    for (i, word) in words.iter_mut().enumerate() {
        *word = if i % PART == 0 { WHOLE as u64 } else { 0 };
    }
    let state = State { records: [FIRST; 10], ..State::default() };
    let settled = answer(p, &state, Fault::None);
    State { answer: settled.answer, number: settled.number, ..state }
}
