//! Mistakes of saving, reading and the two calls, which the comparisons must notice.

use crate::form::{Reason, REASONS};
use crate::judge::{Fault, CLAUSES, COUNTING, JUDGING, NEVER_ALONE, NEVER_TAKEN};
use crate::outcomes;

#[derive(Clone, Copy, Debug, PartialEq)]
pub enum Wrong {
    None,
    SettledStored,
    SettledBare,
    MassesReversed,
    ThresholdsReversed,
    SpentSwapped,
    RoundedLost,
    /// The older layout is read too, with no masses rounded.
    OlderRead,
    /// One reason of 15 is not looked at; a mark that is unknown is then taken as open.
    Unjudged(Reason),
    UnknownAtMost,
    MarkOfOneByte,
    LowerUnsigned,
    /// The count of masses in so many bits.
    CountOf(u32),
    /// A refusal is judged before another one.
    Before(u32, u32),
    /// A mistake of a draw, or of refusal 11.
    Judge(Fault),
    BehindCleared,
    /// Beside this refusal lent bytes or words change.
    RefusedWrites(u32),
    /// Beside this refusal a length or a test is handed back.
    RefusedHandsBack(u32),
    TwelveByOneMore,
    TwelveByOld,
    BehindLiveKept,
    SettledKept,
    PastZero,
    CrossedWideSwapped,
    BucketFrom0,
    DrawOf8Bits,
}

/// The entries, as the tallies name them.
pub const WRITE: &str = "write_test";
pub const READ: &str = "read_test";
pub const BEGIN: &str = "vimorake_begin";
pub const DRAW: &str = "vimorake_draw";
/// The same, of a chain of calls: only mistakes in counting masses rounded are tried.
pub const CHAIN: &str = "vimorake_draw in chains";

/// Stands for the plan's refusals where an order is spoken of.
pub const PLAN: u32 = 0;
/// Stands there for masses rounded alone, which are a part of 11.
pub const ROUNDED: u32 = 1100;

/// The orders of saved 2, 3 and 6.
fn order(entry: &str) -> &'static [u32] {
    match entry {
        WRITE => &[PLAN, 8, 11, ROUNDED, 12],
        READ => &[PLAN, 8, 15, 11, ROUNDED],
        BEGIN => &[PLAN, 12],
        DRAW => &[PLAN, 15, 9, 10, 11, ROUNDED, 12],
        other => panic!("{other} is no entry"),
    }
}

/// Each refusal judged before each earlier one. A plan that is refused has no answer, so none that 10 could tell; and
/// nothing tells masses rounded from the rest of 11.
fn orders(entry: &str) -> Vec<Wrong> {
    let order = order(entry);
    let pairs = (0..order.len()).flat_map(|late| (0..late).map(move |early| (order[late], order[early])));
    let told = pairs.filter(|pair| ![(10, PLAN), (ROUNDED, 11)].contains(pair) && pair.1 != ROUNDED);
    told.map(|(late, early)| Wrong::Before(late, early)).collect()
}

/// The clauses of 11 whose limit, moved by 1 or -1, no call of the entry can tell. Fewer than one live count leave S no
/// place between the boundaries; in bytes, too many are for 15; and an ended test is for 10.
fn unseen(entry: &str, clause: usize, by: i128) -> bool {
    let [s_over_n, few] = NEVER_ALONE;
    let [_, many] = NEVER_TAKEN;
    match entry {
        _ if by < 0 && clause == few => true,
        WRITE => false,
        _ if by < 0 && clause == many => true,
        READ => false,
        _ => (by < 0 && clause == s_over_n) || (by > 0 && NEVER_TAKEN.contains(&clause)),
    }
}

fn limits(entry: &str) -> Vec<Wrong> {
    let all = (0..CLAUSES.len()).flat_map(|clause| [(clause, -1), (clause, 1)]);
    let seen = all.filter(|(clause, by)| !unseen(entry, *clause, *by));
    seen.map(|(clause, by)| Wrong::Judge(Fault::Limit(clause, by))).collect()
}

const OF_FORM: [Wrong; 6] = [
    Wrong::SettledStored,
    Wrong::SettledBare,
    Wrong::MassesReversed,
    Wrong::ThresholdsReversed,
    Wrong::SpentSwapped,
    Wrong::RoundedLost,
];

/// Beside the reasons of 15.
const OF_READING: [Wrong; 6] = [
    Wrong::OlderRead,
    Wrong::UnknownAtMost,
    Wrong::MarkOfOneByte,
    Wrong::LowerUnsigned,
    Wrong::CountOf(16),
    Wrong::CountOf(32),
];

/// Of a plan's refusals nothing is told but the number.
fn refusals(entry: &str) -> impl Iterator<Item = u32> {
    order(entry).iter().copied().filter(|number| ![PLAN, ROUNDED].contains(number))
}

pub fn mistakes(entry: &str) -> Vec<Wrong> {
    if entry == CHAIN {
        return COUNTING.map(Wrong::Judge).to_vec();
    }
    let mut out = orders(entry);
    out.extend(refusals(entry).map(Wrong::RefusedWrites));
    if entry != BEGIN {
        out.extend(limits(entry));
        out.extend(JUDGING.map(Wrong::Judge));
        out.extend(OF_FORM);
    }
    match entry {
        READ => out.extend([Wrong::BehindLiveKept, Wrong::SettledKept, Wrong::PastZero]),
        _ => out.extend([Wrong::BehindCleared, Wrong::TwelveByOneMore]),
    }
    match entry {
        WRITE | READ => out.extend(refusals(entry).map(Wrong::RefusedHandsBack)),
        DRAW => out.extend([Wrong::TwelveByOld, Wrong::CrossedWideSwapped, Wrong::BucketFrom0, Wrong::DrawOf8Bits]),
        _ => {}
    }
    if entry == READ || entry == DRAW {
        out.extend(REASONS.map(Wrong::Unjudged));
        out.extend(OF_READING);
    }
    out
}

fn refusal(number: u32) -> String {
    match number {
        PLAN => "the plan's".into(),
        ROUNDED => "masses rounded".into(),
        number => number.to_string(),
    }
}

pub fn name(wrong: Wrong) -> String {
    match wrong {
        Wrong::Before(late, early) => format!("{} before {}", refusal(late), refusal(early)),
        Wrong::Judge(fault) => outcomes::name(fault),
        other => format!("{other:?}"),
    }
}
