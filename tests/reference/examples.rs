//! The examples that fix what the program prints.

use crate::case::Feed::{Closed, Folder, Held, Pieces, Reset, Whole, WriteOnly};
use crate::case::{Case, Feed, PlanFile};
use crate::draft::{plan_f, star_plan, two_buckets, Draft};
use crate::host::{Record, Report, State, ABOVE, AT_MOST, CROSSED, DECIDED};

pub struct Example {
    pub name: String,
    pub case: Case,
    pub line: String,
}

/// Four thresholds: the inner two can settle either way, the outer two never.
pub fn crossing_plan() -> Draft {
    Draft {
        thresholds: vec![
            (1000, 1),
            (10_000, 2_199_023_255_551),
            (50_000, 4_398_046_511),
            (900_000, 1),
        ],
        delay: 1,
        horizon: 700,
        buckets: vec![(0, 1000), (1000, 900_000), (900_000, 1_000_000)],
        points: Vec::new(),
    }
}

/// As many thresholds and buckets as a plan may have, 264 bytes; the thresholds as close as they may be.
pub fn largest_plan() -> Draft {
    Draft {
        thresholds: (1..=10).map(|i| (100 * i, 1)).collect(),
        buckets: (0..16).map(|i| if i % 2 == 0 { (0, 500) } else { (500, 1_000_000) }).collect(),
        ..plan_f()
    }
}

/// An allowance of one half: one unit too many.
pub fn half_allowance_plan() -> Draft {
    Draft { thresholds: vec![(50_000, 2_199_023_255_552)], ..plan_f() }
}

/// No bucket holds p between the two thresholds.
pub fn gap_plan() -> Draft {
    Draft {
        thresholds: vec![(10_000, 4_398_046_511), (50_000, 4_398_046_511)],
        buckets: vec![(0, 10_000), (50_000, 1_000_000)],
        ..plan_f()
    }
}

/// A threshold of one half that goes wide: its boundaries spread the fastest.
pub fn widening_plan(horizon: u32) -> Draft {
    Draft { thresholds: vec![(500_000, 1)], delay: 1, horizon, buckets: two_buckets(500_000), points: Vec::new() }
}

/// Ones settle the second threshold; then its bucket is the narrower of the two that contain the interval.
pub fn narrower_plan() -> Draft {
    Draft {
        thresholds: vec![(5000, 1), (10_000, 4_398_046_511)],
        buckets: vec![(0, 10_000), (5000, 1_000_000), (10_000, 1_000_000)],
        ..plan_f()
    }
}

/// Draws by turns settle the two inner thresholds; then two equally wide buckets, behind a wider one, contain the
/// interval.
fn equally_narrow_plan() -> Draft {
    let half = 2_199_023_255_551;
    Draft {
        thresholds: vec![(200_000, 1), (400_000, half), (600_000, half), (800_000, 1)],
        delay: 1,
        buckets: vec![(200_000, 800_000), (0, 400_000), (200_000, 600_000), (400_000, 800_000), (600_000, 1_000_000)],
        ..plan_f()
    }
}

/// Each bucket within another.
fn nested_plan() -> Draft {
    let buckets = vec![(0, 50_000), (0, 10_000), (10_000, 1_000_000), (50_000, 1_000_000)];
    Draft { buckets, ..gap_plan() }
}

/// Equally wide buckets behind a wider one, and one of them twice.
fn even_plan() -> Draft {
    let buckets = vec![(0, 40_000), (30_000, 1_000_000), (20_000, 40_000), (0, 20_000), (10_000, 30_000), (0, 20_000)];
    Draft { buckets, ..with_thresholds(&[10_000, 20_000, 30_000, 40_000], 1) }
}

fn f() -> PlanFile {
    PlanFile::of(&plan_f())
}

fn f_to_172() -> PlanFile {
    PlanFile::of(&Draft { horizon: 172, ..plan_f() })
}

fn with_a_byte_more(draft: &Draft) -> PlanFile {
    PlanFile::Stored([draft.store(), vec![0]].concat())
}

fn close_with_a_byte_more() -> PlanFile {
    with_a_byte_more(&with_thresholds(&[50_000, 50_099], 1))
}

fn crossing() -> PlanFile {
    PlanFile::of(&crossing_plan())
}

/// An input of LENGTH draws: some zeros, then the pattern over and over.
const fn zeros_then<const LENGTH: usize>(zeros: usize, pattern: &[u8]) -> [u8; LENGTH] {
    let mut out = [b'0'; LENGTH];
    let mut i = zeros;
    while i < LENGTH {
        out[i] = pattern[(i - zeros) % pattern.len()];
        i += 1;
    }
    out
}

/// One and zero by turns: the count keeps to the middle of a threshold of one half.
const TURN_ABOUT: [u8; 800] = zeros_then(0, b"10");

/// Its name, the plan, the input, how that is fed, and the line.
type Row = (&'static str, fn() -> PlanFile, &'static [u8], Feed, &'static str);

const ROWS: [Row; 44] = [
    ("plan F, 11111", f, b"11111", Whole, "decided 2 5 5 50000 1000000\n"),
    ("plan F, 11111 and a newline", f, b"11111\n", Whole, "decided 2 5 5 50000 1000000\n"),
    ("plan F, newlines between", f, b"\n1\n\n1\n1\n1\n1", Whole, "decided 2 5 5 50000 1000000\n"),
    ("plan F, 11111 in pieces", f, b"11111", Pieces, "decided 2 5 5 50000 1000000\n"),
    ("plan F, 11111, input held open", f, b"11111", Held, "decided 2 5 5 50000 1000000\n"),
    ("plan F, 1111", f, b"1111", Whole, "open 0 4 4 0 1000000\n"),
    ("plan F, 11111 and more", f, b"11111x\0\r", Whole, "decided 2 5 5 50000 1000000\n"),
    ("plan F, 172 zeros", f, &[b'0'; 172], Whole, "open 0 172 0 0 1000000\n"),
    ("plan F, 173 zeros", f, &[b'0'; 173], Whole, "decided 1 173 0 0 50000\n"),
    ("plan F, 200 zeros", f, &[b'0'; 200], Whole, "decided 1 173 0 0 50000\n"),
    ("plan F to 172, 172 zeros", f_to_172, &[b'0'; 172], Whole, "spent 0 172 0 0 1000000\n"),
    ("plan F to 172, input held open", f_to_172, &[b'0'; 172], Held, "spent 0 172 0 0 1000000\n"),
    ("plan F, no draws", f, b"", Whole, "open 0 0 0 0 1000000\n"),
    ("plan F, newlines only", f, b"\n\n\n", Whole, "open 0 0 0 0 1000000\n"),
    ("plan F, input closed", f, b"", Closed, "open 0 0 0 0 1000000\n"),
    ("plan F, input a folder", f, b"", Folder, "open 0 0 0 0 1000000\n"),
    ("plan F, input write-only", f, b"", WriteOnly, "open 0 0 0 0 1000000\n"),
    ("plan F, no draws, input reset", f, b"", Reset, "open 0 0 0 0 1000000\n"),
    ("plan F, 1111, input reset", f, b"1111", Reset, "open 0 4 4 0 1000000\n"),
    ("plan F, 11111, input reset", f, b"11111", Reset, "decided 2 5 5 50000 1000000\n"),
    ("plan F, draw 2, input reset", f, b"112", Reset, "refused 9\n"),
    ("plan F, draw 2", f, b"2", Whole, "refused 9\n"),
    ("plan F, draw 2, input held open", f, b"112", Held, "refused 9\n"),
    ("plan F, a carriage return", f, b"11\r\n111", Whole, "refused 9\n"),
    ("empty plan", || PlanFile::Stored(vec![]), b"11111", Whole, "refused 7\n"),
    ("missing plan", || PlanFile::Missing, b"11111", Whole, "refused 7\n"),
    ("missing plan, input held open", || PlanFile::Missing, b"", Held, "refused 7\n"),
    ("missing plan, input closed", || PlanFile::Missing, b"", Closed, "refused 7\n"),
    ("missing plan, draw 2", || PlanFile::Missing, b"2", Whole, "refused 7\n"),
    ("unreadable plan", || PlanFile::Folder, b"11111", Whole, "refused 7\n"),
    ("a plan of 264 bytes", || PlanFile::of(&largest_plan()), b"", Whole, "open 0 0 0 0 1000000\n"),
    ("the same with a byte more", || with_a_byte_more(&largest_plan()), b"", Whole, "refused 7\n"),
    ("thresholds 99 apart, a byte more", close_with_a_byte_more, b"", Whole, "refused 7\n"),
    ("allowance of one half (P9)", || PlanFile::of(&half_allowance_plan()), b"11111", Whole, "refused 3\n"),
    ("a gap between buckets (P10)", || PlanFile::of(&gap_plan()), b"11111", Whole, "refused 6\n"),
    ("10,000 above, 50,000 open (P7)", crossing, b"11", Whole, "open 0 2 2 10000 1000000\n"),
    ("10,000 at most, 50,000 open", crossing, &zeros_then::<97>(80, b"1"), Whole, "open 0 97 17 0 10000\n"),
    ("10,000 at most, 50,000 above (P8)", crossing, &zeros_then::<120>(80, b"1"), Whole, "crossed 0 98 18 50000 10000\n"),
    ("the narrower of two", || PlanFile::of(&narrower_plan()), b"111", Whole, "decided 3 3 3 10000 1000000\n"),
    ("one draw before", || PlanFile::of(&narrower_plan()), b"11", Whole, "open 0 2 2 0 1000000\n"),
    ("equally narrow", || PlanFile::of(&equally_narrow_plan()), &TURN_ABOUT, Whole, "decided 3 24 12 400000 600000\n"),
    ("wide at step 768", || PlanFile::of(&widening_plan(50_000)), &TURN_ABOUT, Whole, "wide 0 768 384 0 1000000\n"),
    ("wide before spent", || PlanFile::of(&widening_plan(768)), &TURN_ABOUT, Whole, "wide 0 768 384 0 1000000\n"),
    ("spent before wide", || PlanFile::of(&widening_plan(767)), &TURN_ABOUT, Whole, "spent 0 767 384 0 1000000\n"),
];

/// Plan F with other thresholds, one allowance for all.
pub fn with_thresholds(thresholds: &[u32], allowance: u64) -> Draft {
    let buckets = two_buckets(thresholds[0]);
    Draft { thresholds: thresholds.iter().map(|at| (*at, allowance)).collect(), buckets, ..plan_f() }
}

/// Thresholds about as close as the rules permit, their allowance, and what refuses plan F with them, 0 for nothing.
pub const CLOSE: [(&[u32], u64, u32); 22] = [
    (&[50_000, 50_099], 1, 14),
    (&[50_000, 50_100], 1, 0),
    (&[50_000, 50_101], 1, 0),
    (&[50_000, 49_000], 1, 2),
    (&[50_000, 49_950], 1, 2),
    (&[50_000, 50_000], 1, 2),
    (&[50_000, 50_099], 0, 14),
    (&[50_000, 50_100], 0, 3),
    (&[50_000, 49_950], 0, 2),
    (&[10_000, 10_050, 10_040], 1, 2),
    (&[10_000, 10_050, 1_000_000], 1, 2),
    (&[0, 50], 1, 2),
    (&[10_000, 10_100, 10_199], 1, 14),
    (&[10_000, 10_099, 10_199], 1, 14),
    (&[1], 1, 0),
    (&[999_999], 1, 0),
    (&[1, 999_999], 1, 0),
    (&[1, 100], 1, 14),
    (&[1, 101], 1, 0),
    (&[999_900, 999_999], 1, 14),
    (&[999_899, 999_999], 1, 0),
    (&[100, 200, 300, 400, 500, 600, 700, 800, 900, 999], 1, 14),
];

/// A plan, the marks of its thresholds, the interval, and its bucket's number, 0 where it is crossed; then the number
/// by the plan's order alone.
type Marked = (fn() -> Draft, &'static str, (u32, u32), u32, u32);

/// Above is +, at most -.
pub const MARKED: [Marked; 21] = [
    (nested_plan, "--", (0, 10_000), 2, 1),
    (nested_plan, "++", (50_000, 1_000_000), 4, 3),
    (nested_plan, "+-", (10_000, 50_000), 1, 1),
    (nested_plan, "-+", (50_000, 10_000), 0, 0),
    (even_plan, "----", (0, 10_000), 4, 1),
    (even_plan, "+---", (10_000, 20_000), 4, 1),
    (even_plan, "++--", (20_000, 30_000), 3, 1),
    (even_plan, "+.-.", (10_000, 30_000), 5, 1),
    (even_plan, ".+.-", (20_000, 40_000), 3, 1),
    (even_plan, "+++-", (30_000, 40_000), 3, 1),
    (even_plan, "++++", (40_000, 1_000_000), 2, 2),
    (star_plan, "---------", (0, 500), 1, 1),
    (star_plan, "+--------", (500, 1000), 1, 1),
    (star_plan, "++-------", (1000, 2000), 5, 2),
    (star_plan, "+++------", (2000, 8000), 2, 2),
    (star_plan, "++++-----", (8000, 10_000), 6, 2),
    (star_plan, "+++++----", (10_000, 12_000), 6, 3),
    (star_plan, "++++++---", (12_000, 45_000), 3, 3),
    (star_plan, "+++++++--", (45_000, 50_000), 7, 3),
    (star_plan, "++++++++-", (50_000, 55_000), 7, 4),
    (star_plan, "+++++++++", (55_000, 1_000_000), 4, 4),
];

/// A state with such marks, and the answer to it.
pub fn marked_state(marks: &str) -> State {
    let mut state = State { n: 10, ones: 1, ..State::default() };
    for (record, mark) in state.records.iter_mut().zip(marks.chars()) {
        *record = match mark {
            '+' => Record { mark: ABOVE, step: 1, ..Record::default() },
            '-' => Record { mark: AT_MOST, step: 1, ..Record::default() },
            _ => Record::default(),
        };
    }
    state
}

pub fn marked_report((low, high): (u32, u32), number: u32) -> Report {
    Report { answer: if number == 0 { CROSSED } else { DECIDED }, number, low, high }
}

fn close_example((thresholds, allowance, number): (&[u32], u64, u32)) -> Example {
    let plan = PlanFile::of(&with_thresholds(thresholds, allowance));
    Example {
        name: format!("thresholds {thresholds:?}, allowance {allowance}"),
        case: Case { kind: "example", plan, input: Vec::new(), feed: Whole },
        line: match number {
            0 => "open 0 0 0 0 1000000\n".into(),
            number => format!("refused {number}\n"),
        },
    }
}

pub fn all() -> Vec<Example> {
    let example = |(name, plan, input, feed, line): Row| Example {
        name: name.into(),
        case: Case { kind: "example", plan: plan(), input: input.to_vec(), feed },
        line: line.into(),
    };
    ROWS.into_iter().map(example).chain(CLOSE.into_iter().map(close_example)).collect()
}
