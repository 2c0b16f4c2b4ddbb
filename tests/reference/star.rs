//! The nine thresholds and seven buckets of the published table: marks, and when a test of them has ended.

use crate::draft::{STAR_BUCKETS, STAR_THRESHOLDS};

/// -1 at most, 0 open, 1 above, for each of the nine thresholds.
pub type Marks = [i8; 9];

/// Upper and lower boundary of each of them at one step.
pub type Boundaries = [(i64, i64); 9];

pub fn mark(marks: &Marks, count: i64, boundaries: &Boundaries) -> Marks {
    let mut out = *marks;
    for (mark, (upper, lower)) in out.iter_mut().zip(boundaries) {
        if *mark == 0 {
            *mark = if count >= *upper { 1 } else if count <= *lower { -1 } else { 0 };
        }
    }
    out
}

/// Crossed or decided; wide and spent are lifted.
pub fn ended(marks: &Marks) -> bool {
    let with = |sign: i8| marks.iter().zip(STAR_THRESHOLDS).filter(move |(m, _)| **m == sign).map(|(_, t)| t);
    let low = with(1).max().unwrap_or(0);
    let high = with(-1).min().unwrap_or(1_000_000);
    low > high || STAR_BUCKETS.iter().any(|(left, right)| *left <= low && high <= *right)
}

/// Counts strictly between these meet no boundary of an open threshold.
pub fn nearest(marks: &Marks, boundaries: &Boundaries) -> (i64, i64) {
    let each_open = || boundaries.iter().zip(marks).filter(|(_, m)| **m == 0).map(|(b, _)| *b);
    let upper = each_open().map(|b| b.0).min().unwrap_or(i64::MAX);
    let lower = each_open().map(|b| b.1).max().unwrap_or(-1);
    (upper, lower)
}
