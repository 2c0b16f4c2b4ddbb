//! The sequential test over a plan, and the program's line.

use crate::boundary::{By, Literal, Quick, Slip, WIDE};
use crate::plan::{read, Bucket, Plan, MILLION};

#[derive(Clone, Copy, Debug, PartialEq)]
pub enum Mark {
    Open,
    Above(u64),
    AtMost(u64),
}

#[derive(Clone, Copy, Debug, PartialEq)]
pub enum Answer {
    Open,
    /// Place of the bucket, from 1.
    Decided(usize),
    Crossed,
    Wide,
    Spent,
}

impl Answer {
    pub fn ends(self) -> bool {
        self != Answer::Open
    }
}

pub struct Test<'a> {
    pub plan: &'a Plan,
    pub marks: Vec<Mark>,
    pub draws: u64,
    pub ones: u64,
    pub boundaries: Vec<Quick>,
    literal: Vec<Literal>,
    slip: Slip,
    /// Boundaries (upper, lower) to judge by, per threshold.
    judged_by: Vec<(i64, i64)>,
}

/// Steps for which each run is also walked by the literal definition.
const LITERAL_STEPS: i64 = 16;

impl<'a> Test<'a> {
    pub fn begin(plan: &'a Plan, slip: Slip) -> Test<'a> {
        let each = || plan.thresholds.iter();
        Test {
            plan,
            marks: each().map(|_| Mark::Open).collect(),
            draws: 0,
            ones: 0,
            boundaries: each().map(|t| Quick::begin(t.at, t.allowance, By::from(plan), slip)).collect(),
            literal: each().map(|t| Literal::begin(t.at, t.allowance, By::from(plan))).collect(),
            slip,
            judged_by: vec![(1, -1); plan.thresholds.len()],
        }
    }

    /// Takes each open threshold's boundaries to the next step; the draw itself comes after.
    pub fn advance(&mut self) {
        for i in 0..self.marks.len() {
            if self.marks[i] != Mark::Open {
                continue;
            }
            let before = (self.boundaries[i].upper, self.boundaries[i].lower);
            self.boundaries[i].advance();
            if self.slip == Slip::None && self.boundaries[i].step <= LITERAL_STEPS {
                self.literal[i].advance();
                assert!(self.boundaries[i].agrees(&self.literal[i]), "quick and literal boundaries differ");
            }
            self.judged_by[i] = match self.slip {
                Slip::StaleBoundary => before,
                _ => (self.boundaries[i].upper, self.boundaries[i].lower),
            };
        }
    }

    /// The marks after a draw, with the boundaries advanced.
    fn marks_after(&self, draw: bool) -> Vec<Mark> {
        let step = self.draws + 1;
        let ones = (self.ones + draw as u64) as i64;
        let mut marks = self.marks.clone();
        for (mark, (upper, lower)) in marks.iter_mut().zip(&self.judged_by) {
            if *mark == Mark::Open {
                if ones >= *upper {
                    *mark = Mark::Above(step);
                } else if ones <= *lower {
                    *mark = Mark::AtMost(step);
                }
            }
        }
        marks
    }

    /// What the answer would be after a draw, with the boundaries advanced.
    pub fn would(&self, draw: bool) -> Answer {
        self.judge(&self.marks_after(draw), self.draws + 1)
    }

    pub fn settle(&mut self, draw: bool) {
        self.marks = self.marks_after(draw);
        self.draws += 1;
        self.ones += draw as u64;
    }

    fn interval_of(&self, marks: &[Mark]) -> (u128, u128) {
        let marked = || self.plan.thresholds.iter().zip(marks);
        let low = marked().filter(|(_, m)| matches!(m, Mark::Above(_))).map(|(t, _)| t.at).max();
        let high = marked().filter(|(_, m)| matches!(m, Mark::AtMost(_))).map(|(t, _)| t.at).min();
        (low.unwrap_or(0), high.unwrap_or(MILLION))
    }

    pub fn interval(&self) -> (u128, u128) {
        self.interval_of(&self.marks)
    }

    /// Does a bucket among those that contain the interval keep the rule: none of them is narrower, and none that
    /// comes earlier is as narrow?
    fn chosen(&self, (place, bucket): &(usize, &Bucket), containing: &[(usize, &Bucket)]) -> bool {
        containing.iter().all(|(other, b)| match self.slip {
            Slip::FirstInOrder => place <= other,
            Slip::Widest => bucket.width() >= b.width(),
            Slip::LastOfNarrowest => bucket.width() < b.width() || bucket.width() == b.width() && place >= other,
            _ => bucket.width() <= b.width() && (place <= other || bucket.width() != b.width()),
        })
    }

    /// The place of the bucket, from 0.
    fn bucket(&self, low: u128, high: u128) -> Option<usize> {
        let every = self.plan.buckets.iter().enumerate();
        let containing: Vec<(usize, &Bucket)> = every.filter(|(_, b)| b.contains(low, high)).collect();
        containing.iter().find(|one| self.chosen(one, &containing)).map(|(place, _)| *place)
    }

    fn judge(&self, marks: &[Mark], draws: u64) -> Answer {
        let (low, high) = self.interval_of(marks);
        if low > high && self.slip != Slip::CrossedDecided {
            return Answer::Crossed;
        }
        if let Some(place) = self.bucket(low, high) {
            return Answer::Decided(place + 1);
        }
        let wide = |b: &Quick| b.upper - b.lower - 1 == WIDE;
        if self.boundaries.iter().zip(marks).any(|(b, m)| *m == Mark::Open && wide(b)) {
            return Answer::Wide;
        }
        if draws as u128 == self.plan.horizon {
            return Answer::Spent;
        }
        Answer::Open
    }

    pub fn answer(&self) -> Answer {
        self.judge(&self.marks, self.draws)
    }

    /// One draw of any value, with its refusals.
    pub fn take(&mut self, value: u64) -> Result<Answer, u8> {
        if value > 1 {
            return Err(9);
        }
        if self.answer().ends() {
            return Err(10);
        }
        self.advance();
        self.settle(value == 1);
        Ok(self.answer())
    }

    pub fn line(&self) -> String {
        let (word, bucket) = match self.answer() {
            Answer::Open => ("open", 0),
            Answer::Decided(place) => ("decided", place),
            Answer::Crossed => ("crossed", 0),
            Answer::Wide => ("wide", 0),
            Answer::Spent => ("spent", 0),
        };
        let (low, high) = self.interval();
        format!("{word} {bucket} {} {} {low} {high}\n", self.draws, self.ones)
    }
}

fn run(stored: Option<&[u8]>, input: &[u8], slip: Slip) -> Result<String, u8> {
    let plan = read(stored.unwrap_or(&[]))?;
    let mut test = Test::begin(&plan, slip);
    for byte in input.iter().filter(|byte| **byte != b'\n') {
        if test.answer().ends() {
            break;
        }
        match byte {
            b'0' => test.take(0)?,
            b'1' => test.take(1)?,
            _ => return Err(9),
        };
    }
    Ok(test.line())
}

/// The program's line for a stored plan (or none) and its input.
pub fn program(stored: Option<&[u8]>, input: &[u8]) -> String {
    program_with(stored, input, Slip::None)
}

/// The line with one mistake made.
pub fn program_with(stored: Option<&[u8]>, input: &[u8], slip: Slip) -> String {
    run(stored, input, slip).unwrap_or_else(|refusal| format!("refused {refusal}\n"))
}
