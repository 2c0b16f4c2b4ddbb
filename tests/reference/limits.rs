//! What the rules settle of one call on a run, for any record and draw: refusals by one table, searched in order.

use crate::host::{Run, RUN_ENDED, RUN_OPEN, RUN_REFUSED};

/// What a draw is handed, as wide signed numbers, so that no limit wraps.
pub struct Call {
    stop: i64,
    size: i64,
    taken: i64,
    ones: i64,
    draw: i64,
}

type Slack = fn(&Call) -> i64;

/// A refusal's number, one of its limits, and how far inside it a call is: 0 at the limit, below 0 broken.
pub const LIMITS: [(u32, &str, Slack); 9] = [
    (13, "h under 1", |c| c.stop - 1),
    (13, "h not below n", |c| c.size - 1 - c.stop),
    (13, "n over 50,000", |c| 50_000 - c.size),
    (9, "d over 1", |c| 1 - c.draw),
    (10, "g is h", |c| (c.ones - c.stop).abs() - 1),
    (10, "l is n - 1", |c| (c.taken - (c.size - 1)).abs() - 1),
    (11, "l not below n", |c| c.size - 1 - c.taken),
    (11, "g over h", |c| c.stop - c.ones),
    (11, "g over l", |c| c.taken - c.ones),
];

/// The limits of a beginning.
pub const RANGES: usize = 3;
/// At their limit the run has ended: refusal 10.
pub const NEVER_TAKEN: [usize; 2] = [6, 7];

const ORDER: [u32; 4] = [13, 9, 10, 11];

/// Mistakes in judging a call.
#[derive(Clone, Copy, Debug, PartialEq)]
pub enum Fault {
    None,
    /// A limit moved: -1 lets one more pass, 1 one less.
    Limit(usize, i64),
    Unjudged(usize),
    /// Two numbers in each other's place in the order.
    Exchanged(u32, u32),
    /// 10 for g >= h, and for l >= n - 1.
    EndedPastStop,
    EndedPastSize,
    RefusalCounts,
    RefusalClears,
    RefusedBeginKeeps,
    /// The run's end looked for after n draws.
    OneDrawMore,
    /// n - 1 for n, l - 1 for l, g for g + 1.
    SizeLessOne,
    DrawBefore,
    RealLeftOut,
    /// The h-th one at draw n - 1 answered by (g + 1)/n.
    LastOneBySize,
    Reduced,
}

/// Those that change the values of answers and nothing else.
pub const OF_VALUES: [Fault; 4] = [Fault::SizeLessOne, Fault::DrawBefore, Fault::RealLeftOut, Fault::LastOneBySize];

/// Those that the draws must notice.
pub fn mistakes() -> Vec<Fault> {
    let moved = |place| [Fault::Limit(place, -1), Fault::Limit(place, 1), Fault::Unjudged(place)];
    let unseen = |f: &Fault| matches!(f, Fault::Limit(place, 1) if NEVER_TAKEN.contains(place));
    let mut out: Vec<Fault> = (0..LIMITS.len()).flat_map(moved).filter(|f| !unseen(f)).collect();
    let pairs = [(13, 9), (13, 10), (13, 11), (9, 10), (9, 11), (10, 11)];
    out.extend(pairs.map(|(a, b)| Fault::Exchanged(a, b)));
    out.extend([Fault::EndedPastStop, Fault::EndedPastSize, Fault::RefusalCounts, Fault::RefusalClears]);
    out.extend([Fault::OneDrawMore, Fault::Reduced]);
    out.extend(OF_VALUES);
    out
}

/// Those that the beginnings must notice.
pub fn mistakes_of_begin() -> Vec<Fault> {
    let of_range = |f: &Fault| matches!(f, Fault::Limit(place, _) | Fault::Unjudged(place) if *place < RANGES);
    let mut out: Vec<Fault> = mistakes().into_iter().filter(of_range).collect();
    out.push(Fault::RefusedBeginKeeps);
    out
}

pub fn name(fault: Fault) -> String {
    match fault {
        Fault::Limit(place, by) => format!("'{}' by {by}", LIMITS[place].1),
        Fault::Unjudged(place) => format!("'{}' not judged", LIMITS[place].1),
        other => format!("{other:?}"),
    }
}

impl Call {
    pub fn of(r: &Run, d: u8) -> Call {
        let [stop, size, taken, ones] = [r.stop, r.size, r.taken, r.ones].map(i64::from);
        Call { stop, size, taken, ones, draw: d.into() }
    }

    /// The record handed in, with an answer.
    fn record(&self, answer: u32, first: i64, second: i64) -> Run {
        let [first, second, stop, size] = [first, second, self.stop, self.size].map(|x| x as u32);
        Run { answer, first, second, stop, size, taken: self.taken as u32, ones: self.ones as u32 }
    }

    pub fn slacks(&self) -> [i64; 9] {
        LIMITS.map(|(_, _, slack)| slack(self))
    }

    fn breaks(&self, place: usize, fault: Fault) -> bool {
        match (fault, place) {
            (Fault::Unjudged(left_out), _) if left_out == place => false,
            (Fault::Limit(moved, by), _) if moved == place => LIMITS[place].2(self) < by,
            (Fault::EndedPastStop, 4) => self.ones >= self.stop,
            (Fault::EndedPastSize, 5) => self.taken >= self.size - 1,
            _ => LIMITS[place].2(self) < 0,
        }
    }

    fn refusal(&self, fault: Fault) -> Option<u32> {
        let order = ORDER.map(|number| match fault {
            Fault::Exchanged(a, b) if number == a => b,
            Fault::Exchanged(a, b) if number == b => a,
            _ => number,
        });
        let broken = |number: &u32| (0..LIMITS.len()).any(|i| LIMITS[i].0 == *number && self.breaks(i, fault));
        order.into_iter().find(broken)
    }
}

fn common(a: i64, b: i64) -> i64 {
    match b {
        0 => a,
        b => common(b, a % b),
    }
}

/// The record after the draw, by the first ending that fits.
fn ended(after: &Call, fault: Fault) -> Run {
    let on = |f: Fault| (fault == f) as i64;
    let last = after.taken == after.size - 1 + on(Fault::OneDrawMore);
    let by_stop = after.ones == after.stop && !(last && fault == Fault::LastOneBySize);
    let endings = [
        (by_stop, after.stop, after.taken - on(Fault::DrawBefore)),
        (last, after.ones + 1 - on(Fault::RealLeftOut), after.size - on(Fault::SizeLessOne)),
    ];
    match endings.into_iter().find(|ending| ending.0) {
        Some((_, first, second)) if fault == Fault::Reduced => {
            let by = common(first, second);
            after.record(RUN_ENDED, first / by, second / by)
        }
        Some((_, first, second)) => after.record(RUN_ENDED, first, second),
        None => after.record(RUN_OPEN, 0, 0),
    }
}

/// What a draw hands back.
pub fn draw(r: &Run, d: u8, fault: Fault) -> Run {
    let call = Call::of(r, d);
    match (call.refusal(fault), fault) {
        (None, _) => ended(&Call { taken: call.taken + 1, ones: call.ones + call.draw, ..call }, fault),
        (Some(number), Fault::RefusalClears) => Run { answer: RUN_REFUSED, first: number, ..Run::default() },
        (Some(number), Fault::RefusalCounts) => {
            Call { taken: call.taken + 1, ..call }.record(RUN_REFUSED, number.into(), 0)
        }
        (Some(number), _) => call.record(RUN_REFUSED, number.into(), 0),
    }
}

/// What a beginning hands back: the ranges are all that it judges.
pub fn begin(h: u32, n: u32, fault: Fault) -> Run {
    let record = Run { answer: RUN_OPEN, stop: h, size: n, ..Run::default() };
    let call = Call::of(&record, 0);
    match (0..RANGES).any(|place| call.breaks(place, fault)) {
        true if fault == Fault::RefusedBeginKeeps => Run { answer: RUN_REFUSED, first: 13, ..record },
        true => Run { answer: RUN_REFUSED, first: 13, ..Run::default() },
        false => record,
    }
}
