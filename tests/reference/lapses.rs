//! Mistakes in judging thresholds too close (14), which the comparisons must notice.

use crate::plan::{parsed, thresholds_in, LEAST_APART, MILLION};

#[derive(Clone, Copy, Debug, PartialEq, Eq, PartialOrd, Ord)]
pub enum Lapse {
    None,
    Unjudged,
    /// Another least difference.
    Least(u32),
    FirstPairOnly,
    /// One pair not judged, by its place from 1.
    PassedOver(usize),
    /// 0, 1,000,000 or the place past the last threshold judged as a neighbour.
    FromZero,
    ToMillion,
    PastCount,
    BeforeSeven,
    BeforeTwo,
    /// Together with 2, threshold by threshold.
    WithTwo,
    /// Judged after this rule, which comes later.
    After(u8),
    /// Judged after what refuses the call and not the plan.
    AfterCall,
}

/// Those to be noticed wherever a plan is judged.
pub fn lapses() -> Vec<Lapse> {
    let mut out = vec![Lapse::Unjudged, Lapse::Least(99), Lapse::Least(101), Lapse::FirstPairOnly];
    out.extend([Lapse::FromZero, Lapse::ToMillion, Lapse::BeforeTwo, Lapse::WithTwo]);
    out.extend((3..=6).map(Lapse::After));
    out.extend((1..=9).map(Lapse::PassedOver));
    out
}

/// What the mistakes need of a stored plan.
pub struct Judged {
    /// Its refusal before any threshold is looked at, 0 if none.
    unread: u32,
    thresholds: Vec<u128>,
    /// The other rules that it breaks.
    broken: Vec<u8>,
    /// The threshold past the last, where there is a place for it.
    past: Option<u128>,
    /// What refuses the call where the plan does not.
    own: u32,
}

/// The thresholds, where the bytes have them all.
fn held(stored: &[u8]) -> Vec<u128> {
    let count = stored.first().map_or(0, |low| *low as usize);
    match stored.len() >= 16 + 12 * count {
        true => thresholds_in(stored, count).iter().map(|t| t.at).collect(),
        false => Vec::new(),
    }
}

/// How many thresholds come before the first that breaks rule 2.
fn keeping_two(thresholds: &[u128]) -> usize {
    let mut before = 0;
    let breaks = |at: &u128| {
        let bad = *at <= before || *at >= MILLION;
        before = *at;
        bad
    };
    thresholds.iter().position(breaks).unwrap_or(thresholds.len())
}

impl Judged {
    /// A stored plan alone.
    pub fn of(stored: &[u8]) -> Judged {
        Judged::of_call(stored, None, 0)
    }

    pub fn of_call(stored: &[u8], past: Option<u32>, own: u32) -> Judged {
        let plan = parsed(stored);
        let unread = plan.as_ref().err().copied().unwrap_or(0) as u32;
        let broken = plan.map_or(vec![], |plan| (2..=6).filter(|rule| plan.breaks(*rule)).collect());
        Judged { unread, thresholds: held(stored), broken, past: past.map(u128::from), own }
    }

    /// Do neighbours rise by too little? Those that do not rise are for rule 2.
    fn close(&self, lapse: Lapse) -> bool {
        let mut thresholds = self.thresholds.clone();
        let mut least = LEAST_APART;
        match lapse {
            Lapse::Unjudged => return false,
            Lapse::Least(other) => least = other,
            Lapse::FirstPairOnly => thresholds.truncate(2),
            Lapse::FromZero => thresholds.insert(0, 0),
            Lapse::ToMillion => thresholds.push(MILLION),
            Lapse::PastCount => thresholds.extend(self.past),
            Lapse::WithTwo => thresholds.truncate(keeping_two(&thresholds)),
            Lapse::After(rule) if self.broken.contains(&rule) => return false,
            Lapse::AfterCall if self.own > 0 => return false,
            _ => {}
        }
        let near = |pair: &[u128]| pair[0] < pair[1] && pair[1] < pair[0] + least as u128;
        let mut pairs = thresholds.windows(2).enumerate();
        pairs.any(|(place, pair)| near(pair) && lapse != Lapse::PassedOver(place + 1))
    }

    /// The refusal of the call with the mistake made, 0 if none.
    pub fn refusal(&self, lapse: Lapse) -> u32 {
        let close = self.close(lapse);
        if self.unread > 0 {
            let early = lapse == Lapse::BeforeSeven && self.unread == 7 && close;
            return if early { 14 } else { self.unread };
        }
        let order = match lapse {
            Lapse::BeforeTwo | Lapse::WithTwo => [14, 2, 3, 4, 5, 6],
            _ => [2, 14, 3, 4, 5, 6],
        };
        let broken = |rule: &u8| if *rule == 14 { close } else { self.broken.contains(rule) };
        order.into_iter().find(broken).map_or(self.own, u32::from)
    }
}
