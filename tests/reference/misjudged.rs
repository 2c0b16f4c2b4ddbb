//! Mistakes in judging points (16) and in writing a plan that has some (17), which the comparisons must notice.

use crate::host::Plan;
use crate::plan::MOST_POINTS;

#[derive(Clone, Copy, Debug, PartialEq, Eq, PartialOrd, Ord)]
pub enum Misjudged {
    None,
    Unjudged,
    /// Accepted: of more than eight points the first eight, at any number or at nine alone.
    AnyNumber,
    NinthPoint,
    StepZero,
    StepPastLast,
    AnyStep,
    EqualSteps,
    FallingSteps,
    ShareOver,
    AnyShare,
    FallingShares,
    /// One pair not judged, by its place from 1.
    PassedOver(usize),
    LastPointUnjudged,
    /// Refused.
    EighthPoint,
    LastStep,
    EqualShares,
    NoShare,
    WholeShare,
    PastCount,
    /// Judged before this rule, which comes earlier, or after this one, which comes later.
    Before(u8),
    After(u8),
    /// Judged after what refuses the call and not the plan.
    AfterCall,
    /// The delay is not judged where there are points.
    DelayUnjudged,
    /// 17 in another place, or by what stands in the places; with none, points are dropped.
    SeventeenFirst,
    SeventeenBefore5,
    SeventeenAfter12,
    SeventeenNever,
    SeventeenByPlaces,
}

/// Those to be noticed wherever a plan is judged.
pub fn misjudged() -> Vec<Misjudged> {
    use Misjudged::*;
    let mut out = vec![Unjudged, AnyNumber, NinthPoint, StepZero, StepPastLast, AnyStep, EqualSteps, FallingSteps];
    out.extend([ShareOver, AnyShare, FallingShares, LastPointUnjudged]);
    out.extend((1..MOST_POINTS).map(PassedOver));
    out.extend([EighthPoint, LastStep, EqualShares, NoShare, WholeShare, PastCount, DelayUnjudged]);
    out.extend([1, 2, 14, 3, 4].map(Before));
    out.extend([5, 6].map(After));
    out
}

/// And where one is written.
pub const SEVENTEEN: [Misjudged; 5] = [
    Misjudged::SeventeenFirst,
    Misjudged::SeventeenBefore5,
    Misjudged::SeventeenAfter12,
    Misjudged::SeventeenNever,
    Misjudged::SeventeenByPlaces,
];

/// What the mistakes need of a call.
pub struct Judged<'a> {
    pub plan: &'a Plan,
    /// The rules that it breaks, but for 16.
    pub broken: Vec<u8>,
    /// What refuses the call where neither the plan nor 17 does.
    pub own: u32,
    pub writes: bool,
}

fn step_bad(step: u32, last: u32, mistake: Misjudged) -> bool {
    match mistake {
        Misjudged::StepZero => step > last,
        Misjudged::StepPastLast => step == 0 || step > last.saturating_add(1),
        Misjudged::AnyStep => false,
        Misjudged::LastStep => step == 0 || step >= last,
        _ => step == 0 || step > last,
    }
}

fn share_bad(share: u32, mistake: Misjudged) -> bool {
    match mistake {
        Misjudged::ShareOver => share > 1_000_001,
        Misjudged::AnyShare => false,
        Misjudged::NoShare => share == 0 || share > 1_000_000,
        Misjudged::WholeShare => share >= 1_000_000,
        _ => share > 1_000_000,
    }
}

fn pair_bad(pair: &[(u32, u32)], mistake: Misjudged) -> bool {
    let [(step, share), (next_step, next_share)] = [pair[0], pair[1]];
    let steps = match mistake {
        Misjudged::EqualSteps => next_step < step,
        Misjudged::FallingSteps => next_step == step,
        _ => next_step <= step,
    };
    let shares = match mistake {
        Misjudged::FallingShares => false,
        Misjudged::EqualShares => next_share <= share,
        _ => next_share < share,
    };
    steps || shares
}

impl Judged<'_> {
    fn number_bad(&self, mistake: Misjudged) -> bool {
        let most = match mistake {
            Misjudged::AnyNumber => u32::MAX,
            Misjudged::NinthPoint => 9,
            Misjudged::EighthPoint => 7,
            _ => 8,
        };
        self.plan.points > most
    }

    fn read(&self, mistake: Misjudged) -> usize {
        match mistake {
            Misjudged::PastCount => MOST_POINTS,
            Misjudged::LastPointUnjudged => self.plan.placed().saturating_sub(1),
            _ => self.plan.placed(),
        }
    }

    fn sixteen(&self, mistake: Misjudged) -> bool {
        let p = self.plan;
        let points: Vec<(u32, u32)> = p.steps.into_iter().zip(p.shares).take(self.read(mistake)).collect();
        let out = |(step, share): &(u32, u32)| step_bad(*step, p.horizon, mistake) || share_bad(*share, mistake);
        let passed = |place: usize| mistake == Misjudged::PassedOver(place + 1);
        let mut pairs = points.windows(2).enumerate();
        mistake != Misjudged::Unjudged
            && (self.number_bad(mistake)
                || points.iter().any(out)
                || pairs.any(|(place, pair)| !passed(place) && pair_bad(pair, mistake)))
    }

    fn order(&self, mistake: Misjudged) -> Vec<u8> {
        let mut out = vec![1, 2, 14, 3, 4, 5, 6];
        let place = |rule: u8| out.iter().position(|other| *other == rule).expect("a rule");
        let at = match mistake {
            Misjudged::Before(rule) => place(rule),
            Misjudged::After(rule) => place(rule) + 1,
            _ => place(4) + 1,
        };
        out.insert(at, 16);
        out
    }

    fn breaks(&self, rule: u8, mistake: Misjudged) -> bool {
        let p = self.plan;
        match rule {
            16 if mistake == Misjudged::AfterCall && (self.own > 0 || self.seventeen(mistake)) => false,
            16 => self.sixteen(mistake),
            4 if mistake == Misjudged::DelayUnjudged && p.points > 0 => p.horizon < 1 || p.horizon > 50_000,
            rule => self.broken.contains(&rule),
        }
    }

    /// Does 17 refuse the writing, but for its place?
    fn seventeen(&self, mistake: Misjudged) -> bool {
        let points = match mistake {
            Misjudged::SeventeenNever => false,
            Misjudged::SeventeenByPlaces => self.plan.steps.iter().chain(&self.plan.shares).any(|number| *number > 0),
            _ => self.plan.points > 0,
        };
        self.writes && points
    }

    /// The refusal of the call with the mistake made, 0 if none.
    pub fn refusal(&self, mistake: Misjudged) -> u32 {
        let seventeen = self.seventeen(mistake);
        let first = self.order(mistake).into_iter().find(|rule| self.breaks(*rule, mistake));
        match (mistake, first) {
            (Misjudged::SeventeenFirst, _) if seventeen => 17,
            (Misjudged::SeventeenBefore5, Some(5 | 6)) if seventeen => 17,
            (_, Some(rule)) => rule.into(),
            (Misjudged::SeventeenAfter12, None) if self.own > 0 => self.own,
            (_, None) if seventeen => 17,
            (_, None) => self.own,
        }
    }
}
