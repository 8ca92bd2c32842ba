//! The premises of request 2026-05, each from its words alone: nothing here knows how a pair was made.

use second::roster::admit;
use second::run::Command;

use crate::rosters::{Plan, ENTER, LEAVE, RELEASE, SET};

/// A level, and what two runs are given.
#[derive(Clone, Debug)]
pub struct Pair {
    pub level: u8,
    pub rosters: [Plan; 2],
    pub events: [Vec<Command>; 2],
}

/// What can be wrong with a pair, in the order of the request.
#[derive(Clone, Copy, Debug, PartialEq, Eq)]
pub enum Premise {
    /// "two rosters that pass"
    Refused,
    /// "agree, number for number, on every task above P": only one roster lists the task
    TaskOfOne,
    /// the same: its base differs
    OtherBase,
    /// the same: its script differs
    OtherScript,
    /// "and every object with a ceiling above P"
    OtherCeiling,
    /// "every other task has them all at P or lower"
    Mixed,
    /// "releases no task above P"
    ReleasesAbove,
    /// "uses no object with a ceiling above P"
    UsesAbove,
    /// "Give both the same events"
    OtherEvents,
    /// "with no Set from outside"
    OutsideSet,
}

use Premise::*;

pub const PREMISES: [Premise; 10] = [
    Refused,
    TaskOfOne,
    OtherBase,
    OtherScript,
    OtherCeiling,
    Mixed,
    ReleasesAbove,
    UsesAbove,
    OtherEvents,
    OutsideSet,
];

/// Every premise that a pair does not meet; none where the request promises something.
pub fn broken(pair: &Pair) -> Vec<Premise> {
    let unmet = |premise: &Premise| is_broken(pair, *premise);
    PREMISES.into_iter().filter(unmet).collect()
}

fn is_broken(pair: &Pair, premise: Premise) -> bool {
    let Pair {
        level,
        rosters: [a, b],
        events,
    } = pair;
    match premise {
        Refused => [a, b].iter().any(|plan| admit(&plan.bytes()).is_err()),
        TaskOfOne => above_in_either(pair).any(|t| !in_both(pair, t)),
        OtherBase => differs_above(pair, |a, t, b| a.bases[t] != b.bases[t]),
        OtherScript => differs_above(pair, |a, t, b| a.scripts[t] != b.scripts[t]),
        OtherCeiling => (0..a.ceilings.len().max(b.ceilings.len())).any(|o| {
            let ceilings = [a, b].map(|plan| plan.ceilings.get(o));
            ceilings[0] != ceilings[1] && ceilings.iter().any(|c| *c > Some(level))
        }),
        Mixed => some_other_task(pair, |plan, t| {
            values(plan, t).any(|value| value > (*level).into())
        }),
        ReleasesAbove => some_other_task(pair, |plan, t| {
            named(plan, t, &[RELEASE]).any(|released| is_above(plan, released, *level))
        }),
        UsesAbove => some_other_task(pair, |plan, t| {
            named(plan, t, &[ENTER, LEAVE]).any(|o| plan.ceilings[o] > *level)
        }),
        OtherEvents => events[0] != events[1],
        OutsideSet => {
            let mut all = events.iter().flatten();
            all.any(|command| matches!(command, Command::Set(..)))
        }
    }
}

/// The base and the own Set values of a task.
fn values(plan: &Plan, t: usize) -> impl Iterator<Item = u16> + '_ {
    let own = plan.scripts[t].iter();
    let own = own.filter(move |s| s.code == SET && s.a as usize == t);
    std::iter::once(plan.bases[t].into()).chain(own.map(|s| s.b))
}

/// "Above P means the base and all own Set values are higher."
fn is_above(plan: &Plan, t: usize, level: u8) -> bool {
    values(plan, t).all(|value| value > level.into())
}

/// The tasks of a roster that are above a level.
pub fn above(plan: &Plan, level: u8) -> Vec<usize> {
    let tasks = 0..plan.bases.len();
    tasks.filter(|t| is_above(plan, *t, level)).collect()
}

fn above_in_either(pair: &Pair) -> impl Iterator<Item = usize> + '_ {
    let rosters = pair.rosters.iter();
    rosters.flat_map(|plan| above(plan, pair.level))
}

fn in_both(pair: &Pair, t: usize) -> bool {
    pair.rosters.iter().all(|plan| t < plan.bases.len())
}

/// Whether a task that both rosters list, and that is above in one of them, differs in this.
fn differs_above(pair: &Pair, by: fn(&Plan, usize, &Plan) -> bool) -> bool {
    let [a, b] = &pair.rosters;
    let mut shared = above_in_either(pair).filter(|t| in_both(pair, *t));
    shared.any(|t| by(a, t, b))
}

/// Whether this is so of some task that is not above, in either roster.
fn some_other_task(pair: &Pair, so: impl Fn(&Plan, usize) -> bool) -> bool {
    pair.rosters.iter().any(|plan| {
        let mut others = (0..plan.bases.len()).filter(|t| !is_above(plan, *t, pair.level));
        others.any(|t| so(plan, t))
    })
}

/// What the steps of these codes name in a task's script.
fn named<'a>(plan: &'a Plan, t: usize, codes: &'a [u8]) -> impl Iterator<Item = usize> + 'a {
    let steps = plan.scripts[t].iter();
    let steps = steps.filter(|s| codes.contains(&s.code));
    steps.map(|s| s.a as usize)
}
