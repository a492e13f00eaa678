//! Who takes turns with whom while times are taken.
//!
//! What is to be compared stands in one race: its calls are sampled one after the
//! other, again and again, so that a slow moment meets them all.

use crate::steps::Step;
use format::Kind;

/// A call in a race.
#[derive(Clone, Copy, Debug, PartialEq, Eq)]
pub struct Runner {
    /// The number of the call among all.
    pub call: usize,
    /// The step under which its time is noted; none where it is only taken off
    /// that of another.
    pub noted: Option<Step>,
    /// The number in this race of the call whose time is taken off.
    pub less: Option<usize>,
}

/// The races of all calls, each told by its subject and its step: one for each
/// step, and one for each kind of question after the check.
pub fn races(calls: &[(usize, Step)]) -> Vec<Vec<Runner>> {
    let mut steps: Vec<Step> = calls.iter().map(|&(_, step)| step).collect();
    steps.sort_unstable();
    steps.dedup();
    steps.retain(|&step| has_own_race(step));
    let whole = steps.into_iter().map(|step| race_of(calls, step));
    let held = Kind::ALL.map(|kind| held_race(calls, kind));
    let all = whole.chain(held);
    all.filter(|race| !race.is_empty()).collect()
}

/// Whether the calls of this step are compared as they are.
fn has_own_race(step: Step) -> bool {
    !matches!(
        step,
        Step::Nothing | Step::BatchOf(_) | Step::HeldRead | Step::HeldAsk(_)
    )
}

/// All calls of a step.
fn race_of(calls: &[(usize, Step)], step: Step) -> Vec<Runner> {
    let numbered = calls.iter().enumerate();
    let own = numbered.filter(|(_, call)| call.1 == step);
    own.map(|(call, _)| alone(call, step)).collect()
}

/// A question of this kind after the check: of who checks a batch of that kind,
/// less its own check; of the second program the question to names at hand; of the
/// others the question.
fn held_race(calls: &[(usize, Step)], kind: Kind) -> Vec<Runner> {
    let mut subjects: Vec<usize> = calls.iter().map(|&(subject, _)| subject).collect();
    subjects.sort_unstable();
    subjects.dedup();
    let mut race = Vec::new();
    for subject in subjects {
        let find = |step| calls.iter().position(|&call| call == (subject, step));
        let batch = find(Step::Check).zip(find(Step::BatchOf(kind)));
        let held = find(Step::HeldAsk(kind));
        if let Some((check, batch)) = batch {
            let less = Some(race.len());
            race.push(Runner {
                call: check,
                noted: None,
                less: None,
            });
            race.push(Runner {
                call: batch,
                noted: Some(Step::BatchOf(kind)),
                less,
            });
        } else if let Some(call) = held.or_else(|| find(Step::Ask(kind))) {
            race.push(alone(call, Step::HeldAsk(kind)));
        }
    }
    race
}

/// A call that is noted as this step.
fn alone(call: usize, step: Step) -> Runner {
    Runner {
        call,
        noted: Some(step),
        less: None,
    }
}
