//! What is compared takes turns.

use compare::steps::{Step, LIBRARY, MODEL, REFERENCE, SORTED};
use compare::turns::{races, Runner};
use format::Kind;

/// Some calls, each with its subject and its step.
fn calls() -> Vec<(usize, Step)> {
    let mut calls = vec![(LIBRARY, Step::Nothing), (MODEL, Step::HeldRead)];
    for subject in [LIBRARY, REFERENCE] {
        calls.push((subject, Step::Check));
        for kind in Kind::ALL {
            calls.push((subject, Step::Ask(kind)));
            calls.push((subject, Step::BatchOf(kind)));
        }
    }
    calls.push((MODEL, Step::Ask(Kind::Exact)));
    calls.push((MODEL, Step::HeldAsk(Kind::Exact)));
    calls.push((SORTED, Step::Ask(Kind::Exact)));
    calls
}

/// The race in which this step of the library is noted: of each runner the
/// subject, its own step, the step that it is noted as, and the step that is taken
/// off.
fn race_with(noted: Step) -> Vec<(usize, Step, Option<Step>, Option<Step>)> {
    let calls = calls();
    let is_it = |runner: &Runner| calls[runner.call].0 == LIBRARY && runner.noted == Some(noted);
    let mut races = races(&calls).into_iter();
    let race = races.find(|race| race.iter().any(is_it)).unwrap();
    let told = race.iter().map(|runner| {
        let (subject, step) = calls[runner.call];
        let less = runner.less.map(|other| calls[race[other].call]);
        assert!(less.is_none_or(|(other, _)| other == subject));
        (subject, step, runner.noted, less.map(|(_, step)| step))
    });
    told.collect()
}

#[test]
fn all_calls_of_a_step_take_turns() {
    let exact = Step::Ask(Kind::Exact);
    let expected =
        [LIBRARY, REFERENCE, MODEL, SORTED].map(|subject| (subject, exact, Some(exact), None));
    assert_eq!(race_with(exact), expected);
    assert_eq!(race_with(Step::Check).len(), 2);
}

#[test]
fn after_the_check_a_batch_takes_turns_with_its_check_and_with_those_that_have_none() {
    let (batch, held) = (Step::BatchOf(Kind::Exact), Step::HeldAsk(Kind::Exact));
    let check = Step::Check;
    let expected = [
        (LIBRARY, check, None, None),
        (LIBRARY, batch, Some(batch), Some(check)),
        (REFERENCE, check, None, None),
        (REFERENCE, batch, Some(batch), Some(check)),
        (MODEL, held, Some(held), None),
        (SORTED, Step::Ask(Kind::Exact), Some(held), None),
    ];
    assert_eq!(race_with(batch), expected);
}

#[test]
fn every_step_that_the_page_shows_is_noted_once_and_nothing_else() {
    let calls = calls();
    let races = races(&calls);
    let runners = races.iter().flatten();
    let noted = runners.filter_map(|runner| Some((calls[runner.call].0, runner.noted?)));
    let mut noted: Vec<(usize, Step)> = noted.collect();
    noted.sort_unstable();
    let mut expected: Vec<(usize, Step)> = calls.clone();
    expected.retain(|(_, step)| !matches!(step, Step::Nothing | Step::HeldRead));
    expected.push((SORTED, Step::HeldAsk(Kind::Exact)));
    expected.sort_unstable();
    assert_eq!(noted, expected);
}
