//! What is measured, and the figures that come of it.

use format::{Kind, MOST_ROWS};
use std::collections::BTreeMap;

/// Something that is measured of each way to keep names.
#[derive(Clone, Copy, Debug, PartialEq, Eq, PartialOrd, Ord)]
pub enum Step {
    /// A call that does nothing: what measuring takes.
    Nothing,
    /// Building from a list.
    Build,
    /// Checking a book.
    Check,
    /// Reading a name back, as a call of its own.
    Read,
    /// A question of this kind, as a call of its own.
    Ask(Kind),
    /// A batch of 64 questions, all kinds mixed.
    Batch,
    /// A batch of 64 questions of this kind.
    BatchOf(Kind),
    /// Reading a name back, of names that are already at hand.
    HeldRead,
    /// A question of this kind, to names that are already at hand.
    HeldAsk(Kind),
    /// Merging two lists.
    Merge,
    /// Building a folded book from a list.
    BuildFolded,
    /// Checking a folded book.
    CheckFolded,
    /// Writing out what a sound book still has.
    Salvage,
}

/// How many rows a batch has here: as many as it can have.
pub const ROWS: usize = MOST_ROWS;

/// A way to keep names.
#[derive(Clone, Debug)]
pub struct Subject {
    /// What it is called.
    pub name: String,
    /// How many bytes it keeps the names in.
    pub size: usize,
}

/// The subjects by their numbers: the proved library is the first of them.
pub const LIBRARY: usize = 0;
/// Careful code without index tests.
pub const REFERENCE: usize = 1;
/// The second program.
pub const MODEL: usize = 2;
/// The plain sorted array.
pub const SORTED: usize = 3;

/// Average and most of several calls.
#[derive(Clone, Copy, Debug, PartialEq)]
pub struct Spread {
    /// The average.
    pub mean: f64,
    /// The most.
    pub most: f64,
}

/// All that was measured, by subject and step.
#[derive(Default)]
pub struct Figures {
    /// Instructions of each call.
    pub instructions: BTreeMap<(usize, Step), Vec<u64>>,
    /// Nanoseconds of a call, in each round; of a batch of one kind what it
    /// takes more than the check. Under [`Step::HeldAsk`] stands what a question
    /// takes of those who have no check, timed beside these batches.
    pub times: BTreeMap<(usize, Step), Vec<f64>>,
    /// The deepest stack in bytes.
    pub stacks: BTreeMap<(usize, Step), usize>,
    /// Instructions of `sort -mu`, merging the lines of the same names.
    pub sort: u64,
}

impl Figures {
    /// Instructions of a call of its own, less what measuring takes.
    pub fn whole(&self, subject: usize, step: Step) -> Option<Spread> {
        let counts = self.instructions.get(&(subject, step))?;
        let nothing = self.nothing();
        Some(Spread {
            mean: counts.iter().sum::<u64>() as f64 / counts.len() as f64 - nothing,
            most: *counts.iter().max()? as f64 - nothing,
        })
    }

    /// What measuring takes.
    fn nothing(&self) -> f64 {
        let counts = self.instructions.get(&(LIBRARY, Step::Nothing));
        counts.map_or(0.0, |counts| counts[0] as f64)
    }

    /// Instructions after the check: of the library and of the reference what a
    /// call takes more than its check, of the second program what it takes with
    /// the names at hand. The others have no check, so it is the call itself.
    pub fn held(&self, subject: usize, step: Step) -> Option<Spread> {
        match subject {
            LIBRARY | REFERENCE => {
                let call = self.whole(subject, step)?;
                let check = self.whole(subject, Step::Check)?.mean;
                Some(Spread {
                    mean: call.mean - check,
                    most: call.most - check,
                })
            }
            MODEL => self.whole(subject, held_step(step)),
            _ => self.whole(subject, step),
        }
    }

    /// In each round, the time of a call of its own.
    pub fn whole_times(&self, subject: usize, step: Step) -> Option<Vec<f64>> {
        self.times.get(&(subject, step)).cloned()
    }

    /// In each round, the time after the check. Of the library and of the
    /// reference it is a 64th of what a batch of that kind takes more than the
    /// check, since a question is too small beside the check to be seen.
    pub fn held_times(&self, subject: usize, step: Step) -> Option<Vec<f64>> {
        match (subject, step) {
            (LIBRARY | REFERENCE, Step::Ask(kind)) => {
                let more = self.times.get(&(subject, Step::BatchOf(kind)))?;
                Some(more.iter().map(|more| more / ROWS as f64).collect())
            }
            (LIBRARY | REFERENCE, _) => None,
            _ => self.whole_times(subject, held_step(step)),
        }
    }
}

/// The same with names that are already at hand.
fn held_step(step: Step) -> Step {
    match step {
        Step::Read => Step::HeldRead,
        Step::Ask(kind) => Step::HeldAsk(kind),
        other => other,
    }
}

/// The median of these numbers; they must be there.
pub fn median(numbers: Vec<f64>) -> f64 {
    middle(numbers).median
}

/// The middle of some numbers, and the least and the most of their middle eight
/// tenths.
#[derive(Clone, Copy, Debug, PartialEq)]
pub struct Middle {
    /// The middle.
    pub median: f64,
    /// The least, once a tenth of all is left out that is less.
    pub least: f64,
    /// The most, once a tenth of all is left out that is more.
    pub most: f64,
}

/// The middle of these numbers; they must be there.
pub fn middle(mut numbers: Vec<f64>) -> Middle {
    numbers.sort_by(f64::total_cmp);
    let outside = numbers.len() / 10;
    Middle {
        median: numbers[numbers.len() / 2],
        least: numbers[outside],
        most: numbers[numbers.len() - 1 - outside],
    }
}

/// How many times `one` is as much as `other`, round by round.
pub fn middle_ratio(one: &[f64], other: &[f64]) -> Middle {
    let rounds = one.iter().zip(other);
    middle(rounds.map(|(one, other)| one / other).collect())
}
