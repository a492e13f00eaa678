//! Times, all in one process, by turns.
//!
//! They are the processor's time for this thread, so that waiting for other
//! programs is not counted. What remains of these is that they share caches: so
//! the calls of a race take turns, sample by sample, and everything is done in
//! rounds. A sample is one call where that is long enough to be timed, and as many
//! as fill it where it is not.
//!
//! Two things move a time by more than what is compared. Made again and again with
//! the same bytes, a call takes down to two fifths of its first time, or does not,
//! as the processor's memory of branches happens to hold what the others leave in
//! it. So that memory is filled with noise before each sample, as it is for a guest
//! that did something else before. And where in a page of memory the stack begins
//! matters: so every sample is taken at several places, and the least counts. Where
//! the code lies then matters little: with the archive's functions aligned to 64 and
//! to 1,024 bytes instead, whole calls kept their ratio to the reference within two
//! in a hundred, and questions after the check within a tenth.

use crate::items::Item;
use compare::steps::{median, Step};
use compare::turns::{races, Runner};
use std::collections::BTreeMap;
use std::ffi::{c_int, c_long};
use std::hint::black_box;
use std::ops::Range;
use std::time::Duration;
use vectors::random::Random;

/// How many times everything is timed.
pub const ROUNDS: usize = 10;
/// How many turns a call has in a race, where all its turns are alike.
const TURNS: usize = 25;
/// What takes longer than this is a sample by itself; shorter calls are made one
/// after the other until they take that long.
const SAMPLE: Duration = Duration::from_micros(10);
/// What takes longer than this is sampled at fewer places.
const LONG: Duration = Duration::from_millis(1);
/// How many branches are taken before each sample that can't be foretold.
const NOISE: usize = 60_000;
/// The places of the stack where a call is sampled, each a quarter of a page
/// further down. Where a call is very long, two have to do.
const PLACES: [Sample; 4] = [sample::<64>, sample::<1088>, sample::<2112>, sample::<3136>];

/// Makes a call with these inputs, so many times.
type Sample = fn(&mut Item, Range<usize>, usize) -> Duration;

/// Nanoseconds of a call, in each round; of a batch of one kind what it takes
/// more than the check.
pub fn time(items: &mut [Item]) -> BTreeMap<(usize, Step), Vec<f64>> {
    let calls: Vec<(usize, Step)> = items.iter().map(|item| (item.subject, item.step)).collect();
    let races = races(&calls);
    let mut random = Random::from_seed(1);
    let mut times: BTreeMap<(usize, Step), Vec<f64>> = BTreeMap::new();
    for _ in 0..ROUNDS {
        for race in &races {
            for (call, step, time) in run(items, race, &mut random) {
                let of_call = times.entry((calls[call].0, step)).or_default();
                of_call.push(time);
            }
        }
    }
    times
}

/// Runs a race: what is noted of each call, with its number and its step.
fn run(items: &mut [Item], race: &[Runner], random: &mut Random) -> Vec<(usize, Step, f64)> {
    let pace = |runner: &Runner| Pace::of(&mut items[runner.call]);
    let paces: Vec<Pace> = race.iter().map(pace).collect();
    let turns = paces.iter().map(Pace::turns).fold(0, usize::max);
    let mut series = vec![Vec::new(); race.len()];
    for turn in 0..turns {
        let least = take_turn(items, race, &paces, turn, random);
        for (times, least) in series.iter_mut().zip(least) {
            times.extend(least.is_finite().then_some(least));
        }
    }
    let noted = race.iter().enumerate().filter_map(|(number, runner)| {
        let own = &series[number];
        let time = match runner.less {
            Some(other) => median(less(own, &series[other])),
            None => paces[number].time(own),
        };
        Some((runner.call, runner.noted?, time))
    });
    noted.collect()
}

/// Samples each call of a race at each place, one after the other: the least
/// nanoseconds of each, infinite where it has no such turn.
fn take_turn(
    items: &mut [Item],
    race: &[Runner],
    paces: &[Pace],
    turn: usize,
    random: &mut Random,
) -> Vec<f64> {
    let mut least = vec![f64::INFINITY; race.len()];
    for (place, sample) in PLACES.iter().enumerate() {
        for (number, runner) in race.iter().enumerate() {
            if let Some((inputs, repeats)) = paces[number].inputs(turn, place) {
                forget(random);
                let calls = (inputs.len() * repeats) as f64;
                let time = sample(&mut items[runner.call], inputs, repeats);
                least[number] = least[number].min(time.as_nanos() as f64 / calls);
            }
        }
    }
    least
}

/// How much more each of these times is than the other of the same turn.
fn less(times: &[f64], others: &[f64]) -> Vec<f64> {
    let pairs = times.iter().zip(others);
    pairs.map(|(time, other)| time - other).collect()
}

/// How a call is sampled in a round.
enum Pace {
    /// With all inputs, so many, together, and that so many times.
    Together { inputs: usize, repeats: usize },
    /// With its only input.
    Alone,
    /// With another of so many inputs at each turn, at so many places.
    Each { inputs: usize, places: usize },
}

impl Pace {
    /// That of a call.
    fn of(item: &mut Item) -> Pace {
        let inputs = item.call.turns();
        let pass = PLACES[0](item, 0..inputs, 1);
        let one = pass / inputs as u32;
        if one < SAMPLE {
            let repeats = whole_parts(SAMPLE, pass);
            Pace::Together { inputs, repeats }
        } else if inputs == 1 && one < LONG {
            Pace::Alone
        } else {
            let places = if one < LONG { PLACES.len() } else { 2 };
            Pace::Each { inputs, places }
        }
    }

    /// How many turns it has.
    fn turns(&self) -> usize {
        match *self {
            Pace::Together { .. } | Pace::Alone => TURNS,
            Pace::Each { inputs, .. } => inputs,
        }
    }

    /// The inputs and repeats of this turn at this place, if it has one.
    fn inputs(&self, turn: usize, place: usize) -> Option<(Range<usize>, usize)> {
        let (inputs, repeats, places) = match *self {
            Pace::Together { inputs, repeats } => (0..inputs, repeats, PLACES.len()),
            Pace::Alone => (0..1, 1, PLACES.len()),
            Pace::Each { places, .. } => (turn..turn + 1, 1, places),
        };
        (turn < self.turns() && place < places).then_some((inputs, repeats))
    }

    /// The time of a call, from that of each turn: the middle where every turn
    /// is the same, and the average of the inputs where each has its own.
    fn time(&self, times: &[f64]) -> f64 {
        match self {
            Pace::Together { .. } | Pace::Alone => median(times.to_vec()),
            Pace::Each { .. } => times.iter().sum::<f64>() / times.len() as f64,
        }
    }
}

/// Takes branches that can't be foretold, at several places of the code.
#[inline(never)]
fn forget(random: &mut Random) {
    let mut ones = 0;
    for _ in 0..NOISE / 8 {
        let bits = random.any();
        for bit in 0..8 {
            if bits >> bit & 1 == 1 {
                ones = black_box(ones + 1);
            } else {
                black_box(ones);
            }
        }
    }
}

/// Makes a call with these inputs, so many times, below so many bytes of stack.
#[inline(never)]
fn sample<const BYTES: usize>(item: &mut Item, inputs: Range<usize>, repeats: usize) -> Duration {
    let mut above = [0u8; BYTES];
    black_box(&mut above);
    let time = passes(item, inputs, repeats);
    black_box(&mut above);
    time
}

/// Makes a call with these inputs, so many times.
#[inline(never)]
fn passes(item: &mut Item, inputs: Range<usize>, repeats: usize) -> Duration {
    let start = thread_time();
    for _ in 0..repeats {
        for input in inputs.clone() {
            black_box(item.call.make(black_box(input)));
        }
    }
    thread_time() - start
}

/// How many times a part goes into a span: at least once.
fn whole_parts(span: Duration, part: Duration) -> usize {
    let parts = span.as_nanos() / part.as_nanos().max(1);
    parts.clamp(1, 10_000) as usize
}

/// The system's form of a time.
#[repr(C)]
#[derive(Default)]
struct Time {
    seconds: c_long,
    nanoseconds: c_long,
}

extern "C" {
    fn clock_gettime(clock: c_int, time: *mut Time) -> c_int;
}

/// The clock that counts a thread's own time, by Linux's number.
const THREAD_CLOCK: c_int = 3;

/// For how long this thread has run.
fn thread_time() -> Duration {
    let mut time = Time::default();
    // SAFETY: the time is there to be written to for the call.
    let failed = unsafe { clock_gettime(THREAD_CLOCK, &mut time) };
    assert_eq!(failed, 0, "the system has a clock for threads");
    Duration::new(time.seconds as u64, time.nanoseconds as u32)
}
