//! The proved library against the second program, on random calls.
//!
//! Every case makes one call of both with the same bytes and numbers, and compares the
//! answer, of a single question also how far it looked, and all lent bytes, rows and
//! clips; those of the laws of merging compare what the proved library gives in one
//! order with what it gives in another, those of neighbours its answers with the names
//! that it reads back and with each other, those of blocks apart what it salvages of
//! two worn books that differ in one block, those of small letters what it answers of
//! a folded book with what it answers of the plain one of its names in small letters,
//! and those of the announcer the clip of a text with the book's own answers, a route
//! with its positions one by one, and both with the names that are read back; those of
//! columns turn a book into columns and back, and compare what a plain book gives with
//! what its column book gives. The seed is printed first; the same seed gives the same
//! cases. While it runs it says how far it is, and at the end it prints a table. A
//! difference is printed with the whole case, and the exit status is then 1.
//!
//! The proved library is called on exactly as much stack as its header says is
//! enough, and all that is lent to it has a fence before or behind it. Where it
//! takes more stack, or steps past what is lent, the system ends the run with a
//! signal. Run again with the same seed and `--say`, which prints each case's own
//! seed before it is run: the last one is that of the case, to be had alone with
//! `--cases 1 --seed`.
//!
//! Another call is a module with one function, and one more line in [`KINDS`].

mod agreeing;
mod announcing;
mod asking;
mod batching;
mod books;
mod building;
mod checking;
mod converting;
mod folding;
mod laws;
mod lent;
mod merging;
mod neighbours;
mod progress;
mod reading;
mod records;
mod salvaging;
mod shapes;
mod tally;

use progress::Progress;
use std::env;
use std::process::ExitCode;
use std::time::{Duration, Instant, SystemTime, UNIX_EPOCH};
use tally::{grouped, Tally};
use vectors::random::Random;

const USAGE: &str = "difftest [--seconds N | --cases N] [--seed S] [--say]";

/// A kind of call: its name, and a function that makes one such call at random
/// and gives the code of the answer, or the whole case where the two differ.
pub struct Kind {
    /// The name of the call in the figures.
    pub name: &'static str,
    /// Runs one case.
    pub run: fn(&mut Random) -> Result<usize, String>,
}

/// Every kind of call, as often as the others.
const KINDS: [Kind; 30] = [
    Kind {
        name: "build",
        run: building::plain,
    },
    Kind {
        name: "build folded",
        run: building::folded,
    },
    Kind {
        name: "check",
        run: checking::run,
    },
    Kind {
        name: "read",
        run: reading::run,
    },
    Kind {
        name: "exact",
        run: asking::exact,
    },
    Kind {
        name: "place",
        run: asking::place,
    },
    Kind {
        name: "range",
        run: asking::range,
    },
    Kind {
        name: "nearest",
        run: asking::nearest,
    },
    Kind {
        name: "width",
        run: asking::width,
    },
    Kind {
        name: "batch",
        run: batching::run,
    },
    Kind {
        name: "merge",
        run: merging::merge,
    },
    Kind {
        name: "judge",
        run: merging::judge,
    },
    Kind {
        name: "head",
        run: merging::head,
    },
    Kind {
        name: "merge laws",
        run: laws::run,
    },
    Kind {
        name: "both neighbours",
        run: neighbours::both,
    },
    Kind {
        name: "neighbour before",
        run: neighbours::only_before,
    },
    Kind {
        name: "neighbour behind",
        run: neighbours::only_behind,
    },
    Kind {
        name: "nested ranges",
        run: neighbours::ranges,
    },
    Kind {
        name: "salvage",
        run: salvaging::run,
    },
    Kind {
        name: "blocks apart",
        run: salvaging::apart,
    },
    Kind {
        name: "small letters",
        run: folding::run,
    },
    Kind {
        name: "clip",
        run: announcing::clip,
    },
    Kind {
        name: "route",
        run: announcing::route,
    },
    Kind {
        name: "clip by questions",
        run: announcing::by_questions,
    },
    Kind {
        name: "route by pieces",
        run: announcing::by_pieces,
    },
    Kind {
        name: "clips by names",
        run: announcing::by_names,
    },
    Kind {
        name: "to columns",
        run: converting::to_columns,
    },
    Kind {
        name: "from columns",
        run: converting::from_columns,
    },
    Kind {
        name: "columns and back",
        run: converting::there_and_back,
    },
    Kind {
        name: "columns alike",
        run: converting::alike,
    },
];

/// When to stop.
enum Until {
    /// After so much time.
    Time(Duration),
    /// After so many cases.
    Cases(u64),
}

impl Until {
    /// Whether it is time to stop after so many cases and so much time.
    fn is_reached(&self, cases: u64, elapsed: Duration) -> bool {
        match self {
            Until::Time(limit) => elapsed >= *limit,
            Until::Cases(limit) => cases >= *limit,
        }
    }
}

/// What the command line asks for.
struct Asked {
    until: Until,
    seed: u64,
    /// Whether each case is told of before it is run.
    say: bool,
}

fn main() -> ExitCode {
    let Some(asked) = read_words(env::args().skip(1)) else {
        eprintln!("{USAGE}");
        return ExitCode::from(2);
    };
    println!("seed {}", asked.seed);
    match run(&asked) {
        Ok(figures) => {
            print!("{figures}");
            ExitCode::SUCCESS
        }
        Err(difference) => {
            println!("{difference}");
            ExitCode::FAILURE
        }
    }
}

/// Runs cases until it is time to stop: the figures, or the first difference.
///
/// Each case has a seed of its own, so it can be run again by itself.
fn run(asked: &Asked) -> Result<String, String> {
    let began = Instant::now();
    let mut tally = Tally::new(&KINDS);
    let mut progress = Progress::new();
    while !asked.until.is_reached(tally.cases(), began.elapsed()) {
        let own_seed = asked.seed.wrapping_add(tally.cases());
        let mut random = Random::from_seed(own_seed);
        let kind = random.below(KINDS.len());
        if asked.say {
            println!("{}, alone with {}", KINDS[kind].name, words_for(own_seed));
        } else {
            progress.tell(&asked.until, tally.cases(), began.elapsed());
        }
        let code = (KINDS[kind].run)(&mut random).map_err(|case| {
            progress.end();
            difference(KINDS[kind].name, own_seed, &case)
        })?;
        tally.count(kind, code);
    }
    progress.end();
    let (cases, seconds) = (grouped(tally.cases()), began.elapsed().as_secs_f64());
    let table = tally.table();
    Ok(format!(
        "{cases} cases in {seconds:.1} seconds, no difference\n{table}"
    ))
}

/// The words that run the case with this seed alone.
fn words_for(own_seed: u64) -> String {
    format!("--cases 1 --seed {own_seed}")
}

/// What is printed where the two programs differ.
fn difference(name: &str, own_seed: u64, case: &str) -> String {
    format!(
        "DIFFERENCE in {name}, again with {}\n{case}",
        words_for(own_seed)
    )
}

/// Reads the words of the command line; without a limit it is ten seconds,
/// without a seed the clock gives one.
fn read_words(mut words: impl Iterator<Item = String>) -> Option<Asked> {
    let mut until = Until::Time(Duration::from_secs(10));
    let mut seed = None;
    let mut say = false;
    while let Some(option) = words.next() {
        if option == "--say" {
            say = true;
            continue;
        }
        let value: u64 = words.next()?.parse().ok()?;
        match option.as_str() {
            "--seconds" => until = Until::Time(Duration::from_secs(value)),
            "--cases" => until = Until::Cases(value),
            "--seed" => seed = Some(value),
            _ => return None,
        }
    }
    let seed = seed.unwrap_or_else(seed_of_the_clock);
    Some(Asked { until, seed, say })
}

/// A seed that differs from run to run, short enough to be copied by hand.
fn seed_of_the_clock() -> u64 {
    let since = SystemTime::now().duration_since(UNIX_EPOCH);
    since.map_or(0, |since| since.as_micros() as u64 % 1_000_000_000_000)
}
