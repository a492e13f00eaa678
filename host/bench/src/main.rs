//! What the calls of the proved library cost.
//!
//! `bench CALL ..` makes the call once. It is made in a function of its own
//! (for `build` that is `measured_build`), so that a profiler shows what it
//! took: see measure.sh. `bench stack CALL ..` tells how deep the stack grew.
//! `bench questions BOOKFILE` checks the book and then asks mixed questions, and
//! `bench asked BOOKFILE` does so without the second program, for a profiler;
//! `bench together BOOKFILE` asks some of them as one batch, and then each of
//! them alone; `bench texts BOOKFILE` checks the book and then asks for the clips of
//! the same texts, and `bench announced BOOKFILE` does so without the second program;
//! `bench screen BOOKFILE TYPED` asks for a range and reads its first names. In each case the answer is printed, and it has to be the second
//! program's: a wrong answer is not worth measuring. `bench growth` and `bench
//! worst` build, check and ask lists of many shapes, `bench worst_folded` those of
//! folded books. `bench split` parts a list into two, to merge them again, `bench wear`
//! damages a book, to salvage it, `bench book` writes the book of a list, `bench
//! columns` the column book of a book, and `bench fold` makes lists and books to be
//! folded.
//!
//! Another call is a module with one function, and one more line in [`CALLS`].

mod announcing;
mod asking;
mod batching;
mod building;
mod checking;
mod converting;
mod merging;
mod mixed;
mod reading;
mod salvaging;
mod screen;
mod shaped;
mod stack;

use model::BookKind;
use std::process::ExitCode;
use std::{env, fs};

/// A call that can be measured.
struct Call {
    /// The call's name on the command line.
    name: &'static str,
    /// What has to follow the name.
    words: &'static str,
    /// Makes the call ready from those words.
    ready: fn(&[String]) -> Result<Ready, String>,
}

/// A call with all that goes into it.
pub struct Ready {
    /// Makes the call, in a function that is never inlined.
    pub measured: Box<dyn FnMut() -> Given + Send>,
    /// What the second program answers.
    pub expected: Given,
}

impl Ready {
    /// A call, and what the second program answers.
    pub fn new<G: Into<Given>>(
        mut measured: impl FnMut() -> G + Send + 'static,
        expected: impl Into<Given>,
    ) -> Ready {
        Ready {
            measured: Box::new(move || measured().into()),
            expected: expected.into(),
        }
    }
}

/// What a call gives: the three numbers of an answer, or the five of a question.
#[derive(Clone, Copy, Debug, PartialEq)]
pub enum Given {
    /// Code, first and second.
    Answer([usize; 3]),
    /// The same, then visits and entries.
    Counted([usize; 5]),
}

impl From<proved::Answer> for Given {
    fn from(answer: proved::Answer) -> Given {
        Given::Answer([answer.code, answer.first, answer.second])
    }
}

impl From<model::Answer> for Given {
    fn from(answer: model::Answer) -> Given {
        Given::Answer([answer.code, answer.first, answer.second])
    }
}

impl From<proved::Counted> for Given {
    fn from(given: proved::Counted) -> Given {
        let proved::Answer {
            code,
            first,
            second,
        } = given.answer();
        Given::Counted([code, first, second, given.visits, given.entries])
    }
}

impl From<model::Counted> for Given {
    fn from(given: model::Counted) -> Given {
        let model::Answer {
            code,
            first,
            second,
        } = given.answer();
        Given::Counted([code, first, second, given.visits, given.entries])
    }
}

/// Every call that can be measured.
const CALLS: [Call; 18] = [
    Call {
        name: "build",
        words: "LISTFILE K",
        ready: building::plain,
    },
    Call {
        name: "build_folded",
        words: "LISTFILE K",
        ready: building::folded,
    },
    Call {
        name: "check",
        words: "BOOKFILE",
        ready: checking::ready,
    },
    Call {
        name: "read",
        words: "BOOKFILE POSITION",
        ready: reading::ready,
    },
    Call {
        name: "exact",
        words: "BOOKFILE QUESTION",
        ready: asking::exact,
    },
    Call {
        name: "place",
        words: "BOOKFILE QUESTION",
        ready: asking::place,
    },
    Call {
        name: "range",
        words: "BOOKFILE QUESTION",
        ready: asking::range,
    },
    Call {
        name: "nearest",
        words: "BOOKFILE QUESTION",
        ready: asking::nearest,
    },
    Call {
        name: "width",
        words: "BOOKFILE QUESTION",
        ready: asking::width,
    },
    Call {
        name: "batch",
        words: "BOOKFILE",
        ready: batching::ready,
    },
    Call {
        name: "to_columns",
        words: "BOOKFILE",
        ready: converting::to_columns,
    },
    Call {
        name: "from_columns",
        words: "BOOKFILE",
        ready: converting::from_columns,
    },
    Call {
        name: "clip",
        words: "BOOKFILE TEXT",
        ready: announcing::clip,
    },
    Call {
        name: "route",
        words: "BOOKFILE [STOPS]",
        ready: announcing::route,
    },
    Call {
        name: "salvage",
        words: "CARDFILE",
        ready: salvaging::ready,
    },
    Call {
        name: "merge",
        words: "LISTFILE LISTFILE",
        ready: merging::merge,
    },
    Call {
        name: "judge",
        words: "LISTFILE LISTFILE",
        ready: merging::judge,
    },
    Call {
        name: "step",
        words: "LISTFILE LISTFILE COUNT COUNT",
        ready: merging::step,
    },
];

fn main() -> ExitCode {
    let words: Vec<String> = env::args().skip(1).collect();
    match run(&words) {
        Ok(line) => {
            println!("{line}");
            ExitCode::SUCCESS
        }
        Err(message) => {
            eprintln!("{message}");
            ExitCode::FAILURE
        }
    }
}

/// Does what the words say and gives the line to print.
fn run(words: &[String]) -> Result<String, String> {
    let (word, rest) = words.split_first().ok_or_else(usage)?;
    match word.as_str() {
        "stack" => {
            let Ready { measured, expected } = ready(rest)?;
            let (answer, depth) = stack::deepest(measured)?;
            Ok(format!("{}, stack {depth}", shown(answer, expected)?))
        }
        "questions" => mixed::run(rest),
        "asked" => mixed::asked(rest),
        "together" => batching::together(rest),
        "texts" => announcing::texts(rest),
        "announced" => announcing::announced(rest),
        "screen" => screen::run(rest),
        "growth" => shaped::growth(),
        "worst" => shaped::worst(BookKind::Plain, rest),
        "worst_folded" => shaped::worst(BookKind::Folded, rest),
        "split" => merging::split(rest),
        "wear" => salvaging::wear(rest),
        "fold" => building::fold(rest),
        "columns" => converting::columns(rest),
        "book" => building::book(rest),
        _ => {
            let Ready {
                mut measured,
                expected,
            } = ready(words)?;
            shown(measured(), expected)
        }
    }
}

/// The call that the words name.
fn ready(words: &[String]) -> Result<Ready, String> {
    let (name, rest) = words.split_first().ok_or_else(usage)?;
    let call = CALLS.iter().find(|call| call.name == name);
    (call.ok_or_else(usage)?.ready)(rest)
}

/// The bytes of a file.
pub fn read_file(file: &str) -> Result<Vec<u8>, String> {
    fs::read(file).map_err(|error| format!("{file}: {error}"))
}

/// A number among the words.
pub fn read_number(word: &str) -> Result<usize, String> {
    word.parse().map_err(|error| format!("{word}: {error}"))
}

/// What a call gave as it is printed, if it is what was expected.
fn shown(given: impl Into<Given>, expected: impl Into<Given>) -> Result<String, String> {
    let (given, expected) = (given.into(), expected.into());
    if given == expected {
        Ok(told(given))
    } else {
        Err(format!("WRONG: {given:?}, expected {expected:?}"))
    }
}

/// What a call gave as it is printed.
fn told(given: Given) -> String {
    let numbers = match &given {
        Given::Answer(numbers) => &numbers[..],
        Given::Counted(numbers) => numbers,
    };
    let numbers = numbers.iter().map(|number| format!(" {number}"));
    format!("answer{}", numbers.collect::<String>())
}

/// What can be asked of this program.
fn usage() -> String {
    let calls = CALLS.iter();
    let mut lines: Vec<String> = calls
        .map(|call| format!("bench [stack] {} {}", call.name, call.words))
        .collect();
    lines.push("bench questions BOOKFILE".to_string());
    lines.push("bench asked BOOKFILE".to_string());
    lines.push("bench together BOOKFILE".to_string());
    lines.push("bench texts BOOKFILE".to_string());
    lines.push("bench announced BOOKFILE".to_string());
    lines.push("bench screen BOOKFILE TYPED".to_string());
    lines.push("bench growth".to_string());
    lines.push("bench worst [SEED]".to_string());
    lines.push("bench worst_folded [SEED]".to_string());
    lines.push("bench split LISTFILE ODD EVEN".to_string());
    lines.push("bench wear BOOKFILE CARDFILE".to_string());
    lines.push("bench fold LISTFILE K NAME".to_string());
    lines.push("bench book LISTFILE K BOOKFILE".to_string());
    lines.push("bench columns BOOKFILE NEW".to_string());
    lines.join("\n")
}
