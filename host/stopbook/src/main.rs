//! Books of stop names on the command line.
//!
//! Every answer comes from the proved library, by way of the crate `mistrogu`.
//! What this program adds is text: it reads lines, writes sentences and draws
//! trees. Only what no call gives (the stored counts, the node table, how many
//! names a lost block had) is read from the bytes of a book, after the library has
//! accepted or salvaged them.
//!
//! | Module | What it has |
//! |---|---|
//! | [`args`] | words of the command line, taken apart |
//! | [`help`] | what `--help` prints |
//! | [`outcome`] | how a command ends, and where it writes |
//! | [`files`] | files, standard input and standard output |
//! | [`text`] | bytes as text, numbers as text |
//! | [`light`] | the lit part of a name |
//! | [`lines`] | names as lines of a text |
//! | [`loss`] | what is lost of a damaged book, in sentences |
//! | [`layout`] | document 01's layout, read from an accepted book |
//! | [`book`] | a book that was read and accepted |
//! | [`names`] | a file with a name on each line |
//! | [`looks`] | control characters, blanks that cannot be seen, names that look alike |
//! | [`accents`] | Latin letters with marks, taken apart |
//! | [`reading`] | such a file read, and what is wrong with its lines told |
//! | [`empty`] | outputs without names, which have to be asked for |
//! | [`size`] | how long the book of some names will be |
//! | [`progress`] | how far a long reading is |
//! | [`build`], [`convert`], [`merge`], [`list`], [`ask`], [`announcer`], [`check`], [`salvage`], [`tree`] | the commands |

#![forbid(unsafe_code)]
#![warn(missing_docs)]

mod accents;
mod announcer;
mod args;
mod ask;
mod book;
mod build;
mod check;
mod convert;
mod empty;
mod files;
mod help;
mod layout;
mod light;
mod lines;
mod list;
mod looks;
mod loss;
mod merge;
mod names;
mod outcome;
mod progress;
mod reading;
mod salvage;
mod size;
mod text;
mod tree;

use args::{Shape, Words};
use light::Light;
use outcome::{Failure, Outcome, Status, Streams};
use std::env;
use std::ffi::OsString;
use std::io::{self, BufWriter};
use std::process::ExitCode;

/// A command: its name, what it takes, what it does.
pub struct Command {
    /// The word that calls it.
    pub name: &'static str,
    /// Its options.
    pub shape: Shape,
    /// What `--help` prints.
    pub help: &'static str,
    /// Runs it.
    pub run: fn(&Words, &mut Streams) -> Outcome,
}

/// Every command, in the order of the help.
const COMMANDS: [Command; 10] = [
    build::COMMAND,
    convert::COMMAND,
    merge::COMMAND,
    list::COMMAND,
    ask::COMMAND,
    announcer::CLIP,
    announcer::ROUTE,
    check::COMMAND,
    salvage::COMMAND,
    tree::COMMAND,
];

fn main() -> ExitCode {
    let words: Vec<OsString> = env::args_os().skip(1).collect();
    let mut out = BufWriter::new(io::stdout().lock());
    let mut err = io::stderr().lock();
    let mut streams = Streams {
        out: &mut out,
        err: &mut err,
        light: Light::of_standard_output(),
    };
    let outcome = run(&words, &mut streams).and_then(|status| {
        streams.out.flush()?;
        Ok(status)
    });
    ExitCode::from(outcome::report(outcome, &mut streams))
}

/// Runs the command that the first word names.
fn run(words: &[OsString], streams: &mut Streams) -> Outcome {
    let Some((first, rest)) = words.split_first() else {
        return Err(Failure::usage(help::NO_COMMAND));
    };
    match first.to_str() {
        Some("--help" | "-h") => print(streams, help::TOOL),
        Some("--version" | "-V") => {
            let line = format!("stopbook {}\n", env!("CARGO_PKG_VERSION"));
            print(streams, &line)
        }
        Some("help") => run_help(rest, streams),
        _ => run_command(find(first)?, rest, streams),
    }
}

/// The help of the tool, or of the command that the next word names.
fn run_help(rest: &[OsString], streams: &mut Streams) -> Outcome {
    match rest.first() {
        None => print(streams, help::TOOL),
        Some(word) => print(streams, find(word)?.help),
    }
}

/// Runs a command with the words after its name.
fn run_command(command: &Command, rest: &[OsString], streams: &mut Streams) -> Outcome {
    let words = args::split(rest, &command.shape).map_err(|text| wrong_usage(command, &text))?;
    if words.wants_help {
        return print(streams, command.help);
    }
    (command.run)(&words, streams).map_err(|failure| match failure {
        Failure::Usage(text) => wrong_usage(command, &text),
        other => other,
    })
}

/// Wrong usage of a command, with where to look.
fn wrong_usage(command: &Command, text: &str) -> Failure {
    let name = command.name;
    Failure::usage(format!("{name}: {text}; see: stopbook {name} --help"))
}

/// The command with this name.
fn find(word: &OsString) -> Result<&'static Command, Failure> {
    let found = COMMANDS.iter().find(|command| word == command.name);
    found.ok_or_else(|| {
        let shown = text::shown_os(word);
        let names: Vec<&str> = COMMANDS.iter().map(|command| command.name).collect();
        let names = names.join(", ");
        Failure::usage(format!(
            "{shown} is no command; there are {names}; see: stopbook --help"
        ))
    })
}

/// Prints a text and is done.
fn print(streams: &mut Streams, text: &str) -> Outcome {
    streams.out.write_all(text.as_bytes())?;
    Ok(Status::Done)
}
