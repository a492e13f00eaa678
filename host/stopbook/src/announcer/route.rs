//! `stopbook route`: the clips of a route.

use super::{table, TSV};
use crate::args::{read_number, Shape, Words};
use crate::book::Book;
use crate::names::{self, Bad};
use crate::outcome::{Failure, Outcome, Status, Streams};
use crate::reading;
use crate::text::{counted, grouped, named, shown};
use crate::{files, help, Command};
use mistrogu::{Refusal, RouteRefused, LONGEST_NAME, MOST_STOPS};
use std::ffi::{OsStr, OsString};
use std::io::{self, IsTerminal};
use std::os::unix::ffi::OsStrExt;

/// The option for stops that are given by name.
const NAMES: &str = "--names";

/// The command.
pub const COMMAND: Command = Command {
    name: "route",
    shape: Shape {
        valued: &[],
        flags: &[NAMES, TSV],
    },
    help: help::ROUTE,
    run,
};

/// So much of a route is read from standard input, and no more.
const LONGEST_INPUT: u64 = 1 << 20;

/// Tells the clips.
fn run(words: &Words, streams: &mut Streams) -> Outcome {
    let [book, clips, stops @ ..] = words.plain.as_slice() else {
        return Err(Failure::usage("give a book, a text of clips and a route"));
    };
    if stops.is_empty() && [book, clips].iter().any(|path| files::is_standard(path)) {
        return Err(Failure::usage(
            "the route comes from standard input, so the book and the clips must be files",
        ));
    }
    let (mut book, clips) = table::open(book, clips, streams)?;
    let stops = Stops::read(stops, words.has(NAMES), streams)?;
    let positions = stops.positions(&book, streams)?;
    let mut room = [0; MOST_STOPS];
    let row = mistrogu::route(book.bytes(), &clips, &positions, &mut room);
    let row = row.map_err(|why| refused(&book, &stops, &positions, why))?;
    let text = match words.has(TSV) {
        true => fields(&mut book, &positions, row)?,
        false => tell(&mut book, &positions, row)?,
    };
    streams.out.write_all(text.as_bytes())?;
    Ok(Status::Done)
}

/// The stops of a route, as they are given.
struct Stops {
    /// Each as it was written, with its line or the number of its word, from 1.
    written: Vec<(usize, Vec<u8>)>,
    /// Whether they are lines of standard input, or words.
    are_lines: bool,
    /// Whether they are names, or positions.
    are_names: bool,
}

impl Stops {
    /// Takes these words or, where there are none, the lines of standard input.
    fn read(words: &[OsString], are_names: bool, streams: &mut Streams) -> Result<Stops, Failure> {
        let are_lines = words.is_empty();
        let written = match are_lines {
            true => read_lines(are_names, streams)?,
            false => (1..)
                .zip(words.iter().map(|word| word.as_bytes().to_vec()))
                .collect(),
        };
        Ok(Stops {
            written,
            are_lines,
            are_names,
        })
    }

    /// Their positions. What is none is named.
    fn positions(&self, book: &Book, streams: &mut Streams) -> Result<Vec<usize>, Failure> {
        let found = self.written.iter().map(|(number, written)| {
            let position = match self.are_names {
                true => position_of(book, written),
                false => number_in(written),
            };
            position.map_err(|why| Bad {
                number: *number,
                why,
            })
        });
        if self.are_lines {
            return reading::refuse_bad(found, "standard input", "no clip is chosen", streams);
        }
        let wrong = |Bad { why, .. }| match self.are_names {
            true => Failure::refused(why),
            false => Failure::usage(why),
        };
        found.map(|found| found.map_err(wrong)).collect()
    }
}

/// The lines of standard input that are not empty.
fn read_lines(are_names: bool, streams: &mut Streams) -> Result<Vec<(usize, Vec<u8>)>, Failure> {
    if io::stdin().is_terminal() {
        let what = if are_names { "name" } else { "position" };
        streams.note(&format!("on each line the {what} of a stop"));
    }
    let bytes = files::read(OsStr::new("-"), LONGEST_INPUT + 1)?;
    if bytes.len() as u64 > LONGEST_INPUT {
        let text = "standard input has more than 1 MiB, too much for a route";
        return Err(Failure::refused(text));
    }
    reading::refuse_utf16(&bytes, "standard input")?;
    let lines = names::lines(&bytes).filter(|(_, line)| !line.is_empty());
    Ok(lines
        .map(|(number, line)| (number, line.to_vec()))
        .collect())
}

/// The position that is written so, or why it is none.
fn number_in(written: &[u8]) -> Result<usize, String> {
    let text = std::str::from_utf8(written.trim_ascii()).ok();
    let number = text.filter(|text| !text.is_empty()).and_then(read_number);
    number.ok_or_else(|| {
        let written = named(written);
        format!("{written} is no position; give numbers, or names with {NAMES}")
    })
}

/// The position of the name that is written so, or why there is none.
fn position_of(book: &Book, written: &[u8]) -> Result<usize, String> {
    match mistrogu::exact(book.bytes(), written) {
        Ok(Some(position)) => Ok(position),
        Ok(None) => Err(format!(
            "{} is no stop of {}",
            named(written),
            book.source()
        )),
        Err(Refusal::QuestionTooLong) => Err(format!(
            "a name has at most {LONGEST_NAME} bytes, and this one {}",
            grouped(written.len())
        )),
        Err(refusal) => Err(format!("{}: {refusal}", book.source())),
    }
}

/// Why a route is refused.
fn refused(book: &Book, stops: &Stops, positions: &[usize], why: RouteRefused) -> Failure {
    let source = book.source();
    Failure::refused(match why.refusal {
        Refusal::BadBatch => format!(
            "the route has {}, and {MOST_STOPS} are the most; part it",
            counted(positions.len(), "stop")
        ),
        Refusal::NoSuchPosition => {
            let place = why.place;
            let at = match stops.written.get(place).filter(|_| stops.are_lines) {
                Some((line, _)) => format!("standard input, line {}", grouped(*line)),
                None => format!("place {place} of the route, counted from 0"),
            };
            let position = grouped(positions.get(place).copied().unwrap_or_default());
            let has = match book.names() {
                0 => "no names".to_string(),
                names => format!("{}, at 0 to {}", counted(names, "name"), grouped(names - 1)),
            };
            format!("{at}: position {position} is no stop; {source} has {has}")
        }
        other => format!("{source}: {other}"),
    })
}

/// The lines for programs.
fn fields(book: &mut Book, positions: &[usize], row: &[u16]) -> Result<String, Failure> {
    let mut lines = String::new();
    for (place, (&position, clip)) in positions.iter().zip(row).enumerate() {
        let name = shown(book.name(position)?);
        lines.push_str(&format!("{place}\t{position}\t{clip}\t{name}\n"));
    }
    Ok(lines)
}

/// The lines for people.
fn tell(book: &mut Book, positions: &[usize], row: &[u16]) -> Result<String, Failure> {
    let mut lines = match positions.len() {
        0 => "the route has no stops\n".to_string(),
        stops => format!("the route has {}\n", counted(stops, "stop")),
    };
    for (&position, &clip) in positions.iter().zip(row) {
        let (clip, name) = (grouped(usize::from(clip)), shown(book.name(position)?));
        let position = grouped(position);
        lines.push_str(&format!("  clip {clip}: {name}, stop {position}\n"));
    }
    Ok(lines)
}

#[cfg(test)]
mod tests {
    use super::*;

    #[test]
    fn a_position_is_a_number_with_commas_or_without() {
        for (written, position) in [("0", 0), ("1999", 1_999), ("1,999", 1_999), (" 7 ", 7)] {
            assert_eq!(number_in(written.as_bytes()), Ok(position));
        }
        for written in ["", " ", "Mar", "-1", "1.5", "99999999999999999999999"] {
            let why = number_in(written.as_bytes()).unwrap_err();
            assert!(why.ends_with("is no position; give numbers, or names with --names"));
        }
    }
}
