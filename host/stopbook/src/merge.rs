//! `stopbook merge`: one text of names from two.

use crate::args::{Shape, Words};
use crate::empty::{self, EMPTY};
use crate::files;
use crate::names::{self, Taking};
use crate::outcome::{Failure, Outcome, Status, Streams};
use crate::reading::{self, Text};
use crate::text::{counted, shown_os};
use crate::{help, Command};
use mistrogu::{BookKind, Refusal};
use std::ffi::{OsStr, OsString};

/// The command.
pub const COMMAND: Command = Command {
    name: "merge",
    shape: Shape {
        valued: &["-o", "--output"],
        flags: &[reading::TRIM, reading::AS_IS, EMPTY],
    },
    help: help::MERGE,
    run,
};

/// Merges two texts.
fn run(words: &Words, streams: &mut Streams) -> Outcome {
    let inputs = read_inputs(words)?;
    let taking = reading::read_taking(words)?;
    let output = words.output().map_err(Failure::Usage)?;
    let output = output.unwrap_or(OsStr::new("-"));
    for input in inputs {
        files::spare_input(input, output)?;
    }
    let texts = read_texts(inputs, taking, streams)?;
    let shared = count_shared(&texts);
    let list = merge(&texts, shared)?;
    let merged = names::in_records(&list);
    let [first, second] = &texts;
    let neither = format!("neither {} nor {} has names", first.source, second.source);
    empty::spare(merged.len(), words, &neither)?;
    files::write(output, &names::text(&merged), streams)?;
    tell_empty(&texts, streams);
    streams.note(&summary(&texts, shared, merged.len()));
    Ok(Status::Done)
}

/// Names each text without names: it may be what a failed export has left.
fn tell_empty(texts: &[Text; 2], streams: &mut Streams) {
    for text in texts.iter().filter(|text| text.lines.is_empty()) {
        streams.note(&format!("{} has no names", text.source));
    }
}

/// The two files with names.
fn read_inputs(words: &Words) -> Result<[&OsString; 2], Failure> {
    match words.plain.as_slice() {
        [first, second] if files::is_standard(first) && files::is_standard(second) => Err(
            Failure::usage("standard input can be read once; give a file beside it"),
        ),
        [first, second] => Ok([first, second]),
        [_, _, extra, ..] => Err(Failure::usage(format!(
            "two files are merged at a time; {} is too many",
            shown_os(extra)
        ))),
        _ => Err(Failure::usage("give two files with names; one may be -")),
    }
}

/// Reads both texts. The second is read also where the first is refused, so that
/// the bad lines of both are told.
fn read_texts(
    inputs: [&OsString; 2],
    taking: Taking,
    streams: &mut Streams,
) -> Result<[Text; 2], Failure> {
    let [first, second] = inputs;
    let first = match Text::read(BookKind::Plain, taking, first, streams) {
        Err(failure @ Failure::File(_)) => return Err(failure),
        first => first,
    };
    let second = Text::read(BookKind::Plain, taking, second, streams);
    let texts = [first?, second?];
    if taking != Taking::AsIs {
        reading::tell_alike_across(&texts, streams);
    }
    Ok(texts)
}

/// How many names are in both texts.
fn count_shared([first, second]: &[Text; 2]) -> usize {
    let in_second = |name: &[u8]| {
        second
            .lines
            .binary_search_by(|line| line.name[..].cmp(name))
    };
    let shared = first
        .lines
        .iter()
        .filter(|line| in_second(&line.name).is_ok());
    shared.count()
}

/// The merged list, of two texts that have so many names in common.
fn merge(texts: &[Text; 2], shared: usize) -> Result<Vec<u8>, Failure> {
    let [first, second] = [0, 1].map(|number: usize| names::records(&texts[number].names()));
    let mut room = vec![0; first.len() + second.len()];
    let length = mistrogu::merge(&first, &second, &mut room).map_err(|refused| {
        let [first, second] = texts;
        let both = format!("{} and {}", first.source, second.source);
        match refused.refusal {
            Refusal::TooManyNames => {
                let names = first.lines.len() + second.lines.len() - shared;
                reading::too_many(&format!("{both} together have"), names)
            }
            _ => Failure::refused(format!("{both}: {refused}")),
        }
    })?;
    room.truncate(length);
    Ok(room)
}

/// What each text brought, and what came of it.
fn summary(texts: &[Text; 2], shared: usize, merged: usize) -> String {
    let [first, second] = texts;
    let parts = [
        (first.source.as_str(), first.lines.len()),
        (second.source.as_str(), second.lines.len()),
        ("in both", shared),
        ("merged", merged),
    ];
    parts
        .map(|(what, names)| format!("{what}: {}", counted(names, "name")))
        .join("; ")
}

#[cfg(test)]
mod tests {
    use super::*;
    use crate::names::Line;

    /// A text with these names.
    fn text(source: &str, names: &[&str]) -> Text {
        let line = |(index, name): (usize, &&str)| Line {
            number: index + 1,
            name: name.as_bytes().to_vec(),
        };
        Text {
            source: source.to_string(),
            lines: names.iter().enumerate().map(line).collect(),
        }
    }

    #[test]
    fn what_each_text_brought_is_said_in_one_line() {
        let texts = [
            text("north.txt", &["Mar", "Market Square"]),
            text("south.txt", &["Mar", "Marina", "Zoo"]),
        ];
        let shared = count_shared(&texts);
        assert_eq!(shared, 1);
        let list = merge(&texts, shared).expect("these are few names");
        assert_eq!(list, b"\x03Mar\x06Marina\x0DMarket Square\x03Zoo");
        assert_eq!(
            summary(&texts, shared, names::in_records(&list).len()),
            "north.txt: 2 names; south.txt: 3 names; in both: 1 name; merged: 4 names"
        );
    }
}
