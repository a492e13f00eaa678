//! `stopbook list`: the names of a book, alone or with their numbers.

use crate::args::{Shape, Words};
use crate::book::Book;
use crate::lines::Lines;
use crate::outcome::{Failure, Outcome, Status, Streams};
use crate::text::{counted, grouped, shown};
use crate::{help, Command};
use std::ops::Range;

/// The command.
pub const COMMAND: Command = Command {
    name: "list",
    shape: Shape {
        valued: &["--from", "--count"],
        flags: &["--long", "--plain"],
    },
    help: help::LIST,
    run,
};

/// Lists a book.
fn run(words: &Words, streams: &mut Streams) -> Outcome {
    let [path] = words.plain.as_slice() else {
        return Err(Failure::usage("give one book, or -"));
    };
    let from = words.number("--from").map_err(Failure::Usage)?;
    let count = words.number("--count").map_err(Failure::Usage)?;
    if words.has("--long") && words.has("--plain") {
        return Err(Failure::usage("give --long or --plain, not both"));
    }
    let mut book = Book::open(path)?;
    let positions = span(&book, from, count)?;
    book.learn(positions.clone())?;
    if words.has("--long") {
        list_numbers(&mut book, positions, streams)
    } else {
        list_plain(&mut book, positions, streams)
    }
}

/// Which positions are listed.
fn span(book: &Book, from: Option<usize>, count: Option<usize>) -> Result<Range<usize>, Failure> {
    let names = book.names();
    let start = from.unwrap_or(0);
    if from.is_some() && start >= names {
        let source = book.source();
        let has = match names {
            0 => "no names".to_string(),
            _ => format!("{}, at 0 to {}", counted(names, "name"), grouped(names - 1)),
        };
        let start = grouped(start);
        return Err(Failure::refused(format!(
            "{source} has {has}; --from {start} is past them"
        )));
    }
    Ok(start..start + count.unwrap_or(names).min(names - start))
}

/// Only the names. A name that no line of text can hold is escaped, and told.
fn list_plain(book: &mut Book, positions: Range<usize>, streams: &mut Streams) -> Outcome {
    let mut lines = Lines::default();
    for position in positions {
        lines.push(book.name(position)?);
    }
    streams.out.write_all(lines.text())?;
    lines.tell_escaped(book.source(), streams);
    Ok(Status::Done)
}

/// Document 01's listing, with names as text, under a line of heads.
fn list_numbers(book: &mut Book, positions: Range<usize>, streams: &mut Streams) -> Outcome {
    writeln!(streams.out, "{}", book.headline())?;
    writeln!(streams.out, "position  block  shared  length  name")?;
    let counts = book.stored_counts()?;
    let block = book.block().max(1);
    for position in positions {
        let shared = counts.get(position).copied().unwrap_or_default();
        let name = book.name(position)?;
        let (length, text) = (name.len(), shown(name));
        let [position, number] = [position, position / block].map(grouped);
        writeln!(
            streams.out,
            "{position:>8}  {number:>5}  {shared:>6}  {length:>6}  {text}"
        )?;
    }
    Ok(Status::Done)
}
