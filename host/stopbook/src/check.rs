//! `stopbook check`: whether a file is a book, and of which kind.

use crate::args::{Shape, Words};
use crate::book::{self, Book};
use crate::files;
use crate::outcome::{Failure, Outcome, Status, Streams};
use crate::{help, Command};

/// The command.
pub const COMMAND: Command = Command {
    name: "check",
    shape: Shape {
        valued: &[],
        flags: &[],
    },
    help: help::CHECK,
    run,
};

/// Checks a book.
fn run(words: &Words, streams: &mut Streams) -> Outcome {
    let [path] = words.plain.as_slice() else {
        return Err(Failure::usage("give one book, or -"));
    };
    let source = files::input_name(path);
    match Book::of(book::read(path)?, source.clone()) {
        Ok(book) => {
            writeln!(streams.out, "{}", verdict(&book))?;
            Ok(Status::Done)
        }
        Err(why) => {
            writeln!(streams.out, "{source} is no book: {why}")?;
            Ok(Status::No)
        }
    }
}

/// What is said of a book.
fn verdict(book: &Book) -> String {
    let (source, kind, numbers) = (book.source(), book.kind().name(), book.numbers());
    format!("{source} is a {kind} book: {numbers}")
}
