//! `stopbook convert`: a column book of a plain book, or a plain one of a column book.

use crate::args::{Shape, Words};
use crate::book::Book;
use crate::outcome::{Failure, Outcome, Status, Streams};
use crate::{files, help, Command};

/// The command.
pub const COMMAND: Command = Command {
    name: "convert",
    shape: Shape {
        valued: &["-o", "--output"],
        flags: &[],
    },
    help: help::CONVERT,
    run,
};

/// Converts a book.
fn run(words: &Words, streams: &mut Streams) -> Outcome {
    let [input] = words.plain.as_slice() else {
        return Err(Failure::usage("give one book, or -"));
    };
    let output = words.output().map_err(Failure::Usage)?;
    let Some(output) = output else {
        return Err(Failure::usage("give where the new book goes: -o NEW"));
    };
    files::spare_terminal(output)?;
    files::spare_input(input, output)?;
    let book = Book::open(input)?;
    let new = book.converted()?;
    files::write(output, new.bytes(), streams)?;
    let sentence = tell(&book, &new, &files::output_name(output));
    if files::is_standard(output) {
        let _ = streams.err.write_all(sentence.as_bytes());
    } else {
        streams.out.write_all(sentence.as_bytes())?;
    }
    Ok(Status::Done)
}

/// What is said of the new book.
fn tell(book: &Book, new: &Book, output: &str) -> String {
    let [old_kind, new_kind] = [book, new].map(|book| book.kind().name());
    let (source, numbers) = (book.source(), new.numbers());
    format!("{output} is the {new_kind} book of the {old_kind} book {source}: {numbers}\n")
}
