//! `stopbook build`: a book from a file with a name on each line.

use crate::args::{Shape, Words};
use crate::book::Book;
use crate::empty::{self, EMPTY};
use crate::files;
use crate::names;
use crate::outcome::{Failure, Outcome, Status, Streams};
use crate::reading::{self, Text};
use crate::size::{self, Size};
use crate::text::{counted, grouped};
use crate::{help, Command};
use mistrogu::{BookKind, Refusal, LARGEST_BLOCK, LONGEST_BOOK, MOST_NAMES};
use std::ffi::{OsStr, OsString};
use std::os::unix::ffi::OsStrExt;

/// The command.
pub const COMMAND: Command = Command {
    name: "build",
    shape: Shape {
        valued: &["-o", "--output", "--block"],
        flags: &[FOLD, COLUMNS, reading::TRIM, reading::AS_IS, EMPTY],
    },
    help: help::BUILD,
    run,
};

/// The option for a folded book.
const FOLD: &str = "--fold";
/// The option for a column book.
const COLUMNS: &str = "--columns";

/// The block size where none is given.
const USUAL_BLOCK: usize = 16;

/// Builds a book.
fn run(words: &Words, streams: &mut Streams) -> Outcome {
    let input = match words.plain.as_slice() {
        [input] => input,
        [] => return Err(Failure::usage("give the file with the names, or -")),
        [_, extra, ..] => return Err(extra_word(extra)),
    };
    let block = read_block(words)?;
    let kind = read_kind(words)?;
    let taking = reading::read_taking(words)?;
    let output = words.output().map_err(Failure::Usage)?;
    let output = output.map_or_else(|| usual_output(input), OsStr::to_os_string);
    files::spare_terminal(&output)?;
    files::spare_input(input, &output)?;
    let text = Text::read(kind, taking, input, streams)?;
    let (source, names) = (&text.source, text.names());
    if names.len() > MOST_NAMES {
        return Err(reading::too_many(&format!("{source} has"), names.len()));
    }
    empty::spare(names.len(), words, &format!("{source} has no names"))?;
    let book = build(kind, &names, block, source)?;
    files::write(&output, book.bytes(), streams)?;
    let summary = summary(&names, &book, &files::output_name(&output));
    if files::is_standard(&output) {
        let _ = streams.err.write_all(summary.as_bytes());
    } else {
        streams.out.write_all(summary.as_bytes())?;
    }
    Ok(Status::Done)
}

/// A word too many.
fn extra_word(word: &OsStr) -> Failure {
    Failure::usage(format!(
        "one file of names makes one book; {} is too many",
        crate::text::shown_os(word)
    ))
}

/// The block size.
fn read_block(words: &Words) -> Result<usize, Failure> {
    let block = words.number("--block").map_err(Failure::Usage)?;
    match block.unwrap_or(USUAL_BLOCK) {
        block @ 1..=LARGEST_BLOCK => Ok(block),
        other => Err(Failure::usage(format!(
            "--block takes 1 to {LARGEST_BLOCK}, not {other}"
        ))),
    }
}

/// The kind of book.
fn read_kind(words: &Words) -> Result<BookKind, Failure> {
    match (words.has(FOLD), words.has(COLUMNS)) {
        (false, false) => Ok(BookKind::Plain),
        (true, false) => Ok(BookKind::Folded),
        (false, true) => Ok(BookKind::Columns),
        (true, true) => Err(Failure::usage(
            "give --fold or --columns, not both: no folded book has columns",
        )),
    }
}

/// Without a word on it: `stops.book` for `stops.txt`, and standard output for
/// standard input.
fn usual_output(input: &OsStr) -> OsString {
    if files::is_standard(input) {
        return input.to_os_string();
    }
    let bytes = input.as_bytes();
    let stem = bytes.strip_suffix(b".txt").unwrap_or(bytes);
    let mut output = OsStr::from_bytes(stem).to_os_string();
    output.push(".book");
    output
}

/// Builds the book of this kind of these names, and checks it.
fn build(kind: BookKind, names: &[Vec<u8>], block: usize, source: &str) -> Result<Book, Failure> {
    let list = names::records(names);
    let mut room = vec![0; LONGEST_BOOK];
    let built = match kind {
        BookKind::Plain | BookKind::Columns => mistrogu::build(&list, block, &mut room),
        BookKind::Folded => mistrogu::build_folded(&list, block, &mut room),
    };
    let length = match built {
        Ok(length) => length,
        Err(refused) => {
            let text = match refused.refusal {
                Refusal::BookTooLong => {
                    let size = size::size(kind, names, block);
                    too_long(&size, size::fitting_block(kind, names, block))
                }
                other => other.to_string(),
            };
            return Err(Failure::refused(format!("{source}: {text}")));
        }
    };
    room.truncate(length);
    let book = Book::of(room, source.to_string())
        .map_err(|why| Failure::refused(format!("{source}: what was built is no book: {why}")))?;
    match kind {
        BookKind::Plain | BookKind::Folded => Ok(book),
        BookKind::Columns => book.converted(),
    }
}

/// By how much a book is too long, and what would help.
fn too_long(size: &Size, fitting: Option<usize>) -> String {
    let total = size.total();
    let over = total.saturating_sub(LONGEST_BOOK);
    let help = match fitting {
        Some(block) => format!("it fits with --block {block}"),
        None => "no block size makes it fit: take names out or make two books".to_string(),
    };
    let [total, most, over] = [total, LONGEST_BOOK, over].map(grouped);
    format!("the book would have {total} bytes, and {most} are the most: {over} too many; {help}")
}

/// What is said of a book that was built: how full it is, its parts, and what the
/// plain list would take.
fn summary(names: &[Vec<u8>], book: &Book, output: &str) -> String {
    let plain: usize = names.iter().map(|name| 1 + name.len()).sum();
    let size = size::size(book.kind(), names, book.block());
    let full = full(names.len(), book.bytes().len());
    let (parts, saved) = (parts(book, &size), saved(plain, &size));
    format!("{output}\n  full   {full}\n  parts  {parts}\n  saved  {saved}\n")
}

/// How much of what a book can have one has.
fn full(names: usize, bytes: usize) -> String {
    let [names, bytes] = [names, bytes].map(grouped);
    let [most_names, most_bytes] = [MOST_NAMES, LONGEST_BOOK].map(grouped);
    format!("{names} of {most_names} names, {bytes} of {most_bytes} bytes")
}

/// The parts of a book.
fn parts(book: &Book, size: &Size) -> String {
    let (folded, columns) = match book.kind() {
        BookKind::Plain => ("", ""),
        BookKind::Folded => (", folded", ""),
        BookKind::Columns => ("", ", in columns"),
    };
    let block = counted(book.block(), "name");
    let nodes = counted(book.trailer().nodes, "node");
    let [entries, tables] = [size.entries, size.tables()].map(|part| counted(part, "byte"));
    format!("blocks of {block}{folded}; {nodes}{columns}; entries {entries}, tables {tables}")
}

/// How the entries and the whole book compare with the plain list.
fn saved(plain: usize, size: &Size) -> String {
    let (entries, total) = (size.entries, size.total());
    let list = counted(plain, "byte");
    let first = match plain.checked_sub(entries) {
        Some(less) => {
            let percent = percent(less, plain);
            format!("{} of the plain list's {list}{percent}", grouped(less))
        }
        None => {
            let more = counted(entries - plain, "byte");
            format!("nothing: entries have {more} more than the plain list's {list}")
        }
    };
    let second = match plain.checked_sub(total) {
        Some(less) => format!("{} shorter", counted(less, "byte")),
        None => format!("{} longer", counted(total - plain, "byte")),
    };
    format!("{first}; with its tables the book is {second}")
}

/// A part of a whole in percent, in parentheses.
fn percent(part: usize, whole: usize) -> String {
    match (100 * part).checked_div(whole) {
        Some(percent) => format!(" ({percent} %)"),
        None => String::new(),
    }
}

#[cfg(test)]
mod tests {
    use super::*;

    #[test]
    fn the_usual_output_is_never_the_input() {
        let cases = [
            ("stops.txt", "stops.book"),
            ("a/b.c/stops.v2.txt", "a/b.c/stops.v2.book"),
            ("stops", "stops.book"),
            ("stops.csv", "stops.csv.book"),
            ("stops.book", "stops.book.book"),
            ("-", "-"),
        ];
        for (input, output) in cases {
            assert_eq!(usual_output(OsStr::new(input)), output);
        }
    }

    #[test]
    fn what_is_saved_is_said_both_ways() {
        let size = Size {
            entries: 60,
            blocks: 2,
            nodes: 10,
        };
        let text = saved(100, &size);
        assert_eq!(
            text,
            "40 of the plain list's 100 bytes (40 %); with its tables the book is 12 bytes shorter"
        );
        let text = saved(50, &size);
        assert!(text.starts_with("nothing: entries have 10 bytes more than the plain list's 50"));
        assert!(text.ends_with("38 bytes longer"));
        assert!(!saved(0, &size).contains('%'));
        let text = saved(59, &size);
        assert!(text.starts_with("nothing: entries have 1 byte more than"));
        assert!(saved(87, &size).ends_with("the book is 1 byte longer"));
        let text = saved(12_060, &size);
        assert!(text.starts_with("12,000 of the plain list's 12,060 bytes (99 %);"));
        assert!(text.ends_with("11,972 bytes shorter"));
    }

    #[test]
    fn how_full_a_book_is_is_said() {
        assert_eq!(full(20, 521), "20 of 2,000 names, 521 of 65,535 bytes");
        assert_eq!(
            full(1_999, 65_535),
            "1,999 of 2,000 names, 65,535 of 65,535 bytes"
        );
    }

    #[test]
    fn a_book_too_long_says_by_how_much() {
        let size = Size {
            entries: 65_000,
            blocks: 500,
            nodes: 1_000,
        };
        let text = too_long(&size, Some(30));
        assert!(text.contains("66,516 bytes, and 65,535 are the most: 981 too many"));
        assert!(text.ends_with("--block 30"));
        assert!(too_long(&size, None).contains("take names out"));
    }
}
