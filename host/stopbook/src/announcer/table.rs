//! A text of clips: one number on each line, for the names of a book in the order in
//! which `stopbook list` prints them.
//!
//! Lines end as those of a text of names do. None may be empty, since the number of a
//! line says whose clip it is.

use crate::args::read_number;
use crate::book::Book;
use crate::files;
use crate::names::{self, Bad};
use crate::outcome::{Failure, Streams};
use crate::reading;
use crate::text::{counted, named};
use mistrogu::{Refusal, RouteRefused};
use std::ffi::OsStr;

/// So much of a text of clips is read, and no more.
const LONGEST_FILE: u64 = 1 << 20;

/// Opens the book that the first word names, and the clips that the second does.
pub fn open(
    book: &OsStr,
    clips: &OsStr,
    streams: &mut Streams,
) -> Result<(Book, Vec<u16>), Failure> {
    if files::is_standard(book) && files::is_standard(clips) {
        return Err(Failure::usage(
            "standard input can be read once, and is given for the book and for the clips",
        ));
    }
    let book = Book::open(book)?;
    let (source, clips) = (files::input_name(clips), read(clips, streams)?);
    // Whether the table is the book's length is told by the library: no route is
    // shorter than one without stops.
    match mistrogu::route(book.bytes(), &clips, &[], &mut []) {
        Ok(_) => Ok((book, clips)),
        Err(RouteRefused { refusal, .. }) => {
            let (names, has) = (counted(book.names(), "name"), counted(clips.len(), "clip"));
            let (kind, book) = (book.kind().name(), book.source());
            Err(Failure::refused(match refusal {
                Refusal::BadClipTable => format!(
                    "{source} has {has}, and {book} has {names}; give one clip for each name, \
                     in the order of `stopbook list`"
                ),
                Refusal::NoBook => format!(
                    "{book} is a {kind} book, and the announcer takes plain and folded ones; \
                     stopbook convert makes a plain book of a column book"
                ),
                other => format!("{book}: {other}"),
            }))
        }
    }
}

/// Reads a file, or standard input, and refuses bad lines.
fn read(path: &OsStr, streams: &mut Streams) -> Result<Vec<u16>, Failure> {
    let source = files::input_name(path);
    let bytes = files::read(path, LONGEST_FILE + 1)?;
    if bytes.len() as u64 > LONGEST_FILE {
        let text = format!("{source} has more than 1 MiB, too much for a text of clips");
        return Err(Failure::refused(text));
    }
    reading::refuse_utf16(&bytes, &source)?;
    let lines = names::lines(&bytes).map(|(number, line)| match number_of(line) {
        Some(clip) => Ok(clip),
        None => Err(Bad {
            number,
            why: why_not(line),
        }),
    });
    reading::refuse_bad(lines, &source, "no clip is chosen", streams)
}

/// The clip on a line, which may have blanks around it.
fn number_of(line: &[u8]) -> Option<u16> {
    let text = std::str::from_utf8(line.trim_ascii()).ok()?;
    let number = (!text.is_empty()).then(|| read_number(text))??;
    u16::try_from(number).ok()
}

/// Why a line has no clip.
fn why_not(line: &[u8]) -> String {
    match line.trim_ascii() {
        [] => "empty, and every line has the clip of one name".to_string(),
        line => format!("{} is no clip; clips are 0 to 65,535", named(line)),
    }
}

#[cfg(test)]
mod tests {
    use super::*;

    #[test]
    fn a_clip_is_a_number_of_two_bytes() {
        for (line, clip) in [
            ("0", 0),
            ("007", 7),
            ("65535", 65_535),
            ("65,535", 65_535),
            (" 301\t", 301),
        ] {
            assert_eq!(number_of(line.as_bytes()), Some(clip), "{line:?}");
        }
        for line in [
            "", " ", "65536", "-1", "+1", "1 2", "1.0", "0x1", "6,5", "x", "\u{661}",
        ] {
            assert_eq!(number_of(line.as_bytes()), None, "{line:?}");
        }
        assert_eq!(number_of(b"\xFF"), None);
    }

    #[test]
    fn a_bad_line_is_told_as_it_is() {
        assert!(why_not(b" \t").starts_with("empty, "));
        assert!(why_not(b" a\x1B ").starts_with("a\\1B is no clip; "));
    }
}
