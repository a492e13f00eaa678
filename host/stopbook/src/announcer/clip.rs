//! `stopbook clip`: the clip for a text.

use super::{table, NOTHING, TSV};
use crate::args::{Shape, Words};
use crate::book::Book;
use crate::outcome::{Failure, Outcome, Status, Streams};
use crate::text::{counted, grouped, named, shown};
use crate::{help, Command};
use mistrogu::{Refusal, Spoken, LONGEST_NAME};
use std::os::unix::ffi::OsStrExt;

/// The command.
pub const COMMAND: Command = Command {
    name: "clip",
    shape: Shape {
        valued: &[],
        flags: &[TSV],
    },
    help: help::CLIP,
    run,
};

/// Tells the clip.
fn run(words: &Words, streams: &mut Streams) -> Outcome {
    let [book, clips, text] = words.plain.as_slice() else {
        return Err(Failure::usage(match words.plain.len() {
            0..3 => "give a book, a text of clips and what is typed",
            _ => "give one text; put quotes around one that has blanks",
        }));
    };
    let (mut book, clips) = table::open(book, clips, streams)?;
    let text = text.as_bytes();
    let spoken = mistrogu::clip(book.bytes(), &clips, text);
    if words.has(TSV) {
        streams.out.write_all(fields(spoken, text).as_bytes())?;
    }
    let spoken = spoken.map_err(|refusal| refused(&book, text, refusal))?;
    if !words.has(TSV) {
        let sentence = tell(&mut book, text, spoken)?;
        streams.out.write_all(sentence.as_bytes())?;
    }
    Ok(match spoken {
        Spoken::Clip(_) => Status::Done,
        Spoken::Names(_) => Status::No,
    })
}

/// The line for programs.
fn fields(spoken: Result<Spoken, Refusal>, text: &[u8]) -> String {
    let (answer, clip, names) = match spoken {
        Ok(Spoken::Clip(clip)) => ("yes", clip.to_string(), NOTHING.to_string()),
        Ok(Spoken::Names(names)) => ("no", NOTHING.to_string(), names.to_string()),
        Err(_) => ("refused", NOTHING.to_string(), NOTHING.to_string()),
    };
    format!("{answer}\t{clip}\t{names}\t{}\n", shown(text))
}

/// The sentence for people. Of a clip it also has the name that is spoken.
fn tell(book: &mut Book, text: &[u8], spoken: Spoken) -> Result<String, Failure> {
    let typed = named(text);
    match spoken {
        Spoken::Names(0) => Ok(format!("no clip: no name begins with {typed}\n")),
        Spoken::Names(names) => {
            let names = counted(names, "name");
            Ok(format!("no clip: {names} begin with {typed}\n"))
        }
        Spoken::Clip(clip) => {
            let exact = mistrogu::exact(book.bytes(), text);
            let exact = exact.map_err(|refusal| refused(book, text, refusal))?;
            let (position, why) = match exact {
                Some(position) => (position, String::new()),
                None => {
                    let range = mistrogu::range(book.bytes(), text);
                    let range = range.map_err(|refusal| refused(book, text, refusal))?;
                    let why = format!(", the only name that begins with {typed}");
                    (range.start, why)
                }
            };
            let name = shown(book.name(position)?);
            let (clip, position) = (grouped(usize::from(clip)), grouped(position));
            Ok(format!("clip {clip}: {name}, stop {position}{why}\n"))
        }
    }
}

/// Why there is no answer.
fn refused(book: &Book, text: &[u8], refusal: Refusal) -> Failure {
    Failure::refused(match refusal {
        Refusal::QuestionTooLong => format!(
            "the text has {}, and {LONGEST_NAME} are the most; shorten it",
            counted(text.len(), "byte")
        ),
        other => format!("{}: {other}", book.source()),
    })
}

#[cfg(test)]
mod tests {
    use super::*;

    #[test]
    fn every_line_has_four_fields() {
        for (spoken, line) in [
            (Ok(Spoken::Clip(65_535)), "yes\t65535\t-\tMar\n"),
            (Ok(Spoken::Names(0)), "no\t-\t0\tMar\n"),
            (Ok(Spoken::Names(1_200)), "no\t-\t1200\tMar\n"),
            (Err(Refusal::QuestionTooLong), "refused\t-\t-\tMar\n"),
        ] {
            assert_eq!(fields(spoken, b"Mar"), line);
        }
        let line = fields(Ok(Spoken::Names(0)), b"a\tb\n");
        assert_eq!(line, "no\t-\t0\ta\\09b\\0A\n");
    }
}
