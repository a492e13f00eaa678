//! `stopbook salvage`: the names that are left of a damaged book.

use crate::args::{Shape, Words};
use crate::empty::{self, EMPTY};
use crate::layout;
use crate::lines::Lines;
use crate::loss::{self, Block};
use crate::outcome::{Failure, Outcome, Status, Streams};
use crate::{book, files, help, Command};
use mistrogu::{BookKind, Refusal, Report, Salvaged, MOST_SALVAGED};
use std::ffi::OsStr;

/// The command.
pub const COMMAND: Command = Command {
    name: "salvage",
    shape: Shape {
        valued: &["-o", "--output"],
        flags: &[EMPTY],
    },
    help: help::SALVAGE,
    run,
};

/// Salvages a damaged book.
fn run(words: &Words, streams: &mut Streams) -> Outcome {
    let [input] = words.plain.as_slice() else {
        return Err(Failure::usage("give one damaged book, or -"));
    };
    let output = words.output().map_err(Failure::Usage)?;
    let output = output.unwrap_or(OsStr::new("-"));
    files::spare_input(input, output)?;
    let source = files::input_name(input);
    let data = book::read(input)?;
    let mut room = vec![0; MOST_SALVAGED];
    let mut report: Report = Report::new();
    let salvaged = mistrogu::salvage(&data, &mut room, &mut report).map_err(|refusal| {
        let why = why_not(&data, refusal);
        Failure::refused(format!("{source} cannot be salvaged: {why}"))
    })?;
    let none_left = format!("{source} has no names left");
    let spared = empty::spare(salvaged.names().count(), words, &none_left);
    if spared.is_ok() {
        write(salvaged, output, &source, streams)?;
    }
    for sentence in loss::sentences(&blocks(&data, salvaged)) {
        streams.note(&format!("{source}: {sentence}"));
    }
    spared?;
    Ok(if salvaged.is_whole() {
        Status::Done
    } else {
        Status::Lost
    })
}

/// Why nothing can be salvaged.
fn why_not(data: &[u8], refusal: Refusal) -> String {
    match BookKind::of_marked(data) {
        Some(kind @ (BookKind::Folded | BookKind::Columns)) => format!(
            "it is marked as a {} book, and only plain ones can be; \
             build it again from its names",
            kind.name()
        ),
        Some(BookKind::Plain) | None => refusal.to_string(),
    }
}

/// Writes the names that are left.
fn write(
    salvaged: Salvaged,
    output: &OsStr,
    source: &str,
    streams: &mut Streams,
) -> Result<(), Failure> {
    let mut lines = Lines::default();
    for name in salvaged.names() {
        lines.push(name);
    }
    files::write(output, lines.text(), streams)?;
    lines.tell_escaped(source, streams);
    Ok(())
}

/// The blocks of a damaged book, with how many names each has or had.
fn blocks<'a>(data: &[u8], salvaged: Salvaged<'a>) -> Vec<Block<'a>> {
    let trailer = layout::trailer(data);
    let (mut left, block) = trailer.map_or((0, 0), |trailer| (trailer.names, trailer.block));
    salvaged
        .blocks()
        .map(|found| {
            let names = block.min(left);
            left -= names;
            let ends = match found {
                mistrogu::Block::Kept(kept) => ends(kept),
                mistrogu::Block::Dropped => None,
            };
            Block { names, ends }
        })
        .collect()
}

/// The first and the last name of a block.
fn ends<'a>(mut names: mistrogu::Names<'a>) -> Option<[&'a [u8]; 2]> {
    let first = names.next()?;
    Some([first, names.last().unwrap_or(first)])
}
