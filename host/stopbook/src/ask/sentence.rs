//! Answers as sentences, with the names in them.

use super::question::Question;
use crate::book::Book;
use crate::light::Light;
use crate::outcome::Failure;
use crate::text::{counted, grouped, named, shown};
use mistrogu::counted::Looked;
use mistrogu::{BookKind, Nearest, Refusal, Reply, LONGEST_NAME};
use std::ops::Range;

/// Tells what a question got, in one line or more. Of a range no more names than the
/// limit; of the nearest name the first letters in this light.
pub fn tell(
    book: &mut Book,
    question: &Question,
    reply: &Reply,
    limit: usize,
    light: Light,
) -> Result<String, Failure> {
    let text = &question.text;
    match reply {
        Reply::Exact(Some(position)) => tell_stop(book, text, *position),
        Reply::Exact(None) => no_stop(book, text),
        Reply::Place(place) => tell_place(book, text, *place),
        Reply::Range(range) if range.is_empty() => no_range(book, text, range.start),
        Reply::Range(range) => tell_range(book, text, range.clone(), limit),
        Reply::Nearest(nearest) => tell_nearest(book, text, *nearest, light),
        Reply::Width(width) => Ok(tell_width(text, *width)),
    }
}

/// Tells how far a question looked, in a line that goes behind its answer; nothing
/// where that is not told.
pub fn tell_looked(looked: Option<Looked>) -> String {
    let Some(Looked { visits, entries }) = looked else {
        return String::new();
    };
    let nodes = counted(visits, "node");
    let entries = match entries {
        1 => "1 entry".to_string(),
        _ => format!("{} entries", grouped(entries)),
    };
    format!("  looked at {nodes} and {entries}\n")
}

/// Why a question was refused.
pub fn refusal(book: &Book, question: &Question, refusal: Refusal) -> Failure {
    let source = book.source();
    Failure::refused(match refusal {
        Refusal::QuestionTooLong => format!(
            "the question has {}, and {LONGEST_NAME} are the most; shorten it",
            counted(question.text.len(), "byte")
        ),
        Refusal::NoNames => format!("{source} has no names, so none is nearest"),
        other => format!("{source}: {other}"),
    })
}

/// A question that is a stop. A folded book may spell it otherwise, which is told.
fn tell_stop(book: &mut Book, text: &[u8], position: usize) -> Result<String, Failure> {
    let spelt = match book.kind() {
        // No name is read for it: it is the question.
        BookKind::Plain | BookKind::Columns => String::new(),
        BookKind::Folded => match book.name(position)? {
            name if name == text => String::new(),
            name => format!(", spelt {}", shown(name)),
        },
    };
    let (text, position) = (named(text), grouped(position));
    Ok(format!("{text} is stop {position}{spelt}\n"))
}

/// A question that is no stop, and where it would stand.
fn no_stop(book: &mut Book, text: &[u8]) -> Result<String, Failure> {
    let place = mistrogu::place(book.bytes(), text)
        .map_err(|refusal| Failure::refused(format!("{}: {refusal}", book.source())))?;
    let between = between(book, place, place)?;
    let text = named(text);
    Ok(format!("{text} is no stop; it would stand {between}\n"))
}

/// Where a question stands or would stand. A stop has its place as position.
fn tell_place(book: &mut Book, text: &[u8], place: usize) -> Result<String, Failure> {
    let is_stop = place < book.names() && book.name(place)? == text;
    let (stands, after) = match is_stop {
        true => ("stands", place + 1),
        false => ("would stand", place),
    };
    let between = between(book, place, after)?;
    let (text, place) = (named(text), grouped(place));
    Ok(format!("{text} {stands} at {place}, {between}\n"))
}

/// Between which names something stands that has so many before it, and this
/// position behind it.
fn between(book: &mut Book, place: usize, after: usize) -> Result<String, Failure> {
    let before = match place.checked_sub(1) {
        Some(position) => Some(shown(book.name(position)?)),
        None => None,
    };
    let behind = match after < book.names() {
        true => Some(shown(book.name(after)?)),
        false => None,
    };
    Ok(match (before, behind) {
        (Some(before), Some(behind)) => format!("between {before} and {behind}"),
        (Some(before), None) => format!("last, after {before}"),
        (None, Some(behind)) => format!("first, before {behind}"),
        (None, None) => "alone".to_string(),
    })
}

/// A question that begins no name.
fn no_range(book: &mut Book, text: &[u8], place: usize) -> Result<String, Failure> {
    let between = between(book, place, place)?;
    let text = named(text);
    Ok(format!(
        "no name begins with {text}; it would stand {between}\n"
    ))
}

/// The names that begin with a question, each with its position.
fn tell_range(
    book: &mut Book,
    text: &[u8],
    range: Range<usize>,
    limit: usize,
) -> Result<String, Failure> {
    let begin = match range.len() {
        1 => "begins",
        _ => "begin",
    };
    let count = counted(range.len(), "name");
    let mut lines = format!("{count} {begin} with {}\n", named(text));
    for position in range.clone().take(limit) {
        let name = shown(book.name(position)?);
        let position = grouped(position);
        lines.push_str(&format!("  {position} {name}\n"));
    }
    if range.len() > limit {
        let more = grouped(range.len() - limit);
        lines.push_str(&format!("  and {more} more\n"));
    }
    Ok(lines)
}

/// The name that shares most, with as many of its first bytes lit as the library
/// lights of the question: they are the same letters.
fn tell_nearest(
    book: &mut Book,
    text: &[u8],
    nearest: Nearest,
    light: Light,
) -> Result<String, Failure> {
    let Nearest { position, lit } = nearest;
    let name = book.name(position)?;
    let (text, position) = (named(text), grouped(position));
    if lit == 0 {
        let shown = shown(name);
        return Ok(format!(
            "no name shares a beginning with {text}; the search ends at {shown}, stop {position}\n"
        ));
    }
    let (marked, bytes) = (light.marked(name, lit), counted(lit, "byte"));
    Ok(format!(
        "nearest to {text} is {marked}, stop {position}; {bytes} lit\n"
    ))
}

/// How long the longest name is that begins with a question. Only an empty range
/// has no length, since no name is empty.
fn tell_width(text: &[u8], width: usize) -> String {
    let text = named(text);
    match width {
        0 => format!("no name begins with {text}, so the width is 0\n"),
        _ => {
            let bytes = counted(width, "byte");
            format!("the longest name that begins with {text} has {bytes}\n")
        }
    }
}
