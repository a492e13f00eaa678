//! The announcer, which stands above the book: a typed text becomes the clip that
//! is spoken, and a route a row of clips.
//!
//! Renders document 02, change request 9. A clip is told by a number of two bytes.
//! The clip table has one for each name, at the name's position. Both calls take any
//! bytes and any numbers, and a book of either symbol rule; equal names and
//! beginnings go by the book's own.

use crate::calls::{accepted, refused, refused_item, write_out, Answer, LONGEST_QUESTION};
use crate::kinds::BookKind;
use crate::names::Rule;
use crate::open::open;
use crate::questions::{exact, range};
use crate::refusals::{
    BAD_CLIP_COUNT, BAD_ROW_COUNT, NO_BOOK, NO_SUCH_POSITION, QUESTION_TOO_LONG,
};

/// A route has 0 to 120 positions.
pub const MOST_POSITIONS: usize = 120;

/// The clip of a typed text: a 1 and the clip of the name that equals the text;
/// otherwise, where exactly one name begins with it, a 1 and that name's clip;
/// otherwise a 0 and how many names begin with it. Refusals, in this order: 2; 16;
/// 1.
pub fn announce_clip(book: &[u8], clips: &[u16], text: &[u8]) -> Answer {
    let (rule, names) = match open_with_clips(book, clips) {
        Err(code) => return refused(code),
        Ok(opened) => opened,
    };
    if text.len() > LONGEST_QUESTION {
        return refused(QUESTION_TOO_LONG);
    }
    if let (position, 1) = exact(rule, &names, text) {
        return accepted(1, usize::from(clips[position]));
    }
    match range(rule, &names, text) {
        (position, 1) => accepted(1, usize::from(clips[position])),
        (_, count) => accepted(0, count),
    }
}

/// Writes the clip of each position of a route to the front of the room, in the
/// route's order, and gives the bytes written: two for each. Refusals, in this
/// order: 2; 16; 12; 3 with the index of the first bad position, from 0; 4. A
/// refused call writes nothing.
pub fn announce_route(book: &[u8], clips: &[u16], positions: &[usize], room: &mut [u16]) -> Answer {
    let (_, names) = match open_with_clips(book, clips) {
        Err(code) => return refused(code),
        Ok(opened) => opened,
    };
    if positions.len() > MOST_POSITIONS {
        return refused(BAD_ROW_COUNT);
    }
    let mut row = Vec::new();
    for (index, &position) in positions.iter().enumerate() {
        if position >= names.len() {
            return refused_item(NO_SUCH_POSITION, index);
        }
        row.push(clips[position]);
    }
    write_out(&row, room)
}

/// The rule and the names of a full book with as many clips as names. Refusals: 2,
/// 16.
fn open_with_clips(book: &[u8], clips: &[u16]) -> Result<(Rule, Vec<Vec<u8>>), usize> {
    let (rule, names) = open_full(book).ok_or(NO_BOOK)?;
    if clips.len() != names.len() {
        return Err(BAD_CLIP_COUNT);
    }
    Ok((rule, names))
}

/// The rule and the names of a full book, or nothing where the bytes are none. The
/// announcer serves full books of either rule and no other kind (change request
/// 14).
fn open_full(book: &[u8]) -> Option<(Rule, Vec<Vec<u8>>)> {
    let (kind, _, names) = open(book)?;
    match kind {
        BookKind::Plain | BookKind::Folded => Some((kind.rule(), names)),
        BookKind::Columns => None,
    }
}
