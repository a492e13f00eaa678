//! The calls, each with its refusals in their order.

use crate::asking::Sound;
use crate::building::{judge, Noted};
use crate::checking::check;
use crate::converting;
use crate::merging::{self, Pair};
use crate::rules::{Columns, Folded, Plain, Rule};
use crate::salvaging::{self, Judged};
use crate::{LARGEST_BLOCK, LONGEST_BOOK, LONGEST_NAME, MOST_NAMES};

/// What every call gives back but a single question, and what an answer row of a
/// batch holds.
#[derive(Clone, Copy, Debug, PartialEq, Eq, Default)]
#[repr(C)]
pub struct Answer {
    /// 0 where the call is accepted, else the number of the refusal.
    pub code: usize,
    /// The first number of the answer.
    pub first: usize,
    /// The second number of the answer.
    pub second: usize,
}

/// What a single question gives back: an answer's three numbers, and how far it
/// looked.
#[derive(Clone, Copy, Debug, PartialEq, Eq, Default)]
#[repr(C)]
pub struct Counted {
    /// 0 where the question is accepted, else the number of the refusal.
    pub code: usize,
    /// The first number of the answer.
    pub first: usize,
    /// The second number of the answer.
    pub second: usize,
    /// How many nodes were visited going down, the root and the last one counted.
    pub visits: usize,
    /// How many entries were read to rebuild the one name that was compared.
    pub entries: usize,
}

impl Counted {
    /// The three numbers, as a batch row has them.
    #[inline(always)]
    pub fn answer(self) -> Answer {
        Answer {
            code: self.code,
            first: self.first,
            second: self.second,
        }
    }
}

/// A question row of a batch: its kind and its span of the question buffer.
#[derive(Clone, Copy, Debug, PartialEq, Eq, Default)]
#[repr(C)]
pub struct Row {
    /// 1 exact, 2 place, 3 range, 4 nearest, 5 width.
    pub kind: usize,
    /// Where the question begins in the buffer.
    pub start: usize,
    /// How many bytes the question has.
    pub length: usize,
}

/// A report row of a salvage.
#[derive(Clone, Copy, Debug, PartialEq, Eq, Default)]
#[repr(C)]
pub struct Kept {
    /// 1 where the block is kept, 0 where it is dropped.
    pub kept: usize,
    /// How many names of it are written.
    pub names: usize,
}

/// A head of two lists: in which it stands, 1 or 2, where its first byte is
/// there, and how many bytes it has.
#[derive(Clone, Copy, Debug, PartialEq, Eq)]
#[repr(C)]
pub struct Head {
    /// The list's number.
    pub list: usize,
    /// The place of its first byte, behind the length byte.
    pub start: usize,
    /// How many bytes it has.
    pub length: usize,
}

impl Head {
    /// The empty part of the first list.
    pub const EMPTY: Head = Head {
        list: 1,
        start: 0,
        length: 0,
    };
}

/// A batch has 0 to 64 rows.
const MOST_ROWS: usize = 64;
/// A route has 0 to 120 positions.
const MOST_STOPS: usize = 120;

/// Code 0 and the two numbers of the answer.
fn accepted(first: usize, second: usize) -> Answer {
    Answer {
        code: 0,
        first,
        second,
    }
}

/// A refusal, and the record's number where it has one.
pub(crate) fn refused(code: usize, first: usize) -> Answer {
    Answer {
        code,
        first,
        second: 0,
    }
}

/// A refused question, which has looked at nothing.
fn unlooked(code: usize) -> Counted {
    Counted {
        code,
        ..Counted::default()
    }
}

/// Builds a plain book. Refusals: 8; of each record in turn 5, 6 and 7; 9; 4.
pub fn book_build(list: &[u8], block: usize, room: &mut [u8]) -> Answer {
    build::<Plain>(list, block, room)
}

/// Builds a folded book. Refusals as of a plain one, with 6 by letters.
pub fn book_build_folded(list: &[u8], block: usize, room: &mut [u8]) -> Answer {
    build::<Folded>(list, block, room)
}

/// Builds a book of this kind.
#[inline(always)]
fn build<R: Rule>(list: &[u8], block: usize, room: &mut [u8]) -> Answer {
    if !(1..=LARGEST_BLOCK).contains(&block) {
        return refused(8, 0);
    }
    let mut noted = Noted::<R>::default();
    if let Err(answer) = judge(list, &mut noted) {
        return answer;
    }
    let sizes = noted.sizes(block);
    let length = sizes.book();
    if length > LONGEST_BOOK {
        return refused(9, 0);
    }
    if room.len() < length {
        return refused(4, 0);
    }
    // SAFETY: the list was judged, and the room is long enough.
    unsafe { noted.write(list, block, sizes, room) };
    accepted(length, 0)
}

/// Checks a book of any kind: n and k. Refusal: 2.
pub fn book_check(book: &[u8]) -> Answer {
    let parts = if Folded::marks(book) {
        check::<Folded>(book)
    } else if Columns::marks(book) {
        check::<Columns>(book)
    } else {
        check::<Plain>(book)
    };
    match parts {
        None => refused(2, 0),
        Some(parts) => accepted(parts.names, parts.block),
    }
}

/// Turns a plain book into a column book: its length. Refusals: 2, 4.
pub fn book_to_columns(book: &[u8], room: &mut [u8]) -> Answer {
    convert::<Plain, Columns>(book, room)
}

/// Turns a column book into a plain book: its length. Refusals: 2, 4.
pub fn book_from_columns(book: &[u8], room: &mut [u8]) -> Answer {
    convert::<Columns, Plain>(book, room)
}

/// Turns a book of one kind into one of another.
fn convert<From: Rule, To: Rule>(book: &[u8], room: &mut [u8]) -> Answer {
    let Some(parts) = check::<From>(book) else {
        return refused(2, 0);
    };
    if room.len() < book.len() {
        return refused(4, 0);
    }
    // SAFETY: the check gave these parts, and the room is long enough.
    unsafe { converting::write::<From, To>(book, parts, room) };
    accepted(book.len(), 0)
}

/// A book of any kind.
#[derive(Clone, Copy)]
enum Book<'lent> {
    Plain(Sound<'lent, Plain>),
    Folded(Sound<'lent, Folded>),
    Columns(Sound<'lent, Columns>),
}

/// The book, if it is one; its mark says of which kind.
fn sound(book: &[u8]) -> Option<Book<'_>> {
    if Folded::marks(book) {
        sound_as(book).map(Book::Folded)
    } else if Columns::marks(book) {
        sound_as(book).map(Book::Columns)
    } else {
        sound_as(book).map(Book::Plain)
    }
}

/// The book, if it is one of this kind.
fn sound_as<R: Rule>(book: &[u8]) -> Option<Sound<'_, R>> {
    let parts = check::<R>(book)?;
    // SAFETY: the check gave these parts.
    Some(unsafe { Sound::new(book, parts) })
}

impl Book<'_> {
    /// A question. Refusals: 1, 10.
    #[inline(always)]
    fn ask(self, kind: usize, question: &[u8]) -> Counted {
        match self {
            Book::Plain(sound) => ask(sound, kind, question),
            Book::Folded(sound) => ask(sound, kind, question),
            Book::Columns(sound) => ask(sound, kind, question),
        }
    }

    /// How many names it has.
    fn names(self) -> usize {
        match self {
            Book::Plain(sound) => sound.names(),
            Book::Folded(sound) => sound.names(),
            Book::Columns(sound) => sound.names(),
        }
    }

    /// Reads a name back. Refusals: 3, 4.
    #[inline(always)]
    fn read(self, position: usize, room: &mut [u8]) -> Answer {
        match self {
            Book::Plain(sound) => read(sound, position, room),
            Book::Folded(sound) => read(sound, position, room),
            Book::Columns(sound) => read(sound, position, room),
        }
    }
}

/// Reads a name back by its position. Refusals: 2, 3, 4.
pub fn book_read(book: &[u8], position: usize, room: &mut [u8]) -> Answer {
    match sound(book) {
        None => refused(2, 0),
        Some(book) => book.read(position, room),
    }
}

/// Reads a name of a book that was checked. Refusals: 3, 4.
#[inline(always)]
fn read<R: Rule>(sound: Sound<R>, position: usize, room: &mut [u8]) -> Answer {
    if position >= sound.names() {
        return refused(3, 0);
    }
    // SAFETY: there is such a position.
    match unsafe { sound.read(position, room) } {
        None => refused(4, 0),
        Some(length) => accepted(length, 0),
    }
}

/// Exact: (position, 1) where a name equals the question. Refusals: 2, 1.
pub fn book_exact(book: &[u8], question: &[u8]) -> Counted {
    ask_book(book, 1, question)
}

/// Place: how many names are less than the question. Refusals: 2, 1.
pub fn book_place(book: &[u8], question: &[u8]) -> Counted {
    ask_book(book, 2, question)
}

/// Range: the question's place and how many names begin with it. Refusals:
/// 2, 1.
pub fn book_range(book: &[u8], question: &[u8]) -> Counted {
    ask_book(book, 3, question)
}

/// Nearest: a position and how many leading bytes of the question to light there.
/// Refusals: 2, 1, 10.
pub fn book_nearest(book: &[u8], question: &[u8]) -> Counted {
    ask_book(book, 4, question)
}

/// Width: the greatest length of a name of the range. Refusals: 2, 1.
pub fn book_width(book: &[u8], question: &[u8]) -> Counted {
    ask_book(book, 5, question)
}

/// A single question.
fn ask_book(book: &[u8], kind: usize, question: &[u8]) -> Counted {
    match sound(book) {
        None => unlooked(2),
        Some(book) => book.ask(kind, question),
    }
}

/// A question to a book that was checked. Refusals: 1, 10.
fn ask<R: Rule>(sound: Sound<R>, kind: usize, question: &[u8]) -> Counted {
    if question.len() > LONGEST_NAME {
        return unlooked(1);
    }
    let found = match kind {
        1 => Some(sound.exact(question)),
        2 => Some(sound.place(question)),
        3 => Some(sound.range(question)),
        4 => sound.nearest(question),
        _ => Some(sound.width(question)),
    };
    match found {
        None => unlooked(10),
        Some(found) => Counted {
            code: 0,
            first: found.first,
            second: found.second,
            visits: found.visits,
            entries: found.entries,
        },
    }
}

/// A batch of questions. Refusals: 12, 2. Those of a row (11, 1, 10) go into the
/// row's own answer.
pub fn book_batch(book: &[u8], questions: &[u8], rows: &[Row], answers: &mut [Answer]) -> Answer {
    if rows.len() > MOST_ROWS || rows.len() != answers.len() {
        return refused(12, 0);
    }
    let Some(book) = sound(book) else {
        return refused(2, 0);
    };
    for (row, answer) in rows.iter().zip(answers) {
        let end = row.start.checked_add(row.length);
        let question = end.and_then(|end| questions.get(row.start..end));
        *answer = match question {
            Some(question) if (1..=5).contains(&row.kind) => book.ask(row.kind, question).answer(),
            _ => refused(11, 0),
        };
    }
    accepted(rows.len(), 0)
}

/// Salvages a damaged book: how many bytes of list records are written. Refusals:
/// 13, 12, 4.
pub fn book_salvage(data: &[u8], room: &mut [u8], report: &mut [Kept]) -> Answer {
    let Some(parts) = salvaging::map(data) else {
        return refused(13, 0);
    };
    if report.len() != parts.blocks() {
        return refused(12, 0);
    }
    // SAFETY: the map gave these parts.
    let judged = unsafe { Judged::new(data, parts) };
    if room.len() < judged.length() {
        return refused(4, 0);
    }
    // SAFETY: the room is long enough, and there is a row for each block.
    unsafe { judged.write(room, report) };
    accepted(judged.length(), 0)
}

/// Both lists, if they are lists. Refusals: 5 and 6 of the first, then of the
/// second, with the record's number and the list's.
fn judged<'lent>(first: &'lent [u8], second: &'lent [u8]) -> Result<Pair<'lent>, Answer> {
    for (list, number) in [(first, 1), (second, 2)] {
        merging::judge(list).map_err(|(code, record)| Answer {
            code,
            first: record,
            second: number,
        })?;
    }
    // SAFETY: both were judged.
    Ok(unsafe { Pair::new(first, second) })
}

/// Merges two lists: how many bytes are written. Refusals: those of the lists;
/// 7, with the number 2,000; 4.
pub fn list_merge(first: &[u8], second: &[u8], room: &mut [u8]) -> Answer {
    let pair = match judged(first, second) {
        Err(answer) => return answer,
        Ok(pair) => pair,
    };
    let Some(length) = pair.merged_length() else {
        return refused(7, MOST_NAMES);
    };
    if room.len() < length {
        return refused(4, 0);
    }
    // SAFETY: the room is long enough.
    unsafe { pair.write(room) };
    accepted(length, 0)
}

/// Judges two lists. Refusals: those of the lists.
pub fn list_judge(first: &[u8], second: &[u8]) -> Answer {
    match judged(first, second) {
        Err(answer) => answer,
        Ok(_) => accepted(0, 0),
    }
}

/// The lesser of the two heads behind so many records of each list; the empty
/// part where both have ended, or where a list is refused.
pub fn list_head(first: &[u8], second: &[u8], passed_first: usize, passed_second: usize) -> Head {
    match judged(first, second) {
        Err(_) => Head::EMPTY,
        Ok(pair) => pair.head(passed_first, passed_second),
    }
}

/// The clip for a text: (1, clip) of the name that equals it, or else of the only one
/// that begins with it; (0, how many names begin with it) where there is neither.
/// Refusals: 2, 16, 1.
pub fn announce_clip(book: &[u8], clips: &[u16], text: &[u8]) -> Answer {
    if Columns::marks(book) {
        return refused(2, 0);
    }
    let Some(book) = sound(book) else {
        return refused(2, 0);
    };
    if clips.len() != book.names() {
        return refused(16, 0);
    }
    // SAFETY: every position is below the number of names.
    let spoken = |position| accepted(1, unsafe { clip_at(clips, position) }.into());
    let exact = book.ask(1, text);
    match (exact.code, exact.second) {
        (0, 0) => {}
        (0, _) => return spoken(exact.first),
        (code, _) => return refused(code, 0),
    }
    let range = book.ask(3, text);
    match range.second {
        1 => spoken(range.first),
        names => accepted(0, names),
    }
}

/// The clips of a route: how many bytes are written. Refusals: 2, 16, 12; 3, with the
/// place of the first bad position; 4.
pub fn announce_route(book: &[u8], clips: &[u16], positions: &[usize], room: &mut [u16]) -> Answer {
    let checked = book_check(book);
    if checked.code != 0 || Columns::marks(book) {
        return refused(2, 0);
    }
    if clips.len() != checked.first {
        return refused(16, 0);
    }
    if positions.len() > MOST_STOPS {
        return refused(12, 0);
    }
    if let Some(bad) = positions.iter().position(|&at| at >= clips.len()) {
        return refused(3, bad);
    }
    if room.len() < positions.len() {
        return refused(4, 0);
    }
    for (place, &position) in room.iter_mut().zip(positions) {
        // SAFETY: no position is bad.
        *place = unsafe { clip_at(clips, position) };
    }
    accepted(2 * positions.len(), 0)
}

/// The clip at a position.
///
/// # Safety
///
/// There has to be such a position.
#[inline(always)]
unsafe fn clip_at(clips: &[u16], position: usize) -> u16 {
    debug_assert!(position < clips.len());
    // SAFETY: there is such a position.
    unsafe { *clips.get_unchecked(position) }
}
