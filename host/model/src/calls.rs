//! The public calls that have to do with a book; those of two lists stand in
//! `merging`, that of a worn card in `salvage`, those of the announcer in
//! `announcer`, and those that turn one kind of book into another in `converting`.
//!
//! Renders what document 01 says below the table of refusals: in which order
//! each call looks for a refusal, what stands beside the code, and what is
//! then in the lent room or rows. Every call takes any bytes and any numbers. Only
//! building is told the kind of book; all other calls go by the book's mark.

use crate::kinds::BookKind;
use crate::layout::{book_of, LARGEST_BLOCK, LONGEST_BOOK};
use crate::names::{read_list, Rule, LONGEST_NAME};
use crate::open::open;
use crate::questions::{exact, look, nearest, place, range, width, Kind, Look};
use crate::refusals::{
    BAD_BLOCK_SIZE, BAD_ROW, BAD_ROW_COUNT, BOOK_TOO_LONG, NEAREST_OF_NONE, NO_BOOK,
    NO_SUCH_POSITION, QUESTION_TOO_LONG, ROOM_TOO_SHORT,
};

/// A question has 0 to 200 bytes: as many as the longest name.
pub const LONGEST_QUESTION: usize = LONGEST_NAME;
/// A batch has 0 to 64 rows.
pub const MOST_ROWS: usize = 64;

/// What every call gives back but a single question, and what an answer row of a
/// batch holds.
#[derive(Clone, Copy, Debug, PartialEq, Eq, Default)]
pub struct Answer {
    /// 0 where the call is accepted, else the number of the refusal.
    pub code: usize,
    /// The first number of the answer.
    pub first: usize,
    /// The second number of the answer.
    pub second: usize,
}

/// What a single question gives back: an answer's three numbers, and how far it
/// looked.
#[derive(Clone, Copy, Debug, PartialEq, Eq, Default)]
pub struct Counted {
    /// 0 where the question is accepted, else the number of the refusal.
    pub code: usize,
    /// The first number of the answer.
    pub first: usize,
    /// The second number of the answer.
    pub second: usize,
    /// How many nodes were visited going down, the root and the last one counted.
    pub visits: usize,
    /// How many entries were read to rebuild the one name that was compared.
    pub entries: usize,
}

impl Counted {
    /// The answer, for a question that looked so far.
    pub fn of(answer: Answer, look: Look) -> Counted {
        Counted {
            code: answer.code,
            first: answer.first,
            second: answer.second,
            visits: look.visits,
            entries: look.entries,
        }
    }

    /// The three numbers, as a batch row has them.
    pub fn answer(self) -> Answer {
        Answer {
            code: self.code,
            first: self.first,
            second: self.second,
        }
    }
}

/// A question row of a batch: its kind and its span of the question buffer.
#[derive(Clone, Copy, Debug, PartialEq, Eq, Default)]
pub struct Row {
    /// 1 exact, 2 place, 3 range, 4 nearest, 5 width.
    pub kind: usize,
    /// Where the question begins in the buffer.
    pub start: usize,
    /// How many bytes the question has.
    pub length: usize,
}

/// Code 0 and the two numbers of the answer.
pub(crate) fn accepted(first: usize, second: usize) -> Answer {
    Answer {
        code: 0,
        first,
        second,
    }
}

/// A refusal; the numbers beside it are 0.
pub(crate) fn refused(code: usize) -> Answer {
    refused_item(code, 0)
}

/// A refusal of one item, which brings the item's number from 0: of a list record,
/// or of a route's position.
pub(crate) fn refused_item(code: usize, item: usize) -> Answer {
    refused_in_list(code, item, 0)
}

/// A refusal where there are two lists, which brings a record's number and the
/// list's: 1 or 2, and 0 where it is neither.
pub(crate) fn refused_in_list(code: usize, record: usize, list: usize) -> Answer {
    Answer {
        code,
        first: record,
        second: list,
    }
}

/// Writes the output, bytes or clips, to the front of the room and gives how many
/// bytes it has, or refuses with 4 and writes nothing.
pub(crate) fn write_out<T: Copy>(output: &[T], room: &mut [T]) -> Answer {
    match room.get_mut(..output.len()) {
        None => refused(ROOM_TOO_SHORT),
        Some(front) => {
            front.copy_from_slice(output);
            accepted(size_of_val(output), 0)
        }
    }
}

/// Builds a plain book. Refusals, in this order: 8; of each record in turn 5, 6
/// and 7; 9; 4.
pub fn book_build(list: &[u8], block: usize, room: &mut [u8]) -> Answer {
    build_kind(BookKind::Plain, list, block, room)
}

/// Builds a folded book. Refusals as for a plain one; 6 goes by symbols, so it is
/// also given to a name that is equal to the one before once both are folded.
pub fn book_build_folded(list: &[u8], block: usize, room: &mut [u8]) -> Answer {
    build_kind(BookKind::Folded, list, block, room)
}

/// Builds a book of this kind. No call builds a column book so; it is what
/// conversion is held to.
pub fn build_kind(kind: BookKind, list: &[u8], block: usize, room: &mut [u8]) -> Answer {
    if !(1..=LARGEST_BLOCK).contains(&block) {
        return refused(BAD_BLOCK_SIZE);
    }
    let names = match read_list(kind.rule(), list) {
        Err((code, record)) => return refused_item(code, record),
        Ok(names) => names,
    };
    let book = book_of(kind, block, &names);
    if book.len() > LONGEST_BOOK {
        return refused(BOOK_TOO_LONG);
    }
    write_out(&book, room)
}

/// Checks a book of any kind: n and k. Refusal: 2.
pub fn book_check(book: &[u8]) -> Answer {
    match open(book) {
        None => refused(NO_BOOK),
        Some((_, block, names)) => accepted(names.len(), block),
    }
}

/// Reads a name back by its position. Refusals: 2, 3, 4.
pub fn book_read(book: &[u8], position: usize, room: &mut [u8]) -> Answer {
    let Some((_, _, names)) = open(book) else {
        return refused(NO_BOOK);
    };
    let Some(name) = names.get(position) else {
        return refused(NO_SUCH_POSITION);
    };
    write_out(name, room)
}

/// Exact: (position, 1) where a name equals the question. Refusals: 2, 1.
pub fn book_exact(book: &[u8], question: &[u8]) -> Counted {
    ask_book(book, Kind::Exact, question)
}

/// Place: how many names are less than the question. Refusals: 2, 1.
pub fn book_place(book: &[u8], question: &[u8]) -> Counted {
    ask_book(book, Kind::Place, question)
}

/// Range: the question's place and how many names begin with it. Refusals:
/// 2, 1.
pub fn book_range(book: &[u8], question: &[u8]) -> Counted {
    ask_book(book, Kind::Range, question)
}

/// Nearest: a position and how many leading bytes of the question to light
/// there. Refusals: 2, 1, 10.
pub fn book_nearest(book: &[u8], question: &[u8]) -> Counted {
    ask_book(book, Kind::Nearest, question)
}

/// Width: the greatest length among the names of the question's range, 0 where
/// the range is empty. Refusals: 2, 1.
pub fn book_width(book: &[u8], question: &[u8]) -> Counted {
    ask_book(book, Kind::Width, question)
}

/// A single question. Refusals: 2, then those of `ask_names`. An accepted one of any
/// kind tells how far it looked; to open the book is no part of that. A refused one
/// has looked at nothing.
fn ask_book(book: &[u8], kind: Kind, question: &[u8]) -> Counted {
    let Some((book_kind, block, names)) = open(book) else {
        return Counted::of(refused(NO_BOOK), Look::default());
    };
    let rule = book_kind.rule();
    let answer = ask_names(rule, &names, kind, question);
    let looked = match answer.code {
        0 => look(rule, block, &names, question),
        _ => Look::default(),
    };
    Counted::of(answer, looked)
}

/// A question to the names of a book that was checked, by its rule. Refusals: 1,
/// 10.
fn ask_names(rule: Rule, names: &[Vec<u8>], kind: Kind, question: &[u8]) -> Answer {
    if question.len() > LONGEST_QUESTION {
        return refused(QUESTION_TOO_LONG);
    }
    let numbers = match kind {
        Kind::Exact => Some(exact(rule, names, question)),
        Kind::Place => Some(place(rule, names, question)),
        Kind::Range => Some(range(rule, names, question)),
        Kind::Nearest => nearest(rule, names, question),
        Kind::Width => Some(width(rule, names, question)),
    };
    match numbers {
        // Only nearest can be without an answer, and only without names.
        None => refused(NEAREST_OF_NONE),
        Some((first, second)) => accepted(first, second),
    }
}

/// A batch of questions. Refusals: 12, 2. Those of a row (11, 1, 10) go into the
/// row's own answer and do not stop the others.
pub fn book_batch(book: &[u8], questions: &[u8], rows: &[Row], answers: &mut [Answer]) -> Answer {
    if rows.len() > MOST_ROWS || rows.len() != answers.len() {
        return refused(BAD_ROW_COUNT);
    }
    let Some((book_kind, _, names)) = open(book) else {
        return refused(NO_BOOK);
    };
    for (row, answer) in rows.iter().zip(answers) {
        *answer = ask_row(book_kind.rule(), &names, questions, *row);
    }
    accepted(rows.len(), 0)
}

/// The answer of one batch row. Refusals: 11, then those of `ask_names`.
fn ask_row(rule: Rule, names: &[Vec<u8>], questions: &[u8], row: Row) -> Answer {
    match (Kind::of_number(row.kind), span(questions, row)) {
        (Some(kind), Some(question)) => ask_names(rule, names, kind, question),
        _ => refused(BAD_ROW),
    }
}

/// The row's part of the question buffer, unless start plus length lies past
/// the buffer. A sum too large for the machine's word lies past it as well.
fn span(questions: &[u8], row: Row) -> Option<&[u8]> {
    let end = row.start.checked_add(row.length)?;
    questions.get(row.start..end)
}
