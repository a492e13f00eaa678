//! Test vectors from the second program.
//!
//! A set of vectors belongs to one call. It is a file of cases, and the text
//! that a program must print when it reads the file, makes the calls and tells
//! what came of them: one line for each case. The proved library is run on the
//! sets by a program of its own, without a heap, so the files are flat runs of
//! bytes and the text is plain numbers; on some it is run by a test of the linked
//! archive.
//!
//! Where to look:
//!
//! | Module | What it has |
//! |---|---|
//! | [`sets`] | what a set is and what its files are, whatever the call |
//! | [`building`] | the set of `book_build`, and how its cases stand in the file |
//! | [`checking`] | the set of `book_check`, likewise |
//! | [`reading`] | the set of `book_read`, likewise |
//! | [`asking`] | the sets of the five questions, likewise |
//! | [`batching`] | the set of `book_batch`, likewise |
//! | [`merging`] | the set of the calls of two lists, likewise |
//! | [`salvaging`] | the set of `book_salvage`, likewise |
//! | [`announcing`] | the set of the announcer's two calls, likewise |
//! | [`folded`] | the sets of folded books, of `book_build_folded` and of all calls that take a book |
//! | [`columns`] | the sets of column books: of the two conversions, and of all calls that take a book |
//! | [`checksum`] | two small numbers that stand for many |
//! | [`lists`] | lists of names by their shape |
//! | [`questions`] | questions by how they stand to a list's names |
//! | [`batches`] | a buffer of questions, and rows that point into it |
//! | [`pieces`] | a book in pieces, to be put together wrongly |
//! | [`damage`] | ways to spoil a list or a book |
//! | [`wear`] | ways in which a card with a book on it wears |
//! | [`hostile`] | books that are none, by their node tables |
//! | [`growth`] | lists of which one parameter doubles |
//! | [`worst`] | lists and questions that cost most |
//! | [`spelling`] | names and questions in capitals and in small letters |
//! | [`rooms`] | rooms before and after a call, and the numbers that it gives |
//! | [`random`] | numbers that look random |
//!
//! Another call is one more module with a type that is a
//! [`Call`](sets::Call), and one more line in [`SETS`] or [`TESTED_SETS`].

#![forbid(unsafe_code)]
#![warn(missing_docs)]

pub mod announcing;
pub mod asking;
pub mod batches;
pub mod batching;
pub mod building;
pub mod checking;
pub mod checksum;
pub mod columns;
pub mod damage;
pub mod folded;
pub mod growth;
pub mod hostile;
pub mod lists;
pub mod merging;
pub mod pieces;
pub mod questions;
pub mod random;
pub mod reading;
pub mod rooms;
pub mod salvaging;
pub mod sets;
pub mod spelling;
pub mod wear;
pub mod worst;

use sets::Files;

/// Every set that a program runs, in its order.
pub const SETS: [&dyn Files; 12] = [
    &building::SET,
    &checking::SET,
    &reading::SET,
    &asking::SET,
    &asking::DEAREST,
    &batching::SET,
    &merging::SET,
    &folded::BUILD,
    &folded::CHECK,
    &folded::READ,
    &folded::ASK,
    &folded::BATCH,
];

/// Every set that no such program runs, but a test of the linked archive.
pub const TESTED_SETS: [&dyn Files; 7] = [
    &salvaging::SET,
    &announcing::SET,
    &columns::CONVERT,
    &columns::CHECK,
    &columns::READ,
    &columns::ASK,
    &columns::BATCH,
];

/// What a program that runs every set must print: the sets' texts, one after
/// the other.
pub fn expected_of_all() -> String {
    SETS.iter().map(|set| set.expected()).collect()
}
