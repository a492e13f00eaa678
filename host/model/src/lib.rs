//! The second program of Mistrogu.
//!
//! Everything that document 01 asks for, with what document 02's change requests
//! 1 (width), 2 (merging), 3 (nearest's number), 5 (worn cards), 7 (folded books), 8
//! (how far it looked), 9 (the announcer) and 10 (columns) add to it or change of it,
//! done over a plain sorted list of byte strings. Nothing here is fast and nothing is
//! meant to be.
//! A reader with the documents in the other hand should be able to believe each
//! function at sight, because test vectors for the proved library come from this
//! crate. It shares no line with that library.
//!
//! Where to look:
//!
//! | Module | Part of document 01 |
//! |---|---|
//! | [`names`] | names, symbols by either rule, order, list records |
//! | [`kinds`] | the kinds of book: mark and symbol rule (document 02) |
//! | [`tree`] | which nodes a list of names has |
//! | [`layout`] | the bytes of a book |
//! | [`open`](mod@open) | which runs of bytes are a book |
//! | [`questions`] | exact, place, range, nearest; width, nearest's number and how far a question looks (document 02) |
//! | [`refusals`] | the numbers given back when a call says no |
//! | [`calls`] | the public calls, each with its refusals in their order |
//! | [`merging`] | the calls of two lists: merge, judge and step (document 02) |
//! | [`salvage`] | the names of those blocks of a worn card that are sound (document 02) |
//! | [`converting`] | a plain book as a column book, and back (document 02) |
//! | [`announcer`] | the clip of a typed text, and the clips of a route (document 02) |
//! | [`programs`] | what the building and the listing program write |
//!
//! The running example is the list Mar, Marina, Market Square.

#![forbid(unsafe_code)]
#![warn(missing_docs)]

pub mod announcer;
pub mod calls;
pub mod converting;
pub mod kinds;
pub mod layout;
pub mod merging;
pub mod names;
pub mod open;
pub mod programs;
pub mod questions;
pub mod refusals;
pub mod salvage;
pub mod tree;

pub use announcer::{announce_clip, announce_route};
pub use calls::{
    book_batch, book_build, book_build_folded, book_check, book_exact, book_nearest, book_place,
    book_range, book_read, book_width, build_kind, Answer, Counted, Row,
};
pub use converting::{book_from_columns, book_to_columns};
pub use kinds::BookKind;
pub use layout::book_of;
pub use merging::{list_head, list_judge, list_merge, list_step, Head};
pub use names::{read_list, write_list, Rule};
pub use open::open;
pub use programs::{listing, make_book};
pub use salvage::{book_salvage, Kept};
