//! Careful code without index tests, to measure the proved library beside.
//!
//! **For measuring alone: not proved, and not for use.** It does what a good
//! programmer does who trusts the own reasoning: no heap, no index test, one
//! walk over the entries and one over the nodes, every question by descent. A
//! slip here reads or writes memory that is not its own, and no compiler says
//! so; that is what the proved library is for. It is held to the second
//! program by a test, and nothing in the repository answers by it.
//!
//! Where to look:
//!
//! | Module | What it has |
//! |---|---|
//! | [`calls`] | the calls, each with its refusals in their order |
//! | [`records`] | list records, judged one by one |
//! | [`building`] | a list judged, then the four parts of its book |
//! | [`checking`] | whether bytes are a book |
//! | [`asking`] | a name read back and the five questions, of a book that passed |
//! | [`salvaging`] | the blocks of a damaged book, judged alone and written |
//! | [`merging`] | two lists judged, then gone through side by side |
//! | [`converting`] | a plain book's nodes as columns, and back |
//! | [`rules`] | the three kinds of book: their marks, letters and nodes |
//! | [`bytes`] | bytes and numbers at an offset, without a test |

#![no_std]
#![warn(missing_docs)]

pub mod asking;
pub mod building;
pub mod bytes;
pub mod calls;
pub mod checking;
pub mod converting;
#[cfg(feature = "archive")]
mod exported;
pub mod merging;
pub mod records;
pub mod rules;
pub mod salvaging;

pub use calls::{
    announce_clip, announce_route, book_batch, book_build, book_build_folded, book_check,
    book_exact, book_from_columns, book_nearest, book_place, book_range, book_read, book_salvage,
    book_to_columns, book_width, list_head, list_judge, list_merge, Answer, Counted, Head, Kept,
    Row,
};

/// A name has 1 to 200 bytes, a question up to 200.
pub const LONGEST_NAME: usize = 200;
/// A book has at most 2,000 names.
pub const MOST_NAMES: usize = 2000;
/// .. in blocks of at most 64,
pub const LARGEST_BLOCK: usize = 64;
/// .. and at most 65,535 bytes.
pub const LONGEST_BOOK: usize = 65_535;
/// A node has six numbers of two bytes.
pub const NODE: usize = 12;
/// The last 16 bytes point back.
pub const TRAILER: usize = 16;
/// A path from the root has at most 202 nodes.
pub const LONGEST_PATH: usize = 202;
