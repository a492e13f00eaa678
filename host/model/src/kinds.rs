//! The kinds of book.
//!
//! Renders what document 02, change requests 7 and 10, adds to document 01: a second
//! kind, with a mark and a symbol rule of its own, and a third, with a mark of its
//! own and its node table in another order. A kind is named when a book is made;
//! afterwards the mark tells it, and nobody says it again.

use crate::names::Rule;

/// The three kinds of book.
#[derive(Clone, Copy, Debug, PartialEq, Eq)]
pub enum BookKind {
    /// Document 01's: each byte has a symbol of its own.
    Plain,
    /// Document 02's: capitals have the symbols of small letters.
    Folded,
    /// Document 02's: the plain book with its node table as columns.
    Columns,
}

impl BookKind {
    /// Every kind.
    pub const ALL: [BookKind; 3] = [BookKind::Plain, BookKind::Folded, BookKind::Columns];

    /// The kinds of full book: those that a call builds from a list, and that the
    /// announcer serves.
    pub const FULL: [BookKind; 2] = [BookKind::Plain, BookKind::Folded];

    /// The last four bytes of every book of this kind.
    pub fn mark(self) -> [u8; 4] {
        match self {
            BookKind::Plain => [0x4E, 0x42, 0x4B, 0x32],
            BookKind::Folded => [0x4E, 0x42, 0x46, 0x32],
            BookKind::Columns => [0x4E, 0x42, 0x43, 0x32],
        }
    }

    /// How names and questions become symbols in a book of this kind.
    pub fn rule(self) -> Rule {
        match self {
            BookKind::Plain | BookKind::Columns => Rule::Plain,
            BookKind::Folded => Rule::Folded,
        }
    }

    /// The kind whose mark these bytes end in, if there is one.
    pub fn of_marked(bytes: &[u8]) -> Option<BookKind> {
        let mut kinds = BookKind::ALL.into_iter();
        kinds.find(|kind| bytes.ends_with(&kind.mark()))
    }
}
