//! Conversion: a plain full book as a column book, and back.
//!
//! Renders document 02, change request 10. Either way the bytes are those that
//! building would give from the same names and block size. Both kinds of a list have
//! one length, so a book that is there never becomes too long, and 9 is never given.

use crate::calls::{refused, write_out, Answer};
use crate::kinds::BookKind;
use crate::layout::book_of;
use crate::open::open;
use crate::refusals::NO_BOOK;

/// Writes the column book of a plain book's names and block size. Refusals, in this
/// order: 2, also for a sound book of any other kind; 4. A refused call writes
/// nothing.
pub fn book_to_columns(book: &[u8], room: &mut [u8]) -> Answer {
    convert(BookKind::Plain, BookKind::Columns, book, room)
}

/// Writes the plain book of a column book's names and block size. Refusals as for
/// the other way: 2, also for a sound book of any other kind; 4.
pub fn book_from_columns(book: &[u8], room: &mut [u8]) -> Answer {
    convert(BookKind::Columns, BookKind::Plain, book, room)
}

/// Writes the book of another kind with the names and the block size of this one,
/// which has to be of the kind that is turned.
fn convert(from: BookKind, to: BookKind, book: &[u8], room: &mut [u8]) -> Answer {
    match open(book) {
        Some((kind, block, names)) if kind == from => write_out(&book_of(to, block, &names), room),
        _ => refused(NO_BOOK),
    }
}
