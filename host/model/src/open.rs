//! Which runs of bytes are a book.
//!
//! Renders demand 3, to which refusal 2 of document 01 points, as document 02,
//! change requests 7 and 10, reads it: bytes are a book exactly when the layout yields
//! them for some kind, some list that is sound for that kind and some block size from
//! 1 to 64, within 65,535 bytes.
//!
//! The check does not look at each field on its own. It reads from the bytes
//! the only kind, list and block size they could be the book of, lays that book
//! out anew, and compares every byte. Whatever layout rule was broken shows there.

use crate::kinds::BookKind;
use crate::layout::{book_of, LARGEST_BLOCK, LONGEST_BOOK, TRAILER_LENGTH};
use crate::names::is_sound_list;

/// The kind, the block size and the names of a book, or nothing where it is no
/// book.
pub fn open(book: &[u8]) -> Option<(BookKind, usize, Vec<Vec<u8>>)> {
    let kind = BookKind::of_marked(book)?;
    let trailer = book.len().checked_sub(TRAILER_LENGTH)?;
    let count = number_at(book, trailer)?;
    let block = number_at(book, trailer + 2)?;
    let names = read_entries(book, count)?;

    let allowed = book.len() <= LONGEST_BOOK
        && (1..=LARGEST_BLOCK).contains(&block)
        && is_sound_list(kind.rule(), &names);
    if allowed && book == book_of(kind, block, &names) {
        Some((kind, block, names))
    } else {
        None
    }
}

/// The number in the two bytes at this offset, low byte first.
fn number_at(bytes: &[u8], offset: usize) -> Option<usize> {
    let low = usize::from(*bytes.get(offset)?);
    let high = usize::from(*bytes.get(offset + 1)?);
    Some(low + 256 * high)
}

/// The names in the first `count` entries from the front of the book.
///
/// Damaged bytes may lead past the entries, into the tables; that is harmless,
/// since the comparison in `open` decides. Each entry moves on by two bytes or
/// more, so this ends; bytes that are not there end it, too.
fn read_entries(book: &[u8], count: usize) -> Option<Vec<Vec<u8>>> {
    let mut names = Vec::new();
    let mut before: Vec<u8> = Vec::new();
    let mut offset = 0;
    for _ in 0..count {
        let shared = usize::from(*book.get(offset)?);
        let rest_length = usize::from(*book.get(offset + 1)?);
        let rest = book.get(offset + 2..offset + 2 + rest_length)?;
        let name = [before.get(..shared)?, rest].concat();
        names.push(name.clone());
        before = name;
        offset += 2 + rest_length;
    }
    Some(names)
}
