//! A plain book's nodes as columns, and back: everything else but the mark is copied.

use crate::bytes::{part, put};
use crate::checking::Parts;
use crate::rules::Rule;
use crate::{NODE, TRAILER};

/// How many numbers a node has.
const FIELDS: usize = NODE / 2;

/// Writes the book of the other kind to the front of the room.
///
/// # Safety
///
/// The check of the first kind gave these parts, and the room is as long as the book.
pub unsafe fn write<From: Rule, To: Rule>(book: &[u8], parts: Parts, room: &mut [u8]) {
    let (start, nodes) = (parts.nodes_at, parts.nodes);
    put(room, 0, part(book, 0, start));
    let (from, to) = (From::step(nodes), To::step(nodes));
    for node in 0..nodes {
        for field in 0..FIELDS {
            let number = part(book, start + From::STRIDE * node + from * field, 2);
            put(room, start + To::STRIDE * node + to * field, number);
        }
    }
    let trailer = book.len() - TRAILER;
    put(room, trailer, part(book, trailer, TRAILER - To::MARK.len()));
    put(room, book.len() - To::MARK.len(), &To::MARK);
}
