//! Random books, sound, spoilt or hostile.

use crate::lent::lend;
use crate::shapes::{any_kind, any_names};
use fenced::Fenced;
use format::MOST_NAMES;
use model::{book_of, BookKind};
use vectors::damage::{mark_as, spoil_book, spoil_names};
use vectors::hostile;
use vectors::lists::{self, Names};
use vectors::random::Random;

/// The bytes of a book of any kind, to be lent, and the names that went into it.
/// Half of the books are spoilt: their bytes, their pieces, or the names or block
/// size before the layout; some have hostile nodes, and some the mark of another
/// kind. Of the large lists some are too large for a book.
pub fn any_book(random: &mut Random) -> (Fenced<u8>, Names) {
    let kind = any_kind(random);
    any_book_of(random, kind)
}

/// The same, laid out as this kind.
pub fn any_book_of(random: &mut Random, kind: BookKind) -> (Fenced<u8>, Names) {
    let block = any_block(random);
    let (mut book, names) = match random.below(24) {
        0 => hostile_book(random, kind, block),
        _ => laid_out_book(random, kind, block),
    };
    if random.once_in(16) {
        mark_as(any_kind(random), &mut book);
    }
    (lend(random, &book), names)
}

/// The bytes of a book as the layout says, or spoilt.
fn laid_out_book(random: &mut Random, kind: BookKind, block: usize) -> (Vec<u8>, Names) {
    let mut names = any_names(random, kind, block);
    let book = match random.below(12) {
        0 => {
            spoil_names(random, &mut names);
            book_of(kind, block, &names)
        }
        1 => book_of(kind, *random.one_of(&[0, 65, 66, 128, 256, 257]), &names),
        2..=5 => spoil_book(random, kind, block, &names),
        _ => book_of(kind, block, &names),
    };
    (book, names)
}

/// The bytes of a book with hostile nodes: mostly of some hundreds of names, now
/// and then with as many and as long ones as there can be. The latter are plain or of
/// columns.
fn hostile_book(random: &mut Random, kind: BookKind, block: usize) -> (Vec<u8>, Names) {
    let tables = hostile::kinds();
    let table = random.one_of(&tables);
    let book = match (kind, random.below(12)) {
        (BookKind::Folded, _) | (_, 6..) => {
            let names = several_names(random, kind, block);
            hostile::any(random, kind, block, &names)
        }
        (_, 0) => table.largest().in_kind(kind),
        (_, 1) => table
            .with_names(random.between(4, MOST_NAMES))
            .in_kind(kind),
        (_, 2..=5) => table.with_names(random.between(4, 500)).in_kind(kind),
    };
    (book.bytes(), book.made_of)
}

/// A rising list of two names or more.
fn several_names(random: &mut Random, kind: BookKind, block: usize) -> Names {
    let names = any_names(random, kind, block);
    if names.len() < 2 || random.once_in(2) {
        return lists::sorted_for(kind, lists::pairs(random.between(2, 500)));
    }
    names
}

/// A block size from 1 to 64, often a small one.
pub fn any_block(random: &mut Random) -> usize {
    match random.below(4) {
        0 => *random.one_of(&[1, 2, 16, 63, 64]),
        1 | 2 => random.between(1, 8),
        _ => random.between(1, 64),
    }
}
