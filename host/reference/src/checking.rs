//! Whether bytes are a book: the trailer, a walk over the entries, and a walk
//! over the nodes with a stack of its own.
//!
//! This is the one place where bytes come from nobody knows where, so every
//! offset is compared before it is used.

use crate::bytes::{byte, is_above, leading_letters, letters_from, part, put, two};
use crate::rules::Rule;
use crate::{LARGEST_BLOCK, LONGEST_BOOK, LONGEST_NAME, MOST_NAMES, NODE, TRAILER};
use core::mem::replace;

/// What the trailer tells.
#[derive(Clone, Copy)]
pub struct Parts {
    /// How many names there are.
    pub names: usize,
    /// How many of them a block has.
    pub block: usize,
    /// Where the block table starts, and the entries end.
    pub blocks_at: usize,
    /// Where the node table starts.
    pub nodes_at: usize,
    /// How many nodes there are.
    pub nodes: usize,
}

/// The parts of a book of this kind; nothing where the bytes are none.
pub fn check<R: Rule>(book: &[u8]) -> Option<Parts> {
    let parts = trailer::<R>(book)?;
    let mut shares = [0; MOST_NAMES];
    // SAFETY: the trailer's numbers agree with the length, and there are as
    // many places as names.
    unsafe {
        entries_stand::<R>(book, parts, &mut shares)?;
        nodes_stand::<R>(book, parts, &shares)?;
    }
    Some(parts)
}

/// What the trailer tells, if its numbers agree with each other and with the
/// length. Without names there is nothing but the trailer.
fn trailer<R: Rule>(book: &[u8]) -> Option<Parts> {
    let parts = numbers::<R>(book)?;
    (parts.names > 0 || book.len() == TRAILER).then_some(parts)
}

/// The same of bytes that may have more than the trailer without names.
pub(crate) fn numbers<R: Rule>(book: &[u8]) -> Option<Parts> {
    if !(TRAILER..=LONGEST_BOOK).contains(&book.len()) {
        return None;
    }
    let at = book.len() - TRAILER;
    // SAFETY: there are 16 bytes behind.
    let number = |place: usize| unsafe { two(book, at + 2 * place) };
    let parts = Parts {
        names: number(0),
        block: number(1),
        blocks_at: number(2),
        nodes_at: number(3),
        nodes: number(4),
    };
    let limits = parts.names <= MOST_NAMES && (1..=LARGEST_BLOCK).contains(&parts.block);
    if !limits || number(5) != book.len() || !R::marks(book) {
        return None;
    }
    let blocks = parts.names.div_ceil(parts.block);
    let agree =
        parts.blocks_at + 2 * blocks == parts.nodes_at && parts.nodes_at + NODE * parts.nodes == at;
    agree.then_some(parts)
}

/// An entry: the shared count as stored, and the rest of the name.
#[derive(Clone, Copy)]
pub(crate) struct Entry<'book> {
    pub stored: usize,
    pub rest: &'book [u8],
}

impl<'book> Entry<'book> {
    /// The entry at this offset, if it ends before the limit and its name has
    /// 1 to 200 bytes.
    ///
    /// # Safety
    ///
    /// The limit lies inside.
    #[inline(always)]
    pub unsafe fn at(book: &'book [u8], at: usize, limit: usize) -> Option<Entry<'book>> {
        if at + 2 > limit {
            return None;
        }
        let (stored, rest) = (byte(book, at), byte(book, at + 1));
        let fits = at + 2 + rest <= limit && stored + rest <= LONGEST_NAME;
        (rest > 0 && fits).then(|| Entry {
            stored,
            rest: part(book, at + 2, rest),
        })
    }

    /// The entry at this offset.
    ///
    /// # Safety
    ///
    /// It stands there.
    #[inline(always)]
    pub unsafe fn standing(book: &'book [u8], at: usize) -> Entry<'book> {
        Entry {
            stored: byte(book, at),
            rest: part(book, at + 2, byte(book, at + 1)),
        }
    }

    /// The name's length.
    #[inline(always)]
    pub fn length(self) -> usize {
        self.stored + self.rest.len()
    }

    /// What a block's first name shares with the name before, if it is above.
    #[inline(always)]
    unsafe fn share_of_first<R: Rule>(self, before: &[u8]) -> Option<usize> {
        let shared = leading_letters::<R>(before, self.rest);
        (self.stored == 0 && is_above::<R>(self.rest, before, shared)).then_some(shared)
    }

    /// What another name shares with the name before, if all bytes of it that are
    /// the same are stored and the name is above. The next byte is another one, and
    /// by its letter above; where it is the same letter, what follows is looked at.
    #[inline(always)]
    pub unsafe fn share_of_other<R: Rule>(self, before: &[u8]) -> Option<usize> {
        if self.stored >= before.len() {
            return (self.stored == before.len()).then_some(self.stored);
        }
        let (last, next) = (byte(before, self.stored), byte(self.rest, 0));
        if last == next {
            return None;
        }
        let before = before.get_unchecked(self.stored..);
        let more = letters_from::<R>(before, self.rest, 0);
        is_above::<R>(self.rest, before, more).then_some(self.stored + more)
    }
}

/// Whether the entries and the block table are right. Notes how many letters each
/// name shares with the one before.
///
/// # Safety
///
/// The trailer's numbers agree with the length.
unsafe fn entries_stand<R: Rule>(
    book: &[u8],
    parts: Parts,
    shares: &mut [u8; MOST_NAMES],
) -> Option<()> {
    let mut name = [0; LONGEST_NAME];
    let mut length = 0;
    let mut at = 0;
    let mut left = 0;
    let mut slot = parts.blocks_at;
    for position in 0..parts.names {
        let entry = Entry::at(book, at, parts.blocks_at)?;
        let before = part(&name, 0, length);
        let shared = if left == 0 {
            if two(book, slot) != at {
                return None;
            }
            slot += 2;
            left = parts.block;
            entry.share_of_first::<R>(before)?
        } else {
            entry.share_of_other::<R>(before)?
        };
        left -= 1;
        *shares.get_unchecked_mut(position) = shared as u8;
        put(&mut name, entry.stored, entry.rest);
        length = entry.length();
        at += 2 + entry.rest.len();
    }
    (at == parts.blocks_at).then_some(())
}

/// A node of several names that is open: where its names begin and end, where
/// its records end, its depth, its width, and the greatest length so far.
#[derive(Clone, Copy, Default)]
struct Open {
    first: u16,
    end: u16,
    stop: u16,
    depth: u16,
    width: u16,
    greatest: u16,
}

/// Forks are open at depths that rise, from 0 to 199 at most.
const MOST_OPEN: usize = LONGEST_NAME;

/// Two names share at most 199 bytes.
const DEEPEST_FORK: usize = LONGEST_NAME - 1;

/// The node table: the book's bytes, and how far a node's numbers stand apart.
#[derive(Clone, Copy)]
struct Table<'book> {
    book: &'book [u8],
    step: usize,
}

/// A number of the record that stands here.
///
/// # Safety
///
/// It lies inside.
#[inline(always)]
unsafe fn number(table: Table, record: usize, place: usize) -> usize {
    two(table.book, record + table.step * place)
}

/// Whether the record that stands here is the leaf of a name of this length.
///
/// # Safety
///
/// It lies inside.
#[inline(always)]
unsafe fn is_leaf(table: Table, record: usize, length: usize) -> bool {
    number(table, record, 1) == length + 1
        && number(table, record, 4) == 1
        && number(table, record, 5) == length
}

/// The fork that stands here, if it is inside the open node, deeper than
/// that, and has fewer names.
///
/// # Safety
///
/// It lies inside.
#[inline(always)]
unsafe fn fork<R: Rule>(table: Table, record: usize, position: usize, open: Open) -> Option<Open> {
    let depth = number(table, record, 1);
    let names = number(table, record, 3);
    let nodes = number(table, record, 4);
    let (end, stop) = (position + names, record + R::STRIDE * nodes);
    let inside = end <= usize::from(open.end) && stop <= usize::from(open.stop);
    let fewer = end < usize::from(open.end) || position > usize::from(open.first);
    let deeper = depth > usize::from(open.depth) && depth <= DEEPEST_FORK;
    (names > 0 && nodes > 0 && inside && fewer && deeper).then_some(Open {
        first: position as u16,
        end: end as u16,
        stop: stop as u16,
        depth: depth as u16,
        width: number(table, record, 5) as u16,
        greatest: 0,
    })
}

/// The symbol that leads to a name from a node of this depth; nothing where the
/// name ends before.
///
/// # Safety
///
/// The stored count is at most the depth: bytes that are the same are one letter.
#[inline(always)]
unsafe fn symbol<R: Rule>(entry: Entry, depth: usize) -> Option<usize> {
    let at = depth - entry.stored;
    if at == entry.rest.len() {
        return Some(0);
    }
    (at < entry.rest.len()).then(|| R::symbol(byte(entry.rest, at)))
}

/// The root as an open node, if there are several names and it has them all.
///
/// # Safety
///
/// The trailer's numbers agree, and there are nodes.
unsafe fn root<R: Rule>(table: Table, parts: Parts) -> Option<Open> {
    let record = parts.nodes_at;
    let is_root = number(table, record, 0) == 0
        && number(table, record, 1) <= DEEPEST_FORK
        && number(table, record, 2) == 0
        && number(table, record, 3) == parts.names
        && number(table, record, 4) == parts.nodes;
    is_root.then_some(Open {
        first: 0,
        end: parts.names as u16,
        stop: (record + R::STRIDE * parts.nodes) as u16,
        depth: number(table, record, 1) as u16,
        width: number(table, record, 5) as u16,
        greatest: 0,
    })
}

/// Whether the nodes are right.
///
/// # Safety
///
/// The entries stand, and the shares are theirs.
unsafe fn nodes_stand<R: Rule>(book: &[u8], parts: Parts, shares: &[u8; MOST_NAMES]) -> Option<()> {
    let record = parts.nodes_at;
    let table = Table {
        book,
        step: R::step(parts.nodes),
    };
    match (parts.names, parts.nodes) {
        (0, _) => Some(()),
        (_, 0) => None,
        (1, 1) => {
            let is_root = number(table, record, 0) == 0
                && number(table, record, 2) == 0
                && number(table, record, 3) == 1;
            (is_root && is_leaf(table, record, byte(book, 1))).then_some(())
        }
        (1, _) => None,
        _ => below_root::<R>(table, root::<R>(table, parts)?, record + R::STRIDE, shares),
    }
}

/// Nothing where the next record can't be that of a node which begins with this
/// name, by its place, its symbol or its first name.
///
/// # Safety
///
/// The entries stand, and the stored count is at most the open depth.
#[inline(always)]
unsafe fn begins<R: Rule>(
    table: Table,
    record: usize,
    position: usize,
    entry: Entry,
    open: Open,
) -> Option<()> {
    let stands = record < usize::from(open.stop)
        && number(table, record, 0) == symbol::<R>(entry, usize::from(open.depth))?
        && number(table, record, 2) == position;
    stands.then_some(())
}

/// Whether the nodes below the root are right.
///
/// Names part inside a node at its depth, and nowhere in it do neighbours share
/// less: where one child ends and the next begins they share just its depth,
/// and inside a child more. Only that has to be seen.
///
/// # Safety
///
/// The entries stand, the shares are theirs, and the first record stands here.
#[inline(always)]
unsafe fn below_root<R: Rule>(
    table: Table,
    mut open: Open,
    mut record: usize,
    shares: &[u8; MOST_NAMES],
) -> Option<()> {
    let mut outer = [Open::default(); MOST_OPEN];
    let (mut count, mut at, mut position) = (0, 0, 0);
    loop {
        let entry = Entry::standing(table.book, at);
        // The forks that begin with this name, down to its leaf.
        loop {
            begins::<R>(table, record, position, entry, open)?;
            if number(table, record, 3) == 1 {
                break;
            }
            let inner = fork::<R>(table, record, position, open)?;
            *outer.get_unchecked_mut(count) = replace(&mut open, inner);
            count += 1;
            record += R::STRIDE;
        }
        let mut is_right = is_leaf(table, record, entry.length());
        open.greatest = open.greatest.max(entry.length() as u16);
        record += R::STRIDE;
        position += 1;
        at += 2 + entry.rest.len();
        while is_right && usize::from(open.end) == position {
            is_right = usize::from(open.stop) == record && open.greatest == open.width;
            if count == 0 {
                return is_right.then_some(());
            }
            count -= 1;
            let child = replace(&mut open, *outer.get_unchecked(count));
            open.greatest = open.greatest.max(child.greatest);
        }
        if !is_right || u16::from(*shares.get_unchecked(position)) != open.depth {
            return None;
        }
    }
}
