//! A list judged, then the four parts of its book.

use crate::bytes::{byte, part, put, put_two};
use crate::calls::{refused, Answer};
use crate::records::judge_record;
use crate::rules::Rule;
use crate::{LONGEST_NAME, MOST_NAMES, NODE, TRAILER};
use core::marker::PhantomData;
use core::mem::replace;

/// What judging notes of each name: its length, and what it shares with the one
/// before, as letters for the nodes and, where that is another number, as bytes for
/// the entries.
pub struct Noted<R> {
    names: usize,
    lengths: [u8; MOST_NAMES],
    shares: [u8; MOST_NAMES],
    counts: [u8; MOST_NAMES],
    rule: PhantomData<R>,
}

impl<R> Default for Noted<R> {
    fn default() -> Noted<R> {
        Noted {
            names: 0,
            lengths: [0; MOST_NAMES],
            shares: [0; MOST_NAMES],
            counts: [0; MOST_NAMES],
            rule: PhantomData,
        }
    }
}

/// Where the parts of a book stand.
#[derive(Clone, Copy)]
pub struct Sizes {
    blocks_at: usize,
    nodes_at: usize,
    nodes: usize,
}

impl Sizes {
    /// The length of the whole book.
    pub fn book(self) -> usize {
        self.nodes_at + NODE * self.nodes + TRAILER
    }
}

/// Judges the records one by one. Refusals: 5, 6, 7, with the record's number.
pub fn judge<R: Rule>(list: &[u8], noted: &mut Noted<R>) -> Result<(), Answer> {
    let mut before: &[u8] = &[];
    let mut at = 0;
    while at < list.len() {
        let count = noted.names;
        // SAFETY: there is a byte.
        let judged = unsafe { judge_record::<R>(list, at, before) };
        let record = judged.map_err(|code| refused(code, count))?;
        if count == MOST_NAMES {
            return Err(refused(7, count));
        }
        // SAFETY: there are places for so many names.
        unsafe {
            *noted.lengths.get_unchecked_mut(count) = record.name.len() as u8;
            *noted.shares.get_unchecked_mut(count) = record.letters as u8;
            if R::FOLDS {
                *noted.counts.get_unchecked_mut(count) = record.bytes as u8;
            }
        }
        noted.names += 1;
        before = record.name;
        at += 1 + before.len();
    }
    Ok(())
}

/// A node of several names that is open on its left: how deep it is, where its
/// names end, how many records there were behind it, and how long the longest
/// name of it so far is.
#[derive(Clone, Copy, Default)]
struct Open {
    depth: u16,
    end: u16,
    behind: u16,
    width: u16,
}

/// Forks are open at depths that differ, from 0 to 199.
const MOST_OPEN: usize = LONGEST_NAME;

/// Less than any depth: what stands around the root, and what the first name
/// shares with none before it.
const OUTSIDE: isize = -1;

/// The depth of the innermost of so many open forks.
#[inline(always)]
unsafe fn innermost(stack: &[Open; MOST_OPEN], count: usize) -> isize {
    match count {
        0 => OUTSIDE,
        _ => stack.get_unchecked(count - 1).depth as isize,
    }
}

/// The symbol that leads to a name from a node of this depth.
#[inline(always)]
unsafe fn symbol_of<R: Rule>(name: &[u8], depth: isize) -> usize {
    if depth == OUTSIDE || depth as usize == name.len() {
        return 0;
    }
    R::symbol(byte(name, depth as usize))
}

impl Open {
    /// Writes the record of a node that begins with this name; with it there are
    /// so many.
    #[inline(always)]
    unsafe fn put(self, room: &mut [u8], at: usize, symbol: usize, first: usize, written: usize) {
        put_two(room, at, symbol);
        put_two(room, at + 2, usize::from(self.depth));
        put_two(room, at + 4, first);
        put_two(room, at + 6, usize::from(self.end) - first);
        put_two(room, at + 8, written - usize::from(self.behind));
        put_two(room, at + 10, usize::from(self.width));
    }

    /// Takes a child in.
    #[inline(always)]
    fn widen(&mut self, child: Open) {
        self.width = self.width.max(child.width);
    }
}

impl<R: Rule> Noted<R> {
    /// How many bytes a name shares with the one before.
    ///
    /// # Safety
    ///
    /// It was noted.
    #[inline(always)]
    unsafe fn count(&self, position: usize) -> usize {
        let counts = if R::FOLDS { &self.counts } else { &self.shares };
        usize::from(*counts.get_unchecked(position))
    }

    /// Where the parts will stand.
    pub fn sizes(&self, block: usize) -> Sizes {
        let mut open = [0u8; MOST_OPEN];
        let mut depth = 0;
        let mut nodes = self.names;
        let mut entries = 0;
        let mut left = 0;
        for position in 0..self.names {
            // SAFETY: so many names were noted. Of open forks there are at most
            // as many as depths.
            unsafe {
                let shared = *self.shares.get_unchecked(position);
                entries += 2 + usize::from(*self.lengths.get_unchecked(position));
                if left == 0 {
                    left = block;
                } else {
                    entries -= self.count(position);
                }
                left -= 1;
                while depth > 0 && *open.get_unchecked(depth - 1) > shared {
                    depth -= 1;
                }
                let is_new = depth == 0 || *open.get_unchecked(depth - 1) < shared;
                if position > 0 && is_new {
                    *open.get_unchecked_mut(depth) = shared;
                    depth += 1;
                    nodes += 1;
                }
            }
        }
        Sizes {
            blocks_at: entries,
            nodes_at: entries + 2 * self.names.div_ceil(block),
            nodes,
        }
    }

    /// Writes the book to the front of the room.
    ///
    /// # Safety
    ///
    /// This list was judged, these are the sizes, and the room is long enough.
    pub unsafe fn write(&self, list: &[u8], block: usize, sizes: Sizes, room: &mut [u8]) {
        self.write_entries(list, block, sizes, room);
        self.write_nodes(list, sizes, room);
        let at = sizes.book() - TRAILER;
        let numbers = [
            self.names,
            block,
            sizes.blocks_at,
            sizes.nodes_at,
            sizes.nodes,
            sizes.book(),
        ];
        for (place, number) in numbers.into_iter().enumerate() {
            put_two(room, at + 2 * place, number);
        }
        put(room, at + 12, &R::MARK);
    }

    /// Writes the entries and the block table.
    ///
    /// # Safety
    ///
    /// As for the book.
    unsafe fn write_entries(&self, list: &[u8], block: usize, sizes: Sizes, room: &mut [u8]) {
        let mut from = 0;
        let mut at = 0;
        let mut slot = sizes.blocks_at;
        let mut left = 0;
        for position in 0..self.names {
            let length = usize::from(*self.lengths.get_unchecked(position));
            let mut stored = self.count(position);
            if left == 0 {
                put_two(room, slot, at);
                slot += 2;
                stored = 0;
                left = block;
            }
            left -= 1;
            let rest = length - stored;
            *room.get_unchecked_mut(at) = stored as u8;
            *room.get_unchecked_mut(at + 1) = rest as u8;
            put(room, at + 2, part(list, from + 1 + stored, rest));
            from += 1 + length;
            at += 2 + rest;
        }
    }

    /// Writes the nodes from the end of their table, going back over the names:
    /// of each its leaf, then the nodes that begin with it, deepest first.
    ///
    /// # Safety
    ///
    /// As for the book.
    unsafe fn write_nodes(&self, list: &[u8], sizes: Sizes, room: &mut [u8]) {
        let mut stack = [Open::default(); MOST_OPEN];
        let mut depth = 0;
        let mut written = 0;
        let mut at = sizes.nodes_at + NODE * sizes.nodes;
        let mut from = list.len();
        for position in (0..self.names).rev() {
            let length = usize::from(*self.lengths.get_unchecked(position));
            from -= 1 + length;
            let name = part(list, from + 1, length);
            let shared = match position {
                0 => OUTSIDE,
                _ => isize::from(*self.shares.get_unchecked(position)),
            };
            let mut node = Open {
                depth: length as u16 + 1,
                end: position as u16 + 1,
                behind: written as u16,
                width: length as u16,
            };
            loop {
                let above = innermost(&stack, depth);
                at -= NODE;
                written += 1;
                let symbol = symbol_of::<R>(name, above.max(shared));
                node.put(room, at, symbol, position, written);
                if above <= shared {
                    break;
                }
                depth -= 1;
                let child = replace(&mut node, *stack.get_unchecked(depth));
                node.widen(child);
            }
            if innermost(&stack, depth) < shared {
                *stack.get_unchecked_mut(depth) = Open {
                    depth: shared as u16,
                    ..node
                };
                depth += 1;
            } else if depth > 0 {
                stack.get_unchecked_mut(depth - 1).widen(node);
            }
        }
    }
}
