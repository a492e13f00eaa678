//! A name read back and the five questions, of a book that passed the check. Each
//! question counts how far it looked.

use crate::bytes::{byte, leading_letters, part, put, two};
use crate::checking::Parts;
use crate::rules::Rule;
use crate::{LONGEST_NAME, LONGEST_PATH};
use core::marker::PhantomData;
use core::mem::MaybeUninit;

/// A book that passed the check of its kind.
#[derive(Clone, Copy)]
pub struct Sound<'lent, R> {
    book: &'lent [u8],
    parts: Parts,
    rule: PhantomData<R>,
}

/// A name that was rebuilt, from so many entries.
struct Name {
    bytes: [u8; LONGEST_NAME],
    length: usize,
    entries: usize,
}

/// The two numbers of an answer, and how far its question looked: so many nodes
/// visited going down, and so many entries read for the one name that it compared.
#[derive(Clone, Copy, Default)]
pub struct Found {
    /// The first number.
    pub first: usize,
    /// The second number.
    pub second: usize,
    /// How many nodes were visited, the root and the last one counted.
    pub visits: usize,
    /// How many entries were read.
    pub entries: usize,
}

/// The numbers of a node.
#[derive(Clone, Copy)]
enum Field {
    Symbol,
    Depth,
    First,
    Names,
    Nodes,
    Width,
}

/// Where the way down ends: the position, its name, and how many nodes were visited.
struct Reached {
    position: usize,
    name: Name,
    visits: usize,
}

/// The node with the names that share most with a question, how many bytes
/// they share as letters, and the next symbol of the name that was reached; and how
/// far that looked.
struct Spot {
    node: usize,
    shared: usize,
    symbol: usize,
    visits: usize,
    entries: usize,
}

impl Reached {
    /// These two numbers, once they are known.
    #[inline(always)]
    fn found(&self, first: usize, second: usize) -> Found {
        Found {
            first,
            second,
            visits: self.visits,
            entries: self.name.entries,
        }
    }
}

impl Spot {
    /// These two numbers, once they are known.
    #[inline(always)]
    fn found(&self, first: usize, second: usize) -> Found {
        Found {
            first,
            second,
            visits: self.visits,
            entries: self.entries,
        }
    }
}

/// Symbol number so and so of a name or a question; 0 at its end.
#[inline(always)]
fn symbol_at<R: Rule>(name: &[u8], at: usize) -> usize {
    // SAFETY: where it is read the place lies inside.
    if at < name.len() {
        unsafe { R::symbol(byte(name, at)) }
    } else {
        0
    }
}

/// How many leading bytes of a question to light where it shares so many, at most
/// all: back over the bytes that go on with a character, unless all are shared.
#[inline(always)]
fn lit(question: &[u8], shared: usize) -> usize {
    let mut at = shared;
    // SAFETY: where it is read the place lies inside.
    while 0 < at && at < question.len() && unsafe { byte(question, at) } & 0xC0 == 0x80 {
        at -= 1;
    }
    at
}

impl<'lent, R: Rule> Sound<'lent, R> {
    /// The book, to be asked.
    ///
    /// # Safety
    ///
    /// The check gave these parts for it.
    pub unsafe fn new(book: &'lent [u8], parts: Parts) -> Sound<'lent, R> {
        Sound {
            book,
            parts,
            rule: PhantomData,
        }
    }

    /// How many names there are.
    pub fn names(self) -> usize {
        self.parts.names
    }

    /// A number of a node.
    ///
    /// # Safety
    ///
    /// There is such a node.
    #[inline(always)]
    unsafe fn field(self, node: usize, field: Field) -> usize {
        let step = R::step(self.parts.nodes);
        let at = self.parts.nodes_at + R::STRIDE * node + step * field as usize;
        two(self.book, at)
    }

    /// The name at a position.
    ///
    /// # Safety
    ///
    /// There is one.
    #[inline(always)]
    unsafe fn name(self, position: usize) -> Name {
        let block = position / self.parts.block;
        let mut at = two(self.book, self.parts.blocks_at + 2 * block);
        let mut name = Name {
            bytes: [0; LONGEST_NAME],
            length: 0,
            entries: position - block * self.parts.block + 1,
        };
        for _ in 0..name.entries {
            let (stored, rest) = (byte(self.book, at), byte(self.book, at + 1));
            put(&mut name.bytes, stored, part(self.book, at + 2, rest));
            name.length = stored + rest;
            at += 2 + rest;
        }
        name
    }

    /// Writes the name at a position to the front of the room and gives its
    /// length; nothing where the room is too short.
    ///
    /// # Safety
    ///
    /// There is such a position.
    pub unsafe fn read(self, position: usize, room: &mut [u8]) -> Option<usize> {
        let name = self.name(position);
        if room.len() < name.length {
            return None;
        }
        put(room, 0, part(&name.bytes, 0, name.length));
        Some(name.length)
    }

    /// The first child of a node whose symbol is not below this one, or where
    /// its row ends.
    ///
    /// # Safety
    ///
    /// There is such a node.
    #[inline(always)]
    unsafe fn seek(self, node: usize, symbol: usize) -> usize {
        let end = node + self.field(node, Field::Nodes);
        let mut child = node + 1;
        while child < end && self.field(child, Field::Symbol) < symbol {
            child += self.field(child, Field::Nodes);
        }
        child
    }

    /// Goes down from the root, notes every node but the root, and gives the
    /// last one.
    ///
    /// # Safety
    ///
    /// There are names.
    #[inline(always)]
    unsafe fn descend(self, question: &[u8], mut note: impl FnMut(usize)) -> usize {
        let mut node = 0;
        while self.field(node, Field::Names) != 1 {
            let depth = self.field(node, Field::Depth);
            if question.len() < depth {
                break;
            }
            let symbol = symbol_at::<R>(question, depth);
            let child = self.seek(node, symbol);
            let end = node + self.field(node, Field::Nodes);
            if child >= end || self.field(child, Field::Symbol) != symbol {
                break;
            }
            note(child);
            node = child;
        }
        node
    }

    /// The position that a question reaches, and its name.
    ///
    /// # Safety
    ///
    /// There are names.
    #[inline(always)]
    unsafe fn reach(self, question: &[u8]) -> Reached {
        let mut visits = 1;
        let last = self.descend(question, |_| visits += 1);
        let position = self.field(last, Field::First);
        Reached {
            position,
            name: self.name(position),
            visits,
        }
    }

    /// The node with the names that share most with a question.
    ///
    /// # Safety
    ///
    /// There are names.
    #[inline(always)]
    unsafe fn locate(self, question: &[u8]) -> Spot {
        // The root, and what is noted behind it: the depths rise, up to 201.
        let mut path = [MaybeUninit::<u16>::uninit(); LONGEST_PATH];
        path[0].write(0);
        let mut length = 1;
        let last = self.descend(question, |node| {
            path.get_unchecked_mut(length).write(node as u16);
            length += 1;
        });
        let noted = |at: usize| usize::from(path.get_unchecked(at).assume_init());
        let rebuilt = self.name(self.field(last, Field::First));
        let name = part(&rebuilt.bytes, 0, rebuilt.length);
        let shared = leading_letters::<R>(question, name);
        let mut at = length - 1;
        while at > 0 {
            if self.field(noted(at - 1), Field::Depth) < shared {
                break;
            }
            at -= 1;
        }
        Spot {
            node: noted(at),
            shared,
            symbol: symbol_at::<R>(name, shared),
            visits: length,
            entries: rebuilt.entries,
        }
    }

    /// How many names are less than the question, once that node is known.
    ///
    /// # Safety
    ///
    /// The spot is this question's.
    #[inline(always)]
    unsafe fn seat(self, question: &[u8], spot: &Spot) -> usize {
        let symbol = symbol_at::<R>(question, spot.shared);
        let first = self.field(spot.node, Field::First);
        let past = first + self.field(spot.node, Field::Names);
        if spot.shared < self.field(spot.node, Field::Depth) {
            return if spot.symbol < symbol { past } else { first };
        }
        let child = self.seek(spot.node, symbol);
        if child < spot.node + self.field(spot.node, Field::Nodes) {
            self.field(child, Field::First)
        } else {
            past
        }
    }

    /// (position, 1) where a name equals the question, else (0, 0).
    pub fn exact(self, question: &[u8]) -> Found {
        if self.parts.names == 0 {
            return Found::default();
        }
        // SAFETY: there are names.
        let reached = unsafe { self.reach(question) };
        // SAFETY: a name lies inside its room.
        let name = unsafe { part(&reached.name.bytes, 0, reached.name.length) };
        let is_same =
            name.len() == question.len() && leading_letters::<R>(name, question) == question.len();
        if is_same {
            reached.found(reached.position, 1)
        } else {
            reached.found(0, 0)
        }
    }

    /// How many names are less than the question, and a 0.
    pub fn place(self, question: &[u8]) -> Found {
        if self.parts.names == 0 {
            return Found::default();
        }
        // SAFETY: there are names.
        unsafe {
            let spot = self.locate(question);
            spot.found(self.seat(question, &spot), 0)
        }
    }

    /// The question's place, and how many names begin with it.
    pub fn range(self, question: &[u8]) -> Found {
        if self.parts.names == 0 {
            return Found::default();
        }
        // SAFETY: there are names.
        unsafe {
            let spot = self.locate(question);
            let place = self.seat(question, &spot);
            if spot.shared < question.len() {
                spot.found(place, 0)
            } else {
                spot.found(place, self.field(spot.node, Field::Names))
            }
        }
    }

    /// The greatest length of the names that begin with the question, and a 0.
    pub fn width(self, question: &[u8]) -> Found {
        if self.parts.names == 0 {
            return Found::default();
        }
        // SAFETY: there are names.
        unsafe {
            let spot = self.locate(question);
            if spot.shared < question.len() {
                spot.found(0, 0)
            } else {
                spot.found(self.field(spot.node, Field::Width), 0)
            }
        }
    }

    /// The position that the question reaches, and how many leading bytes of the
    /// question to light there; nothing where there are no names.
    pub fn nearest(self, question: &[u8]) -> Option<Found> {
        if self.parts.names == 0 {
            return None;
        }
        // SAFETY: there are names, and a name lies inside its room.
        unsafe {
            let reached = self.reach(question);
            let name = part(&reached.name.bytes, 0, reached.name.length);
            let lit = lit(question, leading_letters::<R>(name, question));
            Some(reached.found(reached.position, lit))
        }
    }
}
