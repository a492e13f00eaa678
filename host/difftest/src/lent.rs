//! What is lent to a call, and what is known of it afterwards.
//!
//! Everything is lent with a fence on one side, before or behind it, so that a
//! call that steps over it is stopped. Beside what may be written, items are
//! watched on the other side.

use fenced::{Fence, Fenced};
use std::ops::Range;
use vectors::random::Random;

/// Lends a copy of these items, with a fence on any side.
pub fn lend<T: Copy>(random: &mut Random, items: &[T]) -> Fenced<T> {
    Fenced::of(items, any_fence(random))
}

/// Either side.
fn any_fence(random: &mut Random) -> Fence {
    *random.one_of(&[Fence::Before, Fence::Behind])
}

/// A room between a fence and items that no call may touch.
#[derive(Clone, PartialEq)]
pub struct Lent<T: Copy> {
    items: Fenced<T>,
    room: Range<usize>,
}

impl<T: Copy + PartialEq> Lent<T> {
    /// A room of this length, with so many items watched beside it, and any
    /// items in all of it.
    pub fn any(
        random: &mut Random,
        length: usize,
        watched: usize,
        mut any_item: impl FnMut(&mut Random) -> T,
    ) -> Lent<T> {
        let items: Vec<T> = (0..length + watched).map(|_| any_item(random)).collect();
        let fence = any_fence(random);
        let start = match fence {
            Fence::Before => 0,
            Fence::Behind => watched,
        };
        Lent {
            items: Fenced::of(&items, fence),
            room: start..start + length,
        }
    }

    /// The room to be lent.
    pub fn room(&mut self) -> &mut [T] {
        &mut self.items[self.room.clone()]
    }

    /// Where the items of both first differ, counted from the start of the
    /// room; negative in the watched items before it.
    pub fn first_difference(&self, other: &Lent<T>) -> Option<isize> {
        let pairs = self.items.iter().zip(other.items.iter());
        let at = pairs.take_while(|(one, other)| one == other).count();
        (at < self.items.len()).then(|| at as isize - self.room.start as isize)
    }

    /// The room between brackets, with the watched items before or behind it.
    pub fn shown(&self, show: impl Fn(&[T]) -> String) -> String {
        let (before, rest) = self.items.split_at(self.room.start);
        let (room, after) = rest.split_at(self.room.len());
        format!("{} [{}] {}", show(before), show(room), show(after))
    }
}

/// How many bytes are watched beside a room of bytes.
const WATCHED: usize = 32;

/// A room of so many bytes.
pub fn any_room(random: &mut Random, length: usize) -> Lent<u8> {
    let (mut byte, step) = (random.byte(), random.byte() | 1);
    Lent::any(random, length, WATCHED, |_| {
        byte = byte.wrapping_add(step);
        byte
    })
}

/// A length of room for an output of this length: often just enough or just
/// too little.
pub fn any_room_length(random: &mut Random, output: usize) -> usize {
    match random.below(12) {
        0 => 0,
        1 | 2 => output.saturating_sub(1),
        3 => random.below(output + 1),
        4 => output + 1,
        5 => output + random.below(100),
        6 if random.once_in(4) => random.between(65_530, 70_000),
        _ => output,
    }
}

/// Bytes in hex, two digits each.
pub fn hex(bytes: &[u8]) -> String {
    bytes.iter().map(|byte| format!("{byte:02X}")).collect()
}
