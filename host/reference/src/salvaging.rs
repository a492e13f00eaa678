//! The blocks of a damaged book, each judged by its own span and then written.

use crate::bytes::{part, put, two};
use crate::calls::Kept;
use crate::checking::{numbers, Entry, Parts};
use crate::rules::Plain;
use crate::{LONGEST_NAME, MOST_NAMES};

/// The parts of a damaged book, if its trailer and its block table make sense.
pub fn map(data: &[u8]) -> Option<Parts> {
    let parts = numbers::<Plain>(data)?;
    let mut above = None;
    for block in 0..parts.blocks() {
        // SAFETY: the trailer's numbers agree with the length.
        let start = unsafe { two(data, parts.blocks_at + 2 * block) };
        let rises = above.map_or(start == 0, |before| before < start);
        if !rises {
            return None;
        }
        above = Some(start);
    }
    let ends = above.map_or(parts.blocks_at == 0, |before| before < parts.blocks_at);
    ends.then_some(parts)
}

/// Blocks that were judged: the names of each that is sound, and how many bytes
/// all of their records have.
pub struct Judged<'data> {
    data: &'data [u8],
    parts: Parts,
    sound: [u8; MOST_NAMES],
    length: usize,
}

impl<'data> Judged<'data> {
    /// Judges every block.
    ///
    /// # Safety
    ///
    /// These are the parts that the map gave.
    pub unsafe fn new(data: &'data [u8], parts: Parts) -> Judged<'data> {
        let mut sound = [0; MOST_NAMES];
        let mut length = 0;
        for block in 0..parts.blocks() {
            let (start, end) = (parts.start(data, block), parts.start(data, block + 1));
            let names = parts.names_in(block);
            if let Some(bytes) = judge(data, start, end, names) {
                *sound.get_unchecked_mut(block) = names as u8;
                length += bytes;
            }
        }
        Judged {
            data,
            parts,
            sound,
            length,
        }
    }

    /// How many bytes the records of the sound blocks have.
    pub fn length(&self) -> usize {
        self.length
    }

    /// Writes these records to the front of the room, and a row for each block.
    ///
    /// # Safety
    ///
    /// The room is long enough, and there are as many rows as blocks.
    pub unsafe fn write(&self, room: &mut [u8], report: &mut [Kept]) {
        let mut at = 0;
        for (block, row) in report.iter_mut().enumerate() {
            let names = usize::from(*self.sound.get_unchecked(block));
            let kept = usize::from(names > 0);
            *row = Kept { kept, names };
            let start = self.parts.start(self.data, block);
            at = write_block(self.data, start, names, room, at);
        }
    }
}

impl Parts {
    /// How many blocks there are.
    #[inline(always)]
    pub fn blocks(&self) -> usize {
        self.names.div_ceil(self.block)
    }

    /// How many names a block has to have.
    #[inline(always)]
    fn names_in(&self, block: usize) -> usize {
        self.block.min(self.names - block * self.block)
    }

    /// Where a block starts, and behind the last one where the entries end.
    ///
    /// # Safety
    ///
    /// The map gave these parts, and there is such a block, or it is the one
    /// behind the last.
    #[inline(always)]
    unsafe fn start(&self, data: &[u8], block: usize) -> usize {
        if block == self.blocks() {
            return self.blocks_at;
        }
        two(data, self.blocks_at + 2 * block)
    }
}

/// How many bytes the records of a block's names have; nothing where it is not
/// sound.
///
/// # Safety
///
/// The end lies inside.
unsafe fn judge(data: &[u8], start: usize, end: usize, names: usize) -> Option<usize> {
    let mut name = [0; LONGEST_NAME];
    let mut before = 0;
    let mut at = start;
    let mut length = 0;
    for number in 0..names {
        let entry = Entry::at(data, at, end)?;
        if number == 0 && entry.stored > 0 {
            return None;
        }
        entry.share_of_other::<Plain>(part(&name, 0, before))?;
        put(&mut name, entry.stored, entry.rest);
        before = entry.length();
        length += 1 + before;
        at += 2 + entry.rest.len();
    }
    (at == end).then_some(length)
}

/// Writes the records of a block's names from this place of the room on, and
/// gives the place behind. What a name shares is copied from the one before it.
///
/// # Safety
///
/// The block is sound, and the room is long enough.
unsafe fn write_block(
    data: &[u8],
    mut start: usize,
    names: usize,
    room: &mut [u8],
    mut at: usize,
) -> usize {
    let mut before = at;
    for _ in 0..names {
        let entry = Entry::standing(data, start);
        let name = at + 1;
        *room.get_unchecked_mut(at) = entry.length() as u8;
        let room_at = room.as_mut_ptr();
        core::ptr::copy_nonoverlapping(room_at.add(before), room_at.add(name), entry.stored);
        put(room, name + entry.stored, entry.rest);
        before = name;
        at = name + entry.length();
        start += 2 + entry.rest.len();
    }
    at
}
