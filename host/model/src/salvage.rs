//! Books from a worn card: the names of the blocks that are still sound.
//!
//! Renders document 02, change request 5. The trailer and the block table are a
//! map of the entries. Where the map makes sense, each block is judged by its own
//! bytes and the number of names it ought to have, and by nothing else. Node
//! records are never looked at. Salvage serves the plain full mark, and that of
//! another kind of book makes no sense to it (change requests 7 and 14).

use crate::calls::{refused, write_out, Answer};
use crate::kinds::BookKind;
use crate::layout::{LARGEST_BLOCK, NODE_LENGTH, TRAILER_LENGTH};
use crate::names::{is_sound_list, leading_equal, write_list, Rule, MOST_NAMES};
use crate::refusals::{BAD_ROW_COUNT, NO_MAP};

/// A row of the report: what became of a block.
#[derive(Clone, Copy, Debug, PartialEq, Eq, Default)]
pub struct Kept {
    /// 1 where the block is kept, 0 where it is dropped.
    pub kept: usize,
    /// How many of its names are written: all of a kept block, none of a dropped
    /// one.
    pub names: usize,
}

/// Writes the names of all sound blocks as list records, block by block, and a
/// report row for each block. Refusals, in this order: 13; 12; 4. A refused call
/// writes nothing, neither to the room nor to the report.
pub fn book_salvage(data: &[u8], room: &mut [u8], report: &mut [Kept]) -> Answer {
    let Some(blocks) = read_map(data) else {
        return refused(NO_MAP);
    };
    if report.len() != blocks.len() {
        return refused(BAD_ROW_COUNT);
    }
    let judged: Vec<Option<Vec<Vec<u8>>>> = blocks.iter().map(sound_names).collect();
    let written = write_out(&records(&judged), room);
    if written.code == 0 {
        for (row, names) in report.iter_mut().zip(&judged) {
            *row = row_of(names.as_deref());
        }
    }
    written
}

/// The list records of all kept blocks, one block behind the other.
fn records(judged: &[Option<Vec<Vec<u8>>>]) -> Vec<u8> {
    let kept = judged.iter().flatten();
    kept.flat_map(|names| write_list(names)).collect()
}

/// The report row of a block with these names, or of one that is dropped.
fn row_of(names: Option<&[Vec<u8>]>) -> Kept {
    match names {
        None => Kept { kept: 0, names: 0 },
        Some(names) => Kept {
            kept: 1,
            names: names.len(),
        },
    }
}

// The map

/// A block as the map has it.
struct Block<'data> {
    /// The bytes from its start up to the next block's, or to the block table.
    span: &'data [u8],
    /// How many names it ought to have.
    names: usize,
}

/// The blocks, or nothing where the trailer and the block table make no sense.
///
/// A length told in two bytes is at most 65,535, so no longer run of bytes has
/// a map.
fn read_map(data: &[u8]) -> Option<Vec<Block<'_>>> {
    let trailer_start = data.len().checked_sub(TRAILER_LENGTH)?;
    let plain_mark = BookKind::Plain.mark();
    let (numbers, mark) = data[trailer_start..].split_at(TRAILER_LENGTH - plain_mark.len());
    let [names, block, block_table, node_table, nodes, length] = read_numbers(numbers)[..] else {
        return None;
    };
    if mark != plain_mark || length != data.len() {
        return None;
    }
    if names > MOST_NAMES || !(1..=LARGEST_BLOCK).contains(&block) {
        return None;
    }
    let parts_meet = block_table + 2 * names.div_ceil(block) == node_table
        && node_table + NODE_LENGTH * nodes == trailer_start;
    if !parts_meet {
        return None;
    }
    let starts = read_numbers(&data[block_table..node_table]);
    let spans = cut_into_spans(&data[..block_table], &starts)?;
    Some(with_proper_numbers(spans, names, block))
}

/// Numbers of two bytes each, low byte first.
fn read_numbers(bytes: &[u8]) -> Vec<usize> {
    let pairs = bytes.chunks(2);
    pairs
        .map(|pair| usize::from(pair[0]) + 256 * usize::from(pair[1]))
        .collect()
}

/// The entries cut at these starts, unless the starts do not strictly rise from 0
/// inside the entries. Without starts there must be no entry bytes.
fn cut_into_spans<'data>(entries: &'data [u8], starts: &[usize]) -> Option<Vec<&'data [u8]>> {
    if starts.is_empty() {
        return entries.is_empty().then(Vec::new);
    }
    // Where each span ends: at the next start, and the last one with the entries.
    let bounds = [starts, &[entries.len()]].concat();
    let rise = bounds.windows(2).all(|pair| pair[0] < pair[1]);
    if starts[0] != 0 || !rise {
        return None;
    }
    let pairs = bounds.windows(2);
    Some(pairs.map(|pair| &entries[pair[0]..pair[1]]).collect())
}

/// The spans with the number of names that each ought to have: the block size,
/// and the last one what is then left of all names.
fn with_proper_numbers(spans: Vec<&[u8]>, names: usize, block: usize) -> Vec<Block<'_>> {
    let mut left = names;
    let mut blocks = Vec::new();
    for span in spans {
        let names = left.min(block);
        blocks.push(Block { span, names });
        left -= names;
    }
    blocks
}

// A block alone

/// An entry: its shared count and its rest.
type Entry<'data> = (usize, &'data [u8]);

/// The names of a block, or nothing where it is not sound.
fn sound_names(block: &Block) -> Option<Vec<Vec<u8>>> {
    let entries = cut_into_entries(block.span)?;
    let names = names_of(&entries)?;
    let sound = names.len() == block.names
        && is_sound_list(Rule::Plain, &names)
        && has_greatest_counts(&entries, &names);
    sound.then_some(names)
}

/// The entries of a span, unless the last of them ends past it. A single byte at
/// the end is no entry.
fn cut_into_entries(span: &[u8]) -> Option<Vec<Entry<'_>>> {
    let mut entries = Vec::new();
    let mut unread = span;
    while !unread.is_empty() {
        let shared = usize::from(unread[0]);
        let length = usize::from(*unread.get(1)?);
        entries.push((shared, unread.get(2..2 + length)?));
        unread = &unread[2 + length..];
    }
    Some(entries)
}

/// The name of each entry: so many bytes of the name before, then the rest. There
/// is none where the name before has fewer, and before the first name there is
/// nothing to share.
fn names_of(entries: &[Entry]) -> Option<Vec<Vec<u8>>> {
    let mut names: Vec<Vec<u8>> = Vec::new();
    for &(shared, rest) in entries {
        let before = names.last().map_or(&[][..], |name| name);
        names.push([before.get(..shared)?, rest].concat());
    }
    Some(names)
}

/// Whether each entry behind the first shares all that its name has in common
/// with the name before.
fn has_greatest_counts(entries: &[Entry], names: &[Vec<u8>]) -> bool {
    let pairs = names.windows(2);
    let greatest = pairs.map(|pair| leading_equal(&pair[0], &pair[1]));
    let stored = entries.iter().skip(1).map(|&(shared, _)| shared);
    stored.eq(greatest)
}
