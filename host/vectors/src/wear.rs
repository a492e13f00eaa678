//! Ways in which a card with a book on it wears.
//!
//! Most of them leave the trailer and the block table as they are, or move them
//! along, so that blocks stay to be judged. What comes out may by chance be
//! sound; the second program says what it is.

use crate::damage::{near, spoil_bytes, spoil_entry, spoil_number};
use crate::pieces::{Node, Pieces};
use crate::random::Random;
use format::{LONGEST_BOOK, NODE};
use std::ops::Range;

/// A way to wear.
pub struct Way {
    /// What it does, in a few words.
    pub how: &'static str,
    /// The bytes of a book after it.
    pub worn: fn(&mut Random, Pieces) -> Vec<u8>,
}

/// Every way.
pub const WAYS: [Way; 11] = [
    Way {
        how: "a byte of a block",
        worn: |random, pieces| in_a_block(random, &pieces, wear_byte),
    },
    Way {
        how: "a run of bytes of a block",
        worn: |random, pieces| in_a_block(random, &pieces, wear_run),
    },
    Way {
        how: "a whole block",
        worn: |random, pieces| in_a_block(random, &pieces, overwrite),
    },
    Way {
        how: "bytes of many blocks",
        worn: bytes_of_many_blocks,
    },
    Way {
        how: "an entry, all moved along",
        worn: an_entry,
    },
    Way {
        how: "blocks in another order",
        worn: blocks_in_another_order,
    },
    Way {
        how: "a block start",
        worn: a_block_start,
    },
    Way {
        how: "the trailer",
        worn: the_trailer,
    },
    Way {
        how: "node records",
        worn: node_records,
    },
    Way {
        how: "another number of nodes",
        worn: another_number_of_nodes,
    },
    Way {
        how: "bytes put in or taken out",
        worn: bytes_put_in_or_taken_out,
    },
];

/// The bytes of a book after any of them. Bytes that are too many for a book are
/// left as they are: of their starts two bytes hold only a part, so they have no
/// spans.
pub fn any(random: &mut Random, pieces: Pieces) -> Vec<u8> {
    if pieces.trailer.length > LONGEST_BOOK {
        return pieces.bytes();
    }
    let way = random.one_of(&WAYS);
    (way.worn)(random, pieces)
}

/// Wears a span that is not empty: a byte, a run of bytes, or all of it.
pub fn wear_span(random: &mut Random, span: &mut [u8]) {
    match random.below(6) {
        0 => overwrite(random, span),
        1 | 2 => wear_run(random, span),
        _ => wear_byte(random, span),
    }
}

/// A byte gets any other, or one near it.
fn wear_byte(random: &mut Random, span: &mut [u8]) {
    let byte = random.below(span.len());
    let changed = match random.below(4) {
        0 => random.byte(),
        1 => span[byte] ^ 1 << random.below(8),
        2 => random.below(4) as u8,
        _ => near(random, usize::from(span[byte])) as u8,
    };
    span[byte] = changed;
}

/// A run of bytes is overwritten.
fn wear_run(random: &mut Random, span: &mut [u8]) {
    let start = random.below(span.len());
    let most = (span.len() - start).min(20);
    let length = random.between(1, most);
    overwrite(random, &mut span[start..start + length]);
}

/// All bytes are the same, as where a card is erased, or any.
fn overwrite(random: &mut Random, span: &mut [u8]) {
    match random.below(3) {
        0 => span.fill_with(|| random.byte()),
        _ => span.fill(*random.one_of(&[0, 1, b'a', 255])),
    }
}

/// Wears the span of one block, if there is any.
fn in_a_block(random: &mut Random, pieces: &Pieces, wear: fn(&mut Random, &mut [u8])) -> Vec<u8> {
    let mut bytes = pieces.bytes();
    let spans = pieces.spans();
    if !spans.is_empty() {
        let span = random.one_of(&spans).clone();
        wear(random, &mut bytes[span]);
    }
    bytes
}

/// Wears every block, or every second, or fewer.
fn bytes_of_many_blocks(random: &mut Random, pieces: Pieces) -> Vec<u8> {
    let mut bytes = pieces.bytes();
    wear_blocks(random, &mut bytes, &pieces.spans());
    bytes
}

/// Wears the spans of every block, or of every second, or of fewer.
fn wear_blocks(random: &mut Random, bytes: &mut [u8], spans: &[Range<usize>]) {
    let times = random.between(1, 3);
    for span in spans {
        if random.once_in(times) {
            wear_span(random, &mut bytes[span.clone()]);
        }
    }
}

/// The bytes of a book that is worn in its blocks alone, and where these stand.
/// Now and then a block starts elsewhere, too, but the map makes sense if it did.
pub fn any_blocks(random: &mut Random, mut pieces: Pieces) -> (Vec<u8>, Vec<Range<usize>>) {
    if random.once_in(8) && pieces.starts.len() > 1 {
        let block = random.between(1, pieces.starts.len() - 1);
        let ends = [pieces.starts[block - 1] + 1, pieces.spans()[block].end - 1];
        pieces.starts[block] = random.between(ends[0], ends[1]);
    }
    let (mut bytes, spans) = (pieces.bytes(), pieces.spans());
    if !random.once_in(3) {
        wear_blocks(random, &mut bytes, &spans);
    }
    (bytes, spans)
}

/// Spoils an entry and moves block table and trailer along, so that the block's
/// span has other bytes, or more or fewer of them.
fn an_entry(random: &mut Random, mut pieces: Pieces) -> Vec<u8> {
    let (names, starts) = (pieces.trailer.names, pieces.starts.len());
    spoil_entry(random, &mut pieces);
    pieces.settle();
    if random.once_in(2) && pieces.starts.len() == starts {
        pieces.trailer.names = names;
    }
    pieces.bytes()
}

/// Two blocks that are full change places, and block table and trailer are moved
/// along: the names do not rise any more from block to block.
fn blocks_in_another_order(random: &mut Random, mut pieces: Pieces) -> Vec<u8> {
    let block = pieces.trailer.block;
    let full = pieces.entries.len() / block;
    if full > 0 {
        let [one, other] = [(); 2].map(|()| block * random.below(full));
        for entry in 0..block {
            pieces.entries.swap(one + entry, other + entry);
        }
    }
    pieces.settle();
    pieces.bytes()
}

/// A block start is another number, or changes places with one.
fn a_block_start(random: &mut Random, mut pieces: Pieces) -> Vec<u8> {
    let starts = &mut pieces.starts;
    if !starts.is_empty() {
        let start = random.below(starts.len());
        match random.below(5) {
            0 => starts.swap(start, start.saturating_sub(1)),
            1 => starts[start] = random.below(pieces.trailer.block_table + 2),
            _ => starts[start] = near(random, starts[start]),
        }
    }
    pieces.bytes()
}

/// A number of the trailer or its mark; or n by so little that the number of
/// blocks stays.
fn the_trailer(random: &mut Random, mut pieces: Pieces) -> Vec<u8> {
    if random.once_in(3) {
        let (blocks, block) = (pieces.starts.len(), pieces.trailer.block);
        pieces.trailer.names = blocks * block - random.below(block).min(blocks * block);
    } else {
        spoil_number(random, &mut pieces.trailer);
    }
    pieces.bytes()
}

/// Bytes of the node table, or all of them.
fn node_records(random: &mut Random, pieces: Pieces) -> Vec<u8> {
    let mut bytes = pieces.bytes();
    let start = pieces.trailer.node_table;
    let table = &mut bytes[start..start + NODE * pieces.nodes.len()];
    match random.below(2) {
        _ if table.is_empty() => (),
        0 => overwrite(random, table),
        _ => wear_span(random, table),
    }
    bytes
}

/// More nodes or fewer than the names have, with the trailer moved along; where
/// the book would be too long, none.
fn another_number_of_nodes(random: &mut Random, mut pieces: Pieces) -> Vec<u8> {
    let any_node: Node = [random.below(65_536); NODE / 2];
    let nodes = match random.below(4) {
        0 => 0,
        1 => 2 * pieces.entries.len(),
        2 => near(random, pieces.nodes.len()) % 5000,
        _ => random.below(40),
    };
    pieces.nodes.resize(nodes, any_node);
    pieces.settle_trailer();
    if pieces.trailer.length > LONGEST_BOOK {
        pieces.nodes.clear();
        pieces.settle_trailer();
    }
    pieces.bytes()
}

/// A byte more or less somewhere, or the end cut off, so that nothing stands where
/// the map says.
fn bytes_put_in_or_taken_out(random: &mut Random, pieces: Pieces) -> Vec<u8> {
    let mut bytes = pieces.bytes();
    spoil_bytes(random, &mut bytes);
    bytes
}
