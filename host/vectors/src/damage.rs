//! Ways to spoil a list or a book.
//!
//! What comes out may by chance be sound again; the second program says what
//! it is.

use crate::lists::Names;
use crate::pieces::{Node, Pieces, Trailer, DEPTH, FIRST, NAMES, NODE_FIELDS, WIDTH};
use crate::random::Random;
use format::{NODE, TRAILER};
use model::names::leading_equal;
use model::BookKind;

/// Spoils one place in a list of names: a name twice, two neighbours swapped, a
/// name followed by its own beginning, or a name that is too long.
pub fn spoil_names(random: &mut Random, names: &mut Names) {
    if names.is_empty() {
        return;
    }
    let at = random.below(names.len());
    match random.below(4) {
        0 => names.insert(at, names[at].clone()),
        1 => names.swap(at.saturating_sub(1), at),
        2 => {
            let mut beginning = names[at].clone();
            beginning.pop();
            names.insert(at + 1, beginning);
        }
        _ => names[at].resize(random.between(201, 255), b'x'),
    }
}

/// Spoils one place in the bytes of a list or a book: a byte changed, put in or taken
/// out, the end cut off, or bytes behind the end.
pub fn spoil_bytes(random: &mut Random, list: &mut Vec<u8>) {
    if list.is_empty() {
        list.push(random.byte());
        return;
    }
    let at = random.below(list.len());
    match random.below(6) {
        0 => list[at] = random.byte(),
        1 => list[at] ^= 1 << random.below(8),
        2 => list.insert(at, random.byte()),
        3 => drop(list.remove(at)),
        4 => list.truncate(at),
        _ => list.extend((0..random.between(1, 3)).map(|_| random.byte())),
    }
}

/// Spoilt lists or books, each with a word on how.
pub type Spoilt = Vec<(String, Vec<u8>)>;

/// Each byte of a list or a book one more, then each one less.
pub fn changed_bytes(sound: &[u8]) -> Spoilt {
    let mut spoilt = Spoilt::new();
    for (step, how) in [(1, "more"), (255, "less")] {
        for at in 0..sound.len() {
            let mut bytes = sound.to_vec();
            bytes[at] = bytes[at].wrapping_add(step);
            spoilt.push((format!("byte {at} one {how}"), bytes));
        }
    }
    spoilt
}

/// A list or a book cut short, from behind and from the front, down to one byte.
pub fn cut_bytes(sound: &[u8]) -> Spoilt {
    let lengths = 1..sound.len();
    let fronts = lengths.clone().map(|length| {
        let how = format!("the first {length} bytes");
        (how, sound[..length].to_vec())
    });
    let ends = lengths.map(|length| {
        let how = format!("the last {length} bytes");
        (how, sound[sound.len() - length..].to_vec())
    });
    fronts.chain(ends).collect()
}

/// The pieces after one change, as bytes.
fn changed(book: &Pieces, change: impl FnOnce(&mut Pieces)) -> Vec<u8> {
    let mut pieces = book.clone();
    change(&mut pieces);
    pieces.bytes()
}

/// Counts that are not the stored ones: every smaller one, and what a block's
/// first name shares with the name before. Rest, tables and trailer are moved
/// along, so the names still read well.
pub fn other_counts(book: &Pieces) -> Spoilt {
    let mut spoilt = Spoilt::new();
    for position in 1..book.entries.len() {
        let names = &book.made_of;
        let most = leading_equal(&names[position - 1], &names[position]);
        let stored = book.entries[position].shared;
        for shared in (0..=most).filter(|&shared| shared != stored) {
            let bytes = changed(book, |pieces| {
                pieces.store(position, shared);
                pieces.settle();
            });
            spoilt.push((format!("entry {position} with count {shared}"), bytes));
        }
    }
    spoilt
}

/// Counts that are too large: one more with the same rest, one more with the
/// rest one shorter, and more than any name has.
pub fn large_counts(book: &Pieces) -> Spoilt {
    let mut spoilt = Spoilt::new();
    for position in 0..book.entries.len() {
        let more = changed(book, |pieces| pieces.entries[position].shared += 1);
        spoilt.push((format!("entry {position}, count one more"), more));
        let shifted = changed(book, |pieces| {
            let entry = &mut pieces.entries[position];
            entry.shared += 1;
            entry.length -= 1;
            entry.rest.remove(0);
            pieces.settle();
        });
        spoilt.push((format!("entry {position}, a letter counted"), shifted));
        let most = changed(book, |pieces| pieces.entries[position].shared = 255);
        spoilt.push((format!("entry {position}, count 255"), most));
    }
    spoilt
}

/// Lengths of a rest that are wrong, and rests that are: one byte more or
/// less, or none, with tables and trailer moved along.
pub fn other_rests(book: &Pieces) -> Spoilt {
    let mut spoilt = Spoilt::new();
    for position in 0..book.entries.len() {
        let stored = book.entries[position].length;
        let lengths = [0, 1, 200, 201, 255].into_iter();
        for length in lengths.filter(|&length| length != stored) {
            let bytes = changed(book, |pieces| pieces.entries[position].length = length);
            spoilt.push((format!("entry {position}, length {length}"), bytes));
        }
        for length in [0, stored - 1, stored + 1] {
            let bytes = changed(book, |pieces| {
                let entry = &mut pieces.entries[position];
                entry.rest.resize(length, b'z');
                entry.length = length;
                pieces.settle();
            });
            spoilt.push((format!("entry {position}, a rest of {length}"), bytes));
        }
    }
    spoilt
}

/// Entries left out, doubled and in another order, with tables and trailer
/// moved along.
pub fn other_entries(book: &Pieces) -> Spoilt {
    let mut spoilt = Spoilt::new();
    for position in 0..book.entries.len() {
        let dropped = changed(book, |pieces| {
            pieces.entries.remove(position);
            pieces.settle();
        });
        spoilt.push((format!("entry {position} left out"), dropped));
        let doubled = changed(book, |pieces| {
            pieces
                .entries
                .insert(position, book.entries[position].clone());
            pieces.settle();
        });
        spoilt.push((format!("entry {position} doubled"), doubled));
        if position > 0 {
            let swapped = changed(book, |pieces| {
                pieces.entries.swap(position - 1, position);
                pieces.settle();
            });
            spoilt.push((format!("entries swapped before {position}"), swapped));
        }
    }
    spoilt
}

/// Block starts shifted, swapped, left out, doubled, and one too many.
pub fn other_starts(book: &Pieces) -> Spoilt {
    let mut spoilt = Spoilt::new();
    for block in 0..book.starts.len() {
        for (step, how) in [(1, "later"), (usize::MAX, "earlier")] {
            let bytes = changed(book, |pieces| {
                pieces.starts[block] = pieces.starts[block].wrapping_add(step);
            });
            spoilt.push((format!("block {block} one {how}"), bytes));
        }
        let dropped = changed(book, |pieces| {
            pieces.starts.remove(block);
            pieces.settle_trailer();
        });
        spoilt.push((format!("block {block} left out"), dropped));
        let doubled = changed(book, |pieces| {
            pieces.starts.insert(block, book.starts[block]);
            pieces.settle_trailer();
        });
        spoilt.push((format!("block {block} doubled"), doubled));
        let first = changed(book, |pieces| pieces.starts.swap(0, block));
        if block > 0 {
            spoilt.push((format!("block {block} swapped with the first"), first));
        }
    }
    let shifted = changed(book, |pieces| {
        pieces.starts.iter_mut().for_each(|start| *start += 1);
    });
    spoilt.push(("all blocks one later".to_string(), shifted));
    let more = changed(book, |pieces| {
        pieces.starts.push(book.trailer.block_table);
        pieces.settle_trailer();
    });
    spoilt.push(("a block without names".to_string(), more));
    spoilt
}

/// Nodes swapped, left out and doubled, with the trailer moved along, and each
/// number of each node one more and one less.
pub fn other_nodes(book: &Pieces) -> Spoilt {
    let mut spoilt = Spoilt::new();
    for node in 0..book.nodes.len() {
        for (field, name) in NODE_FIELDS.iter().enumerate() {
            for (step, how) in [(1, "more"), (usize::MAX, "less")] {
                let bytes = changed(book, |pieces| {
                    let number = &mut pieces.nodes[node][field];
                    *number = number.wrapping_add(step);
                });
                spoilt.push((format!("node {node}, {name} one {how}"), bytes));
            }
        }
        let dropped = changed(book, |pieces| {
            pieces.nodes.remove(node);
            pieces.settle_trailer();
        });
        spoilt.push((format!("node {node} left out"), dropped));
        let doubled = changed(book, |pieces| {
            pieces.nodes.insert(node, book.nodes[node]);
            pieces.settle_trailer();
        });
        spoilt.push((format!("node {node} doubled"), doubled));
        if node > 0 {
            let swapped = changed(book, |pieces| pieces.nodes.swap(node - 1, node));
            spoilt.push((format!("nodes swapped before {node}"), swapped));
        }
    }
    let none = changed(book, |pieces| {
        pieces.nodes.clear();
        pieces.settle_trailer();
    });
    spoilt.push(("no nodes".to_string(), none));
    spoilt
}

/// Widths that are not the node's, but stand near by: that of its first child, the
/// lengths of its first and of its last name, its depth, and none.
pub fn other_widths(book: &Pieces) -> Spoilt {
    let mut spoilt = Spoilt::new();
    for (at, node) in book.nodes.iter().enumerate() {
        let mut wrong = Vec::new();
        if node[NAMES] > 1 {
            let (first, last) = (node[FIRST], node[FIRST] + node[NAMES] - 1);
            wrong.push(("its first child's", book.nodes[at + 1][WIDTH]));
            wrong.push(("its first name's", book.made_of[first].len()));
            wrong.push(("its last name's", book.made_of[last].len()));
        }
        wrong.extend([("its depth", node[DEPTH]), ("0", 0)]);
        let mut seen = vec![node[WIDTH]];
        for (what, width) in wrong {
            if seen.contains(&width) {
                continue;
            }
            seen.push(width);
            let bytes = changed(book, |pieces| pieces.nodes[at][WIDTH] = width);
            spoilt.push((format!("node {at}, width is {what}"), bytes));
        }
    }
    spoilt
}

/// The mark of books before nodes had widths.
pub const OLD_MARK: [u8; 4] = *b"NBK1";

/// The book of before nodes had widths, under its own mark and under today's; and
/// the book of today under the old mark.
pub fn old_books(book: &Pieces) -> Spoilt {
    let nodes = NODE * book.nodes.len();
    let without_widths = |mark| {
        let bytes = changed(book, |pieces| {
            pieces.trailer.length -= 2 * book.nodes.len();
            pieces.trailer.mark = mark;
        });
        let (front, rest) = bytes.split_at(book.trailer.node_table);
        let (nodes, trailer) = rest.split_at(nodes);
        let nodes: Vec<&[u8]> = match book.kind {
            BookKind::Plain | BookKind::Folded => {
                nodes.chunks(NODE).map(|node| &node[..2 * WIDTH]).collect()
            }
            // the widths are the last column
            BookKind::Columns => vec![&nodes[..2 * WIDTH * book.nodes.len()]],
        };
        [front, &nodes.concat(), trailer].concat()
    };
    let marked = changed(book, |pieces| pieces.trailer.mark = OLD_MARK);
    vec![
        ("no widths, old mark".to_string(), without_widths(OLD_MARK)),
        (
            "no widths, new mark".to_string(),
            without_widths(book.trailer.mark),
        ),
        ("old mark".to_string(), marked),
    ]
}

/// A byte of 0 before each of the four parts. The trailer's numbers stay, or
/// move along so that the gap lies on either side of a part's start.
pub fn gaps(book: &Pieces) -> Spoilt {
    let trailer = &book.trailer;
    let end = trailer.length - TRAILER;
    let mut spoilt = Spoilt::new();
    for (part, at) in [0, trailer.block_table, trailer.node_table, end]
        .into_iter()
        .enumerate()
    {
        for (block_table, node_table) in [(0, 0), (0, 1), (1, 1), (1, 0)] {
            for length in [0, 1] {
                let mut bytes = changed(book, |pieces| {
                    pieces.trailer.block_table += block_table;
                    pieces.trailer.node_table += node_table;
                    pieces.trailer.length += length;
                });
                bytes.insert(at, 0);
                let moved = format!("moved by {block_table} {node_table} {length}");
                spoilt.push((format!("gap before part {}, {moved}", part + 1), bytes));
            }
        }
    }
    spoilt
}

/// Every kind of spoilt book above that the block size has a part in, but for
/// single bytes and cuts.
pub fn other_blocks(book: &Pieces) -> Spoilt {
    let kinds = [
        other_counts,
        large_counts,
        other_rests,
        other_entries,
        other_starts,
        gaps,
        old_books,
    ];
    kinds.iter().flat_map(|kind| kind(book)).collect()
}

/// Every kind of spoilt book above, but for single bytes and cuts.
pub fn other_pieces(book: &Pieces) -> Spoilt {
    [other_blocks, other_nodes, other_widths]
        .iter()
        .flat_map(|kind| kind(book))
        .collect()
}

/// Spoils a book at random: up to three bytes, as a list would be spoilt, or
/// one of its pieces.
pub fn spoil_book(random: &mut Random, kind: BookKind, block: usize, names: &Names) -> Vec<u8> {
    let mut pieces = Pieces::of(kind, block, names);
    let settled = random.once_in(2);
    match random.below(8) {
        0 | 1 => spoil_node(random, &mut pieces.nodes),
        2 => spoil_entry(random, &mut pieces),
        3 => spoil_number(random, &mut pieces.trailer),
        4 if !pieces.starts.is_empty() => {
            let start = random.below(pieces.starts.len());
            pieces.starts[start] = near(random, pieces.starts[start]);
        }
        _ => {
            let mut bytes = pieces.bytes();
            for _ in 0..random.between(1, 3) {
                spoil_bytes(random, &mut bytes);
            }
            return bytes;
        }
    }
    if settled {
        pieces.settle();
    }
    pieces.bytes()
}

/// Spoils one node, or the order or number of nodes.
fn spoil_node(random: &mut Random, nodes: &mut Vec<Node>) {
    if nodes.is_empty() {
        return;
    }
    let at = random.below(nodes.len());
    match random.below(6) {
        0 => nodes.swap(at, at.saturating_sub(1)),
        1 => drop(nodes.remove(at)),
        2 => nodes.insert(at, nodes[at]),
        _ => {
            let field = random.below(NODE_FIELDS.len());
            nodes[at][field] = near(random, nodes[at][field]);
        }
    }
}

/// Spoils one entry, or the order or number of entries.
pub(crate) fn spoil_entry(random: &mut Random, pieces: &mut Pieces) {
    let entries = &mut pieces.entries;
    if entries.is_empty() {
        return;
    }
    let at = random.below(entries.len());
    match random.below(6) {
        0 => entries.swap(at, at.saturating_sub(1)),
        1 => drop(entries.remove(at)),
        2 => entries.insert(at, entries[at].clone()),
        3 => entries[at].shared = near(random, entries[at].shared),
        4 => entries[at].length = near(random, entries[at].length),
        _ => {
            let shared = entries[at].shared;
            pieces.store(at, random.below(shared + 1));
        }
    }
}

/// Spoils one number of the trailer, or gives it the old mark.
pub(crate) fn spoil_number(random: &mut Random, trailer: &mut Trailer) {
    let number = match random.below(7) {
        0 => &mut trailer.names,
        1 => &mut trailer.block,
        2 => &mut trailer.block_table,
        3 => &mut trailer.node_table,
        4 => &mut trailer.nodes,
        5 => &mut trailer.length,
        _ => return trailer.mark = OLD_MARK,
    };
    *number = near(random, *number);
}

/// Puts the mark of the other kind of full book in place of the last four bytes.
pub fn swap_mark(book: &mut [u8]) {
    match BookKind::of_marked(book) {
        Some(BookKind::Plain) => mark_as(BookKind::Folded, book),
        _ => mark_as(BookKind::Plain, book),
    }
}

/// Puts the mark of this kind of book in place of the last four bytes.
pub fn mark_as(kind: BookKind, book: &mut [u8]) {
    if let Some(end) = book.last_chunk_mut() {
        *end = kind.mark();
    }
}

/// A number near this one, or any of two bytes.
pub(crate) fn near(random: &mut Random, number: usize) -> usize {
    match random.below(6) {
        0 => random.below(65_536),
        1 => random.below(4),
        2 => number.wrapping_add(2),
        3 => number.wrapping_add(1),
        _ => number.wrapping_sub(1),
    }
}
