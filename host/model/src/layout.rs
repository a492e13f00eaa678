//! The bytes of a book.
//!
//! Renders document 01, "Layout of a book": entries, block table, node table,
//! trailer, one behind the other without gaps. The size of a node is that of
//! document 02, change request 1; the kinds of book are those of change requests 7
//! and 10. A kind has a say in the nodes, which go by symbols, in the order of their
//! numbers, and in the mark. The entries go by bytes whatever the kind, so that
//! spelling comes back unchanged.
//!
//! No limit is applied here. A number that does not fit its one or two bytes
//! is cut to the low ones; for a list and block size that a build accepts, and
//! a book of at most 65,535 bytes, that never happens.

use crate::kinds::BookKind;
use crate::names::{leading_equal, low_byte, Rule};
use crate::tree::{tree, Node};

/// The longest book.
pub const LONGEST_BOOK: usize = 65_535;
/// The largest block size; the smallest is 1.
pub const LARGEST_BLOCK: usize = 64;
/// The length of the trailer, and so of the shortest book.
pub const TRAILER_LENGTH: usize = 16;
/// The length of a node: six numbers of two bytes.
pub const NODE_LENGTH: usize = 12;

/// The book of this kind of these names with this block size.
pub fn book_of(kind: BookKind, block: usize, names: &[Vec<u8>]) -> Vec<u8> {
    let entries = entries(block, names);
    let block_table = block_table(block, names);
    let node_table = node_table(kind, names);
    let trailer = trailer(kind, block, names, entries.len(), block_table.len());
    [entries, block_table, node_table, trailer].concat()
}

/// Part 1: the entry of each name.
pub fn entries(block: usize, names: &[Vec<u8>]) -> Vec<u8> {
    let mut bytes = Vec::new();
    for position in 0..names.len() {
        bytes.extend(entry(block, names, position));
    }
    bytes
}

/// One entry: the shared count, the length of the rest, the rest.
///
/// After Mar, inside a block, Marina is 03 03 ina.
fn entry(block: usize, names: &[Vec<u8>], position: usize) -> Vec<u8> {
    let shared = stored_count(block, names, position);
    let rest = &names[position][shared..];
    let mut bytes = vec![low_byte(shared), low_byte(rest.len())];
    bytes.extend_from_slice(rest);
    bytes
}

/// The shared count as stored: all leading bytes that the name has in common
/// with the one before, but 0 for the first name of a block.
///
/// Bytes are counted and not symbols: marina after MAR has the count 0, also where
/// the two are folded.
pub fn stored_count(block: usize, names: &[Vec<u8>], position: usize) -> usize {
    if starts_block(block, position) {
        0
    } else {
        leading_equal(&names[position - 1], &names[position])
    }
}

/// Whether this position is the first of its block. Position 0 always is.
fn starts_block(block: usize, position: usize) -> bool {
    position.is_multiple_of(block)
}

/// Part 2: for every block, at which byte of the book its entries begin.
pub fn block_table(block: usize, names: &[Vec<u8>]) -> Vec<u8> {
    let mut bytes = Vec::new();
    let mut offset = 0;
    for position in 0..names.len() {
        if starts_block(block, position) {
            bytes.extend(two_bytes(offset));
        }
        offset += entry(block, names, position).len();
    }
    bytes
}

/// Part 3: the six numbers of every node of the tree, two bytes each; none without
/// names. They stand node by node, or column by column.
pub fn node_table(kind: BookKind, names: &[Vec<u8>]) -> Vec<u8> {
    let mut nodes = Vec::new();
    if let Some(root) = tree(kind.rule(), names) {
        list_node(&root, &mut nodes);
    }
    match kind {
        BookKind::Plain | BookKind::Folded => record_by_record(&nodes),
        BookKind::Columns => column_by_column(&nodes),
    }
}

/// The six numbers of a node, in the order of the fields: symbol, depth, first name,
/// number of names, number of nodes, greatest length.
type Record = [usize; NODE_LENGTH / 2];

/// A node, then its row of children, each of them with its own row.
fn list_node(node: &Node, nodes: &mut Vec<Record>) {
    nodes.push([
        node.symbol,
        node.depth,
        node.first,
        node.names,
        node.nodes,
        node.width,
    ]);
    for child in &node.children {
        list_node(child, nodes);
    }
}

/// All numbers of the first node, then all of the second, and so on.
fn record_by_record(nodes: &[Record]) -> Vec<u8> {
    let mut bytes = Vec::new();
    for record in nodes {
        for &number in record {
            bytes.extend(two_bytes(number));
        }
    }
    bytes
}

/// The symbols of all nodes, then the depths of all nodes, and so on.
fn column_by_column(nodes: &[Record]) -> Vec<u8> {
    let mut bytes = Vec::new();
    for field in 0..NODE_LENGTH / 2 {
        for record in nodes {
            bytes.extend(two_bytes(record[field]));
        }
    }
    bytes
}

/// How many nodes the book of these names has: the trailer's number m.
pub fn node_count(rule: Rule, names: &[Vec<u8>]) -> usize {
    tree(rule, names).map_or(0, |root| root.nodes)
}

/// Part 4: six numbers and the mark.
fn trailer(
    kind: BookKind,
    block: usize,
    names: &[Vec<u8>],
    entries_length: usize,
    block_table_length: usize,
) -> Vec<u8> {
    let nodes = node_count(kind.rule(), names);
    let block_table_start = entries_length;
    let node_table_start = block_table_start + block_table_length;
    let book_length = node_table_start + NODE_LENGTH * nodes + TRAILER_LENGTH;

    let mut bytes = Vec::new();
    bytes.extend(two_bytes(names.len()));
    bytes.extend(two_bytes(block));
    bytes.extend(two_bytes(block_table_start));
    bytes.extend(two_bytes(node_table_start));
    bytes.extend(two_bytes(nodes));
    bytes.extend(two_bytes(book_length));
    bytes.extend(kind.mark());
    bytes
}

/// A number in two bytes, low byte first.
fn two_bytes(number: usize) -> [u8; 2] {
    [low_byte(number), low_byte(number / 256)]
}
