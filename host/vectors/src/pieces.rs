//! A book in pieces, so that it can be put together wrongly.
//!
//! A book is taken apart, a piece is changed, and the bytes are written anew.
//! What follows from the piece can be moved along first, so that one rule of
//! the layout is broken and nothing else tells of it.

use crate::lists::Names;
use format::{NODE, TRAILER};
use model::layout::{block_table, node_table, stored_count};
use model::BookKind;
use std::ops::Range;

/// The numbers of a node.
pub type Node = [usize; NODE / 2];

/// What they are, in their order.
pub const NODE_FIELDS: [&str; NODE / 2] =
    ["symbol", "depth", "first name", "names", "nodes", "width"];
/// Which of them is the depth.
pub const DEPTH: usize = 1;
/// Which is the position of the first name.
pub const FIRST: usize = 2;
/// Which is the number of names.
pub const NAMES: usize = 3;
/// Which is the number of nodes.
pub const NODES: usize = 4;
/// Which is the greatest length of a name.
pub const WIDTH: usize = 5;

/// An entry. The length need not be that of the rest.
#[derive(Clone)]
pub struct Entry {
    /// The count shared with the name before.
    pub shared: usize,
    /// The length of the rest, as it is stored.
    pub length: usize,
    /// The rest.
    pub rest: Vec<u8>,
}

/// The numbers of the trailer, and the mark.
#[derive(Clone, Default)]
pub struct Trailer {
    /// n.
    pub names: usize,
    /// k.
    pub block: usize,
    /// Where the block table starts.
    pub block_table: usize,
    /// Where the node table starts.
    pub node_table: usize,
    /// m.
    pub nodes: usize,
    /// The length of the whole book.
    pub length: usize,
    /// The last four bytes.
    pub mark: [u8; 4],
}

/// A book in pieces.
#[derive(Clone)]
pub struct Pieces {
    /// The kind that the book was made as: it says how the node table stands.
    pub kind: BookKind,
    /// The names that the book was made of.
    pub made_of: Names,
    /// An entry for each name.
    pub entries: Vec<Entry>,
    /// The block table.
    pub starts: Vec<usize>,
    /// The node table.
    pub nodes: Vec<Node>,
    /// The trailer.
    pub trailer: Trailer,
}

impl Pieces {
    /// The book of this kind of these names with this block size.
    pub fn of(kind: BookKind, block: usize, names: &Names) -> Pieces {
        // A column book has the plain one's nodes; they are taken node by node here.
        let by_nodes = match kind {
            BookKind::Plain | BookKind::Columns => BookKind::Plain,
            BookKind::Folded => BookKind::Folded,
        };
        let nodes = numbers(&node_table(by_nodes, names));
        let nodes = nodes
            .chunks(NODE_FIELDS.len())
            .map(|node| node.try_into().unwrap());
        let mut pieces = Pieces {
            kind,
            made_of: names.clone(),
            entries: Vec::new(),
            starts: numbers(&block_table(block, names)),
            nodes: nodes.collect(),
            trailer: Trailer {
                block,
                mark: kind.mark(),
                ..Trailer::default()
            },
        };
        for position in 0..names.len() {
            let shared = stored_count(block, names, position);
            pieces.entries.push(entry(&names[position], shared));
        }
        pieces.settle_trailer();
        pieces
    }

    /// The same pieces as a book of this kind, with its mark: the numbers stay, and
    /// the node table stands as that kind has it.
    pub fn in_kind(mut self, kind: BookKind) -> Pieces {
        self.kind = kind;
        self.trailer.mark = kind.mark();
        self
    }

    /// The numbers of all nodes in the order in which they stand.
    fn node_numbers(&self) -> Vec<usize> {
        match self.kind {
            BookKind::Plain | BookKind::Folded => self.nodes.concat(),
            BookKind::Columns => {
                let fields = 0..NODE_FIELDS.len();
                fields
                    .flat_map(|field| self.nodes.iter().map(move |node| node[field]))
                    .collect()
            }
        }
    }

    /// Stores this name again, with this count.
    pub fn store(&mut self, position: usize, shared: usize) {
        self.entries[position] = entry(&self.made_of[position], shared);
    }

    /// Moves along the block table and the trailer, but for the block size.
    pub fn settle(&mut self) {
        let block = self.trailer.block.max(1);
        let mut at = 0;
        self.starts.clear();
        for (position, entry) in self.entries.iter().enumerate() {
            if position.is_multiple_of(block) {
                self.starts.push(at);
            }
            at += 2 + entry.rest.len();
        }
        self.settle_trailer();
    }

    /// Moves along the trailer alone, but for the block size.
    pub fn settle_trailer(&mut self) {
        let entries = self.entries.iter();
        self.trailer.names = self.entries.len();
        self.trailer.block_table = entries.map(|entry| 2 + entry.rest.len()).sum();
        self.trailer.node_table = self.trailer.block_table + 2 * self.starts.len();
        self.trailer.nodes = self.nodes.len();
        self.trailer.length = self.trailer.node_table + NODE * self.nodes.len() + TRAILER;
    }

    /// Where the entries of each block stand, as block table and trailer say. The
    /// starts have to rise.
    pub fn spans(&self) -> Vec<Range<usize>> {
        let ends = self
            .starts
            .iter()
            .skip(1)
            .chain([&self.trailer.block_table]);
        let spans = self.starts.iter().zip(ends);
        spans.map(|(&start, &end)| start..end).collect()
    }

    /// The bytes, as the pieces say.
    pub fn bytes(&self) -> Vec<u8> {
        let mut bytes = Vec::new();
        for entry in &self.entries {
            bytes.extend([entry.shared as u8, entry.length as u8]);
            bytes.extend_from_slice(&entry.rest);
        }
        let trailer = &self.trailer;
        let starts = self.starts.iter();
        let last = [
            trailer.names,
            trailer.block,
            trailer.block_table,
            trailer.node_table,
            trailer.nodes,
            trailer.length,
        ];
        for &number in starts.chain(&self.node_numbers()).chain(&last) {
            bytes.extend((number as u16).to_le_bytes());
        }
        bytes.extend(trailer.mark);
        bytes
    }
}

/// The entry of a name with this count.
fn entry(name: &[u8], shared: usize) -> Entry {
    let rest = name[shared..].to_vec();
    Entry {
        shared,
        length: rest.len(),
        rest,
    }
}

/// Numbers of two bytes, low byte first.
fn numbers(bytes: &[u8]) -> Vec<usize> {
    let pairs = bytes.chunks(2);
    pairs
        .map(|pair| usize::from(pair[0]) + 256 * usize::from(pair[1]))
        .collect()
}
