//! The layout of documents 01 and 02, read from the bytes of a book.
//!
//! Here stands what no call of the library gives: the numbers of the trailer,
//! the stored counts of the entries, and the node table. It is meant for bytes
//! that the library has accepted, and the trailer for those that it has salvaged,
//! too. Given others, a function gives `None` or
//! numbers without meaning, and never fails.

use crate::text::{counted, grouped};
use format::{BookKind, NODE, TRAILER};
use mistrogu::LONGEST_BOOK;

/// The numbers of a trailer.
#[derive(Clone, Copy, Debug, PartialEq, Eq)]
pub struct Trailer {
    /// How many names there are.
    pub names: usize,
    /// How many of them a block has.
    pub block: usize,
    /// Where the block table starts.
    pub blocks_at: usize,
    /// Where the node table starts.
    pub nodes_at: usize,
    /// How many nodes there are.
    pub nodes: usize,
    /// How long the book is.
    pub total: usize,
}

/// A node as it is stored.
#[derive(Clone, Copy, Debug, PartialEq, Eq)]
pub struct Node {
    /// The symbol that leads to it.
    pub symbol: usize,
    /// A leaf: the name's length plus 1. Else how many symbols all names share.
    pub depth: usize,
    /// The position of its first name.
    pub first: usize,
    /// How many names it has.
    pub names: usize,
    /// How many nodes stand from it on, itself and all below.
    pub nodes: usize,
    /// How many bytes its longest name has.
    pub width: usize,
}

/// The number of two bytes at an offset.
fn number(bytes: &[u8], at: usize) -> Option<usize> {
    let pair = bytes.get(at..at.checked_add(2)?)?;
    Some(usize::from(pair[0]) + 256 * usize::from(pair[1]))
}

/// The trailer at the end of these bytes.
pub fn trailer(bytes: &[u8]) -> Option<Trailer> {
    let at = bytes.len().checked_sub(TRAILER)?;
    Some(Trailer {
        names: number(bytes, at)?,
        block: number(bytes, at + 2)?,
        blocks_at: number(bytes, at + 4)?,
        nodes_at: number(bytes, at + 6)?,
        nodes: number(bytes, at + 8)?,
        total: number(bytes, at + 10)?,
    })
}

/// The stored count of each of so many entries.
pub fn stored_counts(bytes: &[u8], names: usize) -> Option<Vec<usize>> {
    let mut counts = Vec::new();
    let mut at = 0;
    for _ in 0..names {
        let head = bytes.get(at..at + 2)?;
        counts.push(usize::from(head[0]));
        at += 2 + usize::from(head[1]);
    }
    Some(counts)
}

/// The whole node table of a book of this kind.
pub fn nodes(bytes: &[u8], kind: BookKind, trailer: &Trailer) -> Option<Vec<Node>> {
    // From a node to the next, and from a field of a node to its next.
    let (stride, step) = match kind {
        BookKind::Plain | BookKind::Folded => (NODE, 2),
        BookKind::Columns => (2, 2 * trailer.nodes),
    };
    (0..trailer.nodes)
        .map(|index| node(bytes, trailer.nodes_at + stride * index, step))
        .collect()
}

/// The node whose first field is at an offset, with its fields so far apart.
fn node(bytes: &[u8], at: usize, step: usize) -> Option<Node> {
    Some(Node {
        symbol: number(bytes, at)?,
        depth: number(bytes, at + step)?,
        first: number(bytes, at + 2 * step)?,
        names: number(bytes, at + 3 * step)?,
        nodes: number(bytes, at + 4 * step)?,
        width: number(bytes, at + 5 * step)?,
    })
}

/// The mark of books from before nodes had widths.
const OLD_MARK: &[u8] = b"NBK1";

/// What can be said at a glance of bytes that are no book, and what to do.
pub fn why_no_book(bytes: &[u8]) -> String {
    let length = bytes.len();
    let told = trailer(bytes).map_or(0, |trailer| trailer.total);
    if length < TRAILER {
        let bytes = counted(length, "byte");
        format!("it has {bytes}, and a book has {TRAILER} or more")
    } else if length > LONGEST_BOOK {
        let most = grouped(LONGEST_BOOK);
        format!("it has more than {most} bytes, the most of a book")
    } else if bytes.ends_with(OLD_MARK) {
        "it was built before nodes had widths, and such books are no longer taken; \
         build it again from its names"
            .to_string()
    } else if BookKind::of_marked(bytes).is_none() {
        "it does not end with a book's mark; stopbook build makes a book of names".to_string()
    } else if told != length {
        let (told, length) = (counted(told, "byte"), grouped(length));
        format!("its trailer tells of {told}, and it has {length}; copy it again, whole")
    } else {
        let mend = match BookKind::of_marked(bytes) {
            Some(BookKind::Folded | BookKind::Columns) => "build it again from its names",
            Some(BookKind::Plain) | None => "build it again, or see what stopbook salvage finds",
        };
        format!("its parts do not fit together, so it was damaged; {mend}")
    }
}

#[cfg(test)]
pub mod tests {
    use super::*;

    /// The 93 bytes of document 01's book, as document 02 has them.
    pub const EXAMPLE: &[u8] = b"\x00\x03Mar\x03\x03ina\x00\x0DMarket Square\
        \x00\x00\x0A\x00\
        \x00\x00\x03\x00\x00\x00\x03\x00\x04\x00\x0D\x00\
        \x00\x00\x04\x00\x00\x00\x01\x00\x01\x00\x03\x00\
        \x6A\x00\x07\x00\x01\x00\x01\x00\x01\x00\x06\x00\
        \x6C\x00\x0E\x00\x02\x00\x01\x00\x01\x00\x0D\x00\
        \x03\x00\x02\x00\x19\x00\x1D\x00\x04\x00\x5D\x00\x4E\x42\x4B\x32";

    /// The same book with its nodes as columns: symbols, depths, first names, numbers
    /// of names, numbers of nodes, widths.
    const COLUMNS: &[u8] = b"\x00\x03Mar\x03\x03ina\x00\x0DMarket Square\
        \x00\x00\x0A\x00\
        \x00\x00\x00\x00\x6A\x00\x6C\x00\
        \x03\x00\x04\x00\x07\x00\x0E\x00\
        \x00\x00\x00\x00\x01\x00\x02\x00\
        \x03\x00\x01\x00\x01\x00\x01\x00\
        \x04\x00\x01\x00\x01\x00\x01\x00\
        \x0D\x00\x03\x00\x06\x00\x0D\x00\
        \x03\x00\x02\x00\x19\x00\x1D\x00\x04\x00\x5D\x00\x4E\x42\x43\x32";

    #[test]
    fn the_trailer_of_document_01_is_read() {
        let expected = Trailer {
            names: 3,
            block: 2,
            blocks_at: 25,
            nodes_at: 29,
            nodes: 4,
            total: 93,
        };
        assert_eq!(trailer(EXAMPLE), Some(expected));
    }

    #[test]
    fn the_stored_counts_of_document_01_are_read() {
        assert_eq!(stored_counts(EXAMPLE, 3), Some(vec![0, 3, 0]));
    }

    #[test]
    fn the_nodes_of_document_01_are_read() {
        let rows = [
            (0, 3, 0, 3, 4, 13),
            (0, 4, 0, 1, 1, 3),
            (106, 7, 1, 1, 1, 6),
            (108, 14, 2, 1, 1, 13),
        ];
        let expected = rows.map(|(symbol, depth, first, names, nodes, width)| Node {
            symbol,
            depth,
            first,
            names,
            nodes,
            width,
        });
        for (book, kind) in [(EXAMPLE, BookKind::Plain), (COLUMNS, BookKind::Columns)] {
            let trailer = trailer(book).unwrap();
            assert_eq!(nodes(book, kind, &trailer), Some(expected.to_vec()));
        }
    }

    #[test]
    fn bytes_that_are_cut_short_give_nothing() {
        assert_eq!(trailer(&EXAMPLE[78..]), None);
        assert_eq!(stored_counts(&EXAMPLE[..11], 3), None);
        let trailer = trailer(EXAMPLE).unwrap();
        for kind in BookKind::ALL {
            assert_eq!(nodes(&EXAMPLE[..76], kind, &trailer), None);
        }
    }

    #[test]
    fn no_bytes_make_a_reading_fail() {
        for length in 0..200 {
            let bytes = vec![0xFF; length];
            if let Some(trailer) = trailer(&bytes) {
                for kind in BookKind::ALL {
                    let _ = nodes(&bytes, kind, &trailer);
                }
            }
            let _ = stored_counts(&bytes, 2_000);
            assert!(!why_no_book(&bytes).is_empty());
        }
    }

    #[test]
    fn what_is_wrong_at_a_glance_is_said() {
        assert!(why_no_book(b"Mar").contains("it has 3 bytes,"));
        assert!(why_no_book(b"M").contains("it has 1 byte,"));
        assert!(why_no_book(&[0; 65_536]).contains("65,535"));
        assert!(why_no_book(&[0; 20]).contains("mark"));
        assert!(why_no_book(&EXAMPLE[1..]).contains("93 bytes, and it has 92"));
        let long = [&[0; 1_200], EXAMPLE].concat();
        assert!(why_no_book(&long).contains("93 bytes, and it has 1,293;"));
        let mut changed = EXAMPLE.to_vec();
        changed[30] = 1;
        assert!(why_no_book(&changed).contains("damaged"));
        assert!(why_no_book(&changed).contains("salvage"));
        for letter in [b'F', b'C'] {
            changed[91] = letter;
            assert!(why_no_book(&changed).contains("damaged; build it again from its names"));
        }
        changed[91..].copy_from_slice(b"K1");
        assert!(why_no_book(&changed).contains("build it again from its names"));
    }
}
