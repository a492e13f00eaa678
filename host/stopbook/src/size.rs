//! How long the book of some names will be.
//!
//! The library says only that a book would pass 65,535 bytes; here is by how
//! much, and which block size would help. Document 01's layout decides:
//! entries, two bytes for each block, twelve for each node, and 16. Entries go by the
//! bytes that neighbours share, nodes by the letters, which for a folded book are more.

use format::{NODE, TRAILER};
use mistrogu::{BookKind, LARGEST_BLOCK, LONGEST_BOOK};

/// The sizes of a book's parts.
#[derive(Clone, Copy, Debug, PartialEq, Eq)]
pub struct Size {
    /// Bytes of all entries.
    pub entries: usize,
    /// Bytes of the block table.
    pub blocks: usize,
    /// Bytes of the node table.
    pub nodes: usize,
}

impl Size {
    /// The whole book.
    pub fn total(&self) -> usize {
        self.entries + self.tables()
    }

    /// All but the entries.
    pub fn tables(&self) -> usize {
        self.blocks + self.nodes + TRAILER
    }
}

/// What each name shares with the one before it, as a book of this kind compares
/// them; the first shares nothing.
fn shared(kind: BookKind, names: &[Vec<u8>]) -> Vec<usize> {
    let pairs = names.windows(2).map(|pair| {
        let both = pair[0].iter().zip(&pair[1]);
        both.take_while(|(&one, &other)| kind.compared(one) == kind.compared(other))
            .count()
    });
    names.iter().take(1).map(|_| 0).chain(pairs).collect()
}

/// The sizes of the book of this kind of rising names, in blocks of so many.
pub fn size(kind: BookKind, names: &[Vec<u8>], block: usize) -> Size {
    let bytes = shared(BookKind::Plain, names);
    let block = block.max(1);
    let rests = names.iter().zip(&bytes).enumerate();
    let entries = rests.map(|(position, (name, &shared))| {
        let stored = if position.is_multiple_of(block) {
            0
        } else {
            shared
        };
        2 + name.len() - stored
    });
    Size {
        entries: entries.sum(),
        blocks: 2 * names.len().div_ceil(block),
        nodes: NODE * nodes(&shared(kind, names)),
    }
}

/// How many nodes the names have, by what neighbours share.
///
/// Each name is a leaf. A fork is a stretch of names that share so many letters
/// and no more; it opens where neighbours first share that much and closes
/// where they share less.
fn nodes(shared: &[usize]) -> usize {
    let mut open: Vec<usize> = Vec::new();
    let mut forks = 0;
    for &count in shared.iter().skip(1) {
        while open.last().is_some_and(|&depth| depth > count) {
            open.pop();
        }
        if open.last() != Some(&count) {
            open.push(count);
            forks += 1;
        }
    }
    shared.len() + forks
}

/// A block size with which the book fits: the next larger one, or where none
/// does, the next smaller one. Larger blocks mostly make shorter books, but
/// where blocks begin counts too.
pub fn fitting_block(kind: BookKind, names: &[Vec<u8>], block: usize) -> Option<usize> {
    let mut others = (block + 1..=LARGEST_BLOCK).chain((1..block).rev());
    others.find(|&other| size(kind, names, other).total() <= LONGEST_BOOK)
}

#[cfg(test)]
mod tests {
    use super::*;

    /// Names from texts.
    fn names(texts: &[&str]) -> Vec<Vec<u8>> {
        texts.iter().map(|text| text.as_bytes().to_vec()).collect()
    }

    /// The sizes of the plain book of these names.
    fn plain_size(names: &[Vec<u8>], block: usize) -> Size {
        size(BookKind::Plain, names, block)
    }

    #[test]
    fn folded_books_have_entries_by_bytes_and_nodes_by_letters() {
        // MAR and marina share no byte and three letters; mar, Marina and MARKET
        // Square have a root and three leaves.
        let two = names(&["MAR", "marina"]);
        assert_eq!(size(BookKind::Folded, &two, 2).total(), 67);
        let three = names(&["mar", "Marina", "MARKET Square"]);
        let expected = Size {
            entries: 27,
            blocks: 2,
            nodes: 48,
        };
        assert_eq!(size(BookKind::Folded, &three, 4), expected);
        assert_eq!(size(BookKind::Folded, &three, 4).total(), 93);
    }

    #[test]
    fn the_books_of_document_01_have_their_lengths() {
        let example = names(&["Mar", "Marina", "Market Square"]);
        let expected = Size {
            entries: 25,
            blocks: 4,
            nodes: 48,
        };
        assert_eq!(plain_size(&example, 2), expected);
        assert_eq!(plain_size(&example, 2).total(), 93);
        assert_eq!(plain_size(&example, 4).total(), 88);
    }

    #[test]
    fn no_names_and_one_name() {
        assert_eq!(plain_size(&[], 2).total(), 16);
        assert_eq!(plain_size(&names(&["A"]), 1).total(), 33);
    }

    #[test]
    fn nodes_are_counted_as_the_format_page_does() {
        let four = names(&["Mar", "Marina", "Marine", "Market Square"]);
        assert_eq!(plain_size(&four, 4).nodes, 72);
        let bytes = vec![vec![0], vec![0, 0], vec![255]];
        assert_eq!(plain_size(&bytes, 3).total(), 87);
    }

    /// 0 to 1999 spelled with 11 letters a and b: the most nodes.
    fn binary() -> Vec<Vec<u8>> {
        let letter = |number: usize, bit: usize| b'a' + (number >> bit & 1) as u8;
        let spell = |number| (0..11).rev().map(|bit| letter(number, bit)).collect();
        (0..2_000).map(spell).collect()
    }

    #[test]
    fn the_book_with_the_most_nodes_fits_with_large_blocks_only() {
        let names = binary();
        assert_eq!(plain_size(&names, 64).nodes, 47_988);
        assert_eq!(plain_size(&names, 64).total(), 56_166);
        assert_eq!(plain_size(&names, 1).total(), 78_004);
        let fitting = fitting_block(BookKind::Plain, &names, 1).expect("64 fits");
        assert!(plain_size(&names, fitting).total() <= LONGEST_BOOK);
        assert!(plain_size(&names, fitting - 1).total() > LONGEST_BOOK);
    }

    #[test]
    fn where_nothing_fits_no_block_size_is_given() {
        let long = |number: usize| {
            let mut name = number.to_be_bytes()[6..].to_vec();
            name.resize(200, b'x');
            name
        };
        let names: Vec<Vec<u8>> = (0..400).map(long).collect();
        assert_eq!(fitting_block(BookKind::Plain, &names, 1), None);
        assert_eq!(fitting_block(BookKind::Plain, &names, 64), None);
    }

    /// The name at a position of a list where only every 64th name shares much
    /// with the one before it: all but its last byte.
    fn name_at(position: u16) -> Vec<u8> {
        let (front, rest) = match position % 64 {
            0 if position > 0 => (position - 1, [vec![b'x'; 197], vec![b'b']].concat()),
            63 => (position, [vec![b'x'; 197], vec![b'a']].concat()),
            _ => (position, vec![b'x'; 14]),
        };
        [front.to_be_bytes().to_vec(), rest].concat()
    }

    #[test]
    fn a_smaller_block_may_fit_where_no_larger_one_does() {
        // A block of 64 begins where most is shared, and stores it all.
        let names: Vec<Vec<u8>> = (0..2_000).map(name_at).collect();
        assert!(names.is_sorted());
        assert!(plain_size(&names, 64).total() > LONGEST_BOOK);
        assert!(plain_size(&names, 63).total() <= LONGEST_BOOK);
        assert_eq!(fitting_block(BookKind::Plain, &names, 64), Some(63));
    }

    #[test]
    fn a_block_size_fits_up_to_the_last_byte() {
        // 310 names that share one byte with some others; more letters at their
        // ends make the book longer by as many bytes.
        let name = |number: u16| [number.to_be_bytes().to_vec(), vec![b'x'; 180]].concat();
        let mut names: Vec<Vec<u8>> = (0..310).map(name).collect();
        let short = LONGEST_BOOK - plain_size(&names, 2).total();
        for number in 0..short {
            names[number % 310].push(b'x');
        }
        assert_eq!(plain_size(&names, 2).total(), LONGEST_BOOK);
        assert_eq!(fitting_block(BookKind::Plain, &names, 1), Some(2));
        names[309].push(b'x');
        assert_eq!(plain_size(&names, 2).total(), LONGEST_BOOK + 1);
        assert_eq!(fitting_block(BookKind::Plain, &names, 1), Some(3));
    }
}
