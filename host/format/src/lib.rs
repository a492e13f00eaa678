//! The numbers of documents 01 and 02 that the crates here share: the limits, the
//! sizes of a book's parts, the kinds of book and the kinds of question.
//!
//! Two crates have their own and take nothing from here: the second program,
//! which the others are held to, and the reference, which is compiled alone.

#![no_std]
#![forbid(unsafe_code)]
#![warn(missing_docs)]

use core::cmp::Ordering;

/// The most bytes of a name; the least is 1.
pub const LONGEST_NAME: usize = 200;
/// The most bytes of a question: as many as of a name.
pub const LONGEST_QUESTION: usize = LONGEST_NAME;
/// The most names of a book.
pub const MOST_NAMES: usize = 2000;
/// The most names of a block; the least is 1.
pub const LARGEST_BLOCK: usize = 64;
/// The most bytes of a book.
pub const LONGEST_BOOK: usize = 65_535;
/// The most rows of a batch.
pub const MOST_ROWS: usize = 64;
/// The most positions of a route.
pub const MOST_STOPS: usize = 120;
/// The most bytes that a salvage writes: the most names, each the longest, as
/// records with a length byte.
pub const MOST_SALVAGED: usize = MOST_NAMES * (1 + LONGEST_NAME);

/// The bytes of a node: six numbers of two bytes.
pub const NODE: usize = 12;
/// The bytes of a trailer, so the fewest of a book.
pub const TRAILER: usize = 16;

/// A kind of book, told by its last four bytes.
#[derive(Clone, Copy, Debug, PartialEq, Eq, Hash)]
pub enum BookKind {
    /// Every byte is a letter of its own.
    Plain,
    /// Capitals, bytes 65 to 90, are the same letters as the bytes 32 higher.
    Folded,
    /// As plain, with the node table stored as columns, one for each field.
    Columns,
}

impl BookKind {
    /// Every kind.
    pub const ALL: [BookKind; 3] = [BookKind::Plain, BookKind::Folded, BookKind::Columns];

    /// The kinds that are built from a list, and that the announcer takes.
    pub const FULL: [BookKind; 2] = [BookKind::Plain, BookKind::Folded];

    /// The last four bytes of a book of this kind.
    pub const fn mark(self) -> [u8; 4] {
        match self {
            BookKind::Plain => *b"NBK2",
            BookKind::Folded => *b"NBF2",
            BookKind::Columns => *b"NBC2",
        }
    }

    /// The kind whose mark these bytes end in, if there is one. That alone makes
    /// them no book.
    ///
    /// ```
    /// use format::BookKind;
    ///
    /// assert_eq!(BookKind::of_marked(b"NBF2"), Some(BookKind::Folded));
    /// assert_eq!(BookKind::of_marked(b"NBK1"), None);
    /// ```
    pub fn of_marked(bytes: &[u8]) -> Option<Self> {
        let mut kinds = Self::ALL.into_iter();
        kinds.find(|kind| bytes.ends_with(&kind.mark()))
    }

    /// A byte as a book of this kind compares it: bytes that are the same letter
    /// become the same byte, and letters keep their order.
    ///
    /// ```
    /// use format::BookKind;
    ///
    /// assert_eq!(BookKind::Folded.compared(b'M'), b'm');
    /// assert_eq!(BookKind::Plain.compared(b'M'), b'M');
    /// ```
    pub const fn compared(self, byte: u8) -> u8 {
        match self {
            BookKind::Plain | BookKind::Columns => byte,
            BookKind::Folded => byte.to_ascii_lowercase(),
        }
    }

    /// The order of two names in a book of this kind. Names that are equal by it are
    /// one name to the book.
    ///
    /// ```
    /// use core::cmp::Ordering;
    /// use format::BookKind;
    ///
    /// assert_eq!(BookKind::Folded.order(b"abbey", b"Zoo"), Ordering::Less);
    /// assert_eq!(BookKind::Plain.order(b"abbey", b"Zoo"), Ordering::Greater);
    /// assert_eq!(BookKind::Folded.order(b"MAR", b"Mar"), Ordering::Equal);
    /// ```
    pub fn order(self, one: &[u8], other: &[u8]) -> Ordering {
        let [one, other] = [one, other].map(|name| name.iter().map(|&byte| self.compared(byte)));
        one.cmp(other)
    }

    /// Its name, as a word.
    pub const fn name(self) -> &'static str {
        match self {
            BookKind::Plain => "plain",
            BookKind::Folded => "folded",
            BookKind::Columns => "column",
        }
    }
}

/// A kind of question, with the number that a batch row tells it by.
#[derive(Clone, Copy, Debug, PartialEq, Eq, PartialOrd, Ord, Hash)]
pub enum Kind {
    /// Which name equals the question?
    Exact = 1,
    /// How many names are less?
    Place = 2,
    /// Which names begin with it?
    Range = 3,
    /// Which name shares most with it?
    Nearest = 4,
    /// How long is the longest name that begins with it?
    Width = 5,
}

impl Kind {
    /// Every kind, in the order of their numbers.
    pub const ALL: [Kind; 5] = [
        Kind::Exact,
        Kind::Place,
        Kind::Range,
        Kind::Nearest,
        Kind::Width,
    ];

    /// Its number, 1 to 5.
    pub const fn number(self) -> usize {
        self as usize
    }

    /// Its place in [`ALL`](Kind::ALL), from 0.
    pub const fn index(self) -> usize {
        self.number() - 1
    }

    /// The kind of this number, if there is one.
    ///
    /// ```
    /// use format::Kind;
    ///
    /// assert_eq!(Kind::from_number(5), Some(Kind::Width));
    /// assert_eq!(Kind::from_number(0), None);
    /// assert_eq!(Kind::from_number(6), None);
    /// ```
    pub const fn from_number(number: usize) -> Option<Self> {
        match number {
            1..=5 => Some(Self::ALL[number - 1]),
            _ => None,
        }
    }

    /// Its name, as a word.
    pub const fn name(self) -> &'static str {
        match self {
            Kind::Exact => "exact",
            Kind::Place => "place",
            Kind::Range => "range",
            Kind::Nearest => "nearest",
            Kind::Width => "width",
        }
    }

    /// The kind of this name, if there is one.
    ///
    /// ```
    /// use format::Kind;
    ///
    /// assert_eq!(Kind::from_name(b"range"), Some(Kind::Range));
    /// assert_eq!(Kind::from_name(b"Range"), None);
    /// ```
    pub fn from_name(name: &[u8]) -> Option<Self> {
        let mut kinds = Self::ALL.into_iter();
        kinds.find(|kind| kind.name().as_bytes() == name)
    }
}

#[cfg(test)]
mod tests {
    use super::Kind;

    #[test]
    fn every_kind_is_found_by_its_number_and_by_its_name() {
        for (at, kind) in Kind::ALL.into_iter().enumerate() {
            assert_eq!((kind.index(), kind.number()), (at, at + 1));
            assert_eq!(Kind::from_number(kind.number()), Some(kind));
            assert_eq!(Kind::from_name(kind.name().as_bytes()), Some(kind));
        }
    }
}
