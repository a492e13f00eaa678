//! Why a call says no.

use core::error::Error;
use core::fmt;

/// Why a call says no, and nothing else: one of fourteen reasons, each with the number
/// that documents 01 and 02 give it. What [`Refused`] tells beside it is where.
///
/// ```
/// use mistrogu::Refusal;
///
/// assert_eq!(Refusal::NoBook.number(), 2);
/// assert_eq!(Refusal::BadBlockSize.to_string(), "the block size is not 1 to 64");
/// ```
#[derive(Clone, Copy, Debug, PartialEq, Eq, Hash)]
pub enum Refusal {
    /// The question is longer than 200 bytes.
    QuestionTooLong = 1,
    /// The bytes are no book, or none of a kind that the call takes.
    NoBook = 2,
    /// The position is at or above the number of names.
    NoSuchPosition = 3,
    /// The lent room is shorter than the output.
    RoomTooShort = 4,
    /// A record has length 0 or above 200, or runs past the list.
    BadRecord = 5,
    /// A name is not above the one before it.
    NotAbove = 6,
    /// The list has a 2,001st name.
    TooManyNames = 7,
    /// The block size is not 1 to 64.
    BadBlockSize = 8,
    /// The book would be longer than 65,535 bytes.
    BookTooLong = 9,
    /// The nearest name was asked of a book without names.
    NoNames = 10,
    /// A row's kind is not 1 to 5, or its start plus length is past the buffer.
    BadRow = 11,
    /// There are over 64 rows or 120 stops, or too many or too few rows to write to.
    BadBatch = 12,
    /// The trailer or the block table makes no sense.
    NoMap = 13,
    /// The clip table has more clips or fewer than the book has names.
    BadClipTable = 16,
}

impl Refusal {
    /// Every refusal, in the order of their numbers.
    pub const ALL: [Refusal; 14] = [
        Refusal::QuestionTooLong,
        Refusal::NoBook,
        Refusal::NoSuchPosition,
        Refusal::RoomTooShort,
        Refusal::BadRecord,
        Refusal::NotAbove,
        Refusal::TooManyNames,
        Refusal::BadBlockSize,
        Refusal::BookTooLong,
        Refusal::NoNames,
        Refusal::BadRow,
        Refusal::BadBatch,
        Refusal::NoMap,
        Refusal::BadClipTable,
    ];

    /// Its number, 1 to 13 or 16.
    pub const fn number(self) -> usize {
        self as usize
    }

    /// The refusal of this number, if there is one.
    ///
    /// ```
    /// use mistrogu::Refusal;
    ///
    /// assert_eq!(Refusal::from_number(10), Some(Refusal::NoNames));
    /// assert_eq!(Refusal::from_number(0), None);
    /// assert_eq!(Refusal::from_number(14), None);
    /// ```
    pub fn from_number(number: usize) -> Option<Self> {
        let is_it = |refusal: &Self| refusal.number() == number;
        Self::ALL.into_iter().find(is_it)
    }

    /// When it is given, as a sentence without capital and full stop.
    pub const fn sentence(self) -> &'static str {
        match self {
            Refusal::QuestionTooLong => "the question is longer than 200 bytes",
            Refusal::NoBook => "the bytes are no book, or none of a kind that the call takes",
            Refusal::NoSuchPosition => "the position is at or above the number of names",
            Refusal::RoomTooShort => "the lent room is shorter than the output",
            Refusal::BadRecord => "a record has length 0 or above 200, or runs past the list",
            Refusal::NotAbove => "a name is not above the one before it",
            Refusal::TooManyNames => "the list has a 2,001st name",
            Refusal::BadBlockSize => "the block size is not 1 to 64",
            Refusal::BookTooLong => "the book would be longer than 65,535 bytes",
            Refusal::NoNames => "the nearest name was asked of a book without names",
            Refusal::BadRow => {
                "a row's kind is not 1 to 5, or its start plus length is past the buffer"
            }
            Refusal::BadBatch => {
                "there are over 64 rows or 120 stops, or too many or too few rows to write to"
            }
            Refusal::NoMap => "the trailer or the block table makes no sense",
            Refusal::BadClipTable => {
                "the clip table has more clips or fewer than the book has names"
            }
        }
    }
}

impl fmt::Display for Refusal {
    fn fmt(&self, out: &mut fmt::Formatter<'_>) -> fmt::Result {
        out.pad(self.sentence())
    }
}

impl Error for Refusal {}

/// The list that a refusal tells of.
#[derive(Clone, Copy, Debug, PartialEq, Eq, Hash)]
pub enum Which {
    /// The list that a book is built from.
    Only,
    /// The first of two lists.
    First,
    /// The second of two lists.
    Second,
    /// The list that two are merged to.
    Merged,
}

/// Why a call that takes lists says no, and where: a [`Refusal`], and the record of the
/// list that it is about. So say building, merging, judging and going through heads.
///
/// ```
/// use mistrogu::{build, Refusal, Refused, Which};
///
/// let refused = build(b"\x06Marina\x03Mar", 16, &mut [0; 100]).unwrap_err();
/// let expected = Refused {
///     refusal: Refusal::NotAbove,
///     record: 1,
///     list: Which::Only,
/// };
/// assert_eq!(refused, expected);
/// assert_eq!(refused.to_string(), "record 1: a name is not above the one before it");
/// ```
#[derive(Clone, Copy, Debug, PartialEq, Eq, Hash)]
pub struct Refused {
    /// Why.
    pub refusal: Refusal,
    /// The number of the record that is refused, counted from 0. It is told for
    /// [`Refusal::BadRecord`], [`Refusal::NotAbove`] and
    /// [`Refusal::TooManyNames`], and 0 for all others.
    pub record: usize,
    /// The list that the record stands in, or would.
    pub list: Which,
}

impl fmt::Display for Refused {
    fn fmt(&self, out: &mut fmt::Formatter<'_>) -> fmt::Result {
        let (refusal, record) = (self.refusal, self.record);
        match refusal {
            Refusal::BadRecord | Refusal::NotAbove | Refusal::TooManyNames => match self.list {
                Which::Only => write!(out, "record {record}: {refusal}"),
                Which::First => write!(out, "first list, record {record}: {refusal}"),
                Which::Second => write!(out, "second list, record {record}: {refusal}"),
                Which::Merged => out.write_str("the merged list would have over 2,000 names"),
            },
            _ => refusal.fmt(out),
        }
    }
}

impl Error for Refused {}

impl From<Refused> for Refusal {
    /// The refusal alone, without the record.
    fn from(refused: Refused) -> Self {
        refused.refusal
    }
}
