//! What is left of a damaged book.

use core::iter::FusedIterator;
use core::slice;

use format::TRAILER;
use proved::Kept;

use crate::{accepted, Refusal, LARGEST_BLOCK, MOST_NAMES};

/// How many blocks a damaged book has, by its trailer: for so many a [`Report`] of its
/// [`salvage`] needs places. They are at most [`MOST_NAMES`].
///
/// Nothing where there are fewer than 16 bytes, or a number of names or a block
/// size that no book has: a salvage is then refused with
/// [`NoMap`](Refusal::NoMap), whatever report it gets.
///
/// ```
/// use mistrogu::{blocks_of, build};
///
/// let mut book = [0; 93];
/// build(b"\x03Mar\x06Marina\x0DMarket Square", 2, &mut book)?;
/// assert_eq!(blocks_of(&book), Some(2));
/// assert_eq!(blocks_of(b"no book, no blocks"), None);
/// # Ok::<(), mistrogu::Refused>(())
/// ```
pub fn blocks_of(data: &[u8]) -> Option<usize> {
    let trailer = data.len().checked_sub(TRAILER)?;
    let number = |at: usize| usize::from(u16::from_le_bytes([data[at], data[at + 1]]));
    let (names, block) = (number(trailer), number(trailer + 2));
    let sound = names <= MOST_NAMES && (1..=LARGEST_BLOCK).contains(&block);
    sound.then(|| names.div_ceil(block))
}

/// What became of a block.
#[derive(Clone, Debug, PartialEq, Eq)]
pub enum Block<'lent> {
    /// It is sound, and these are its names.
    Kept(Names<'lent>),
    /// It is damaged, and none of its names is known.
    Dropped,
}

/// What is said of each block: memory for [`salvage`] to write it to, which is read
/// through [`Salvaged`] alone. It has 16 bytes for each place.
///
/// The rows that the library is lent are not to be had:
///
/// ```compile_fail,E0432
/// use mistrogu::Kept;
/// ```
#[derive(Clone, Debug)]
pub struct Report<const PLACES: usize = MOST_NAMES> {
    rows: [Kept; PLACES],
}

impl<const PLACES: usize> Report<PLACES> {
    /// A report of which nothing is written yet.
    pub const fn new() -> Self {
        let unwritten = Kept { kept: 0, names: 0 };
        Report {
            rows: [unwritten; PLACES],
        }
    }
}

impl<const PLACES: usize> Default for Report<PLACES> {
    fn default() -> Self {
        Self::new()
    }
}

/// What [`salvage`] gives: the records in the lent room, and the lent report.
#[derive(Clone, Copy, Debug, PartialEq, Eq)]
pub struct Salvaged<'lent> {
    records: &'lent [u8],
    report: &'lent [Kept],
}

impl<'lent> Salvaged<'lent> {
    /// The names of all kept blocks as list records, in order. Names rise inside
    /// of a block, and need not rise from block to block: a damaged block may be
    /// sound with other names. Where they do rise it is a list for
    /// [`build`](crate::build).
    pub fn records(self) -> &'lent [u8] {
        self.records
    }

    /// What became of each block.
    pub fn blocks(self) -> Blocks<'lent> {
        Blocks {
            records: self.records,
            report: self.report.iter(),
        }
    }

    /// The names of all kept blocks.
    pub fn names(self) -> Names<'lent> {
        Names {
            records: self.records,
            left: self.report.iter().map(|row| row.names).sum(),
        }
    }

    /// Whether no block was dropped.
    pub fn is_whole(self) -> bool {
        self.report.iter().all(|row| row.kept != 0)
    }
}

/// Salvages the names of a damaged book, such as one from a worn card, to the front
/// of the room, as list records, and reports for each block what became of it.
///
/// Where the trailer and the block table make sense, each block is judged alone, by
/// the bytes of its own span: entries have to fill it exactly, in the proper number,
/// with names of 1 to 200 bytes, strictly rising, and greatest shared counts. So
/// damage inside of one block's span changes neither verdict nor names of any other
/// block. Nodes are never looked at. A damaged block that is sound with other names
/// is kept with those. All of that goes for plain books: to the mark of another kind
/// the answer is [`NoMap`](Refusal::NoMap).
///
/// A report of [`MOST_NAMES`] places is always long enough, and one of as many as
/// there are blocks, which [`blocks_of`] says, just so; what it has more stays as it
/// was. A room of [`MOST_SALVAGED`](crate::MOST_SALVAGED) bytes is always long enough.
///
/// Refused, in this order: [`NoMap`](Refusal::NoMap), [`BadBatch`](Refusal::BadBatch)
/// for fewer places than blocks, [`RoomTooShort`](Refusal::RoomTooShort). The room and
/// the report are then as they were.
///
/// ```
/// use mistrogu::{blocks_of, build, salvage, Block, Report};
///
/// let mut card = [0; 93];
/// build(b"\x03Mar\x06Marina\x0DMarket Square", 2, &mut card)?;
/// // Marina shares three bytes with Mar; now its entry says four.
/// card[5] = 4;
///
/// let (mut room, mut report) = ([0; 100], Report::<2>::new());
/// assert_eq!(blocks_of(&card), Some(2));
/// let salvaged = salvage(&card, &mut room, &mut report)?;
/// assert_eq!(salvaged.records(), b"\x0DMarket Square");
///
/// let mut blocks = salvaged.blocks();
/// assert_eq!(blocks.next(), Some(Block::Dropped));
/// let Some(Block::Kept(mut names)) = blocks.next() else {
///     panic!("the second block is sound");
/// };
/// assert_eq!(names.next(), Some(&b"Market Square"[..]));
/// assert_eq!(names.next(), None);
/// # Ok::<(), mistrogu::Refusal>(())
/// ```
pub fn salvage<'lent, const PLACES: usize>(
    data: &[u8],
    room: &'lent mut [u8],
    report: &'lent mut Report<PLACES>,
) -> Result<Salvaged<'lent>, Refusal> {
    // As many rows as blocks, or too few of them, or, where there is no map, none.
    let blocks = blocks_of(data).unwrap_or(0).min(PLACES);
    let report = &mut report.rows[..blocks];
    let (length, _) = accepted(proved::book_salvage(data, room, report))?;
    Ok(Salvaged {
        records: &room[..length],
        report,
    })
}

/// What became of each block, in order.
#[derive(Clone, Debug)]
pub struct Blocks<'lent> {
    /// The records of the kept blocks that are left.
    records: &'lent [u8],
    report: slice::Iter<'lent, Kept>,
}

impl<'lent> Iterator for Blocks<'lent> {
    type Item = Block<'lent>;

    fn next(&mut self) -> Option<Block<'lent>> {
        let row = self.report.next()?;
        if row.kept == 0 {
            return Some(Block::Dropped);
        }
        let names = Names {
            records: self.records,
            left: row.names,
        };
        self.records = names.behind();
        Some(Block::Kept(names))
    }

    fn size_hint(&self) -> (usize, Option<usize>) {
        self.report.size_hint()
    }
}

impl ExactSizeIterator for Blocks<'_> {}

impl FusedIterator for Blocks<'_> {}

/// Names in a run of records.
#[derive(Clone, Debug, PartialEq, Eq)]
pub struct Names<'lent> {
    /// The records from the next name on, and what stands behind the last.
    records: &'lent [u8],
    left: usize,
}

impl<'lent> Names<'lent> {
    /// What stands behind the last name.
    fn behind(&self) -> &'lent [u8] {
        let mut names = self.clone();
        names.by_ref().for_each(drop);
        names.records
    }
}

impl<'lent> Iterator for Names<'lent> {
    type Item = &'lent [u8];

    fn next(&mut self) -> Option<&'lent [u8]> {
        self.left = self.left.checked_sub(1)?;
        let (&length, behind) = self.records.split_first()?;
        let (name, records) = behind.split_at(usize::from(length));
        self.records = records;
        Some(name)
    }

    fn size_hint(&self) -> (usize, Option<usize>) {
        (self.left, Some(self.left))
    }
}

impl ExactSizeIterator for Names<'_> {}

impl FusedIterator for Names<'_> {}
