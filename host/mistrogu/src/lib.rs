//! Books of stop names, for programs in Rust.
//!
//! A **book** keeps a strictly rising list of names in at most 65,535 bytes. The
//! calls that build a book, check it, read its names back and answer questions
//! about them, that convert a book from one layout to another, that tell which recorded
//! clip speaks a name, that salvage what is left of a damaged book, and that merge two
//! lists, are proved: each does what its text says, for any bytes and any numbers. This
//! crate gives them types. It needs no heap and no standard library, and has no unsafe
//! line of its own.
//!
//! | You want to | Call |
//! |---|---|
//! | make a book | [`build`], from a [`List`] |
//! | make one in which capitals and small letters are the same | [`build_folded`] |
//! | have a book's node table stored field by field, or record by record again | [`to_columns`], [`from_columns`] |
//! | make one list of two | [`merge`] |
//! | show the names of two lists in their order | [`heads`] |
//! | know whether two runs of bytes are lists | [`judge`] |
//! | know whether bytes are a book | [`check`] |
//! | have the name at a position | [`read`] |
//! | know whether there is such a stop | [`exact`] |
//! | know where a name would stand | [`place`] |
//! | have the stops that begin with some letters | [`range`] |
//! | have a stop as near as any to what was typed, and how much of that to light | [`nearest`] |
//! | know how much space the stops that begin with some letters take | [`width`] |
//! | know how far a question looked | the same five in [`counted`] |
//! | ask many questions of one book | [`Batch`] |
//! | have the clip that speaks what was typed | [`clip`] |
//! | have the clips of a route | [`route`] |
//! | have what is left of a damaged book | [`salvage`] |
//!
//! ```
//! use mistrogu::{build, check, nearest, range, read, BookKind, Checked, Nearest};
//!
//! let mut room = [0; 100];
//! let length = build(b"\x03Mar\x06Marina\x0DMarket Square", 2, &mut room)?;
//! let book = &room[..length];
//! assert_eq!(check(book), Ok(Checked { names: 3, block: 2, kind: BookKind::Plain }));
//!
//! let mut name = [0; mistrogu::LONGEST_NAME];
//! assert_eq!(read(book, 2, &mut name), Ok(&b"Market Square"[..]));
//! assert_eq!(range(book, b"Mark"), Ok(2..3));
//! assert_eq!(nearest(book, b"Mango"), Ok(Nearest { position: 0, lit: 2 }));
//! # Ok::<(), mistrogu::Refused>(())
//! ```
//!
//! # Names and order
//!
//! A name is 1 to 200 bytes of any value, a question 0 to 200. Order is that of
//! byte strings: `[u8]`'s own. Positions count from 0. A list is a run of
//! records, each one byte with the length of a name and then the name.
//!
//! # Three kinds of book
//!
//! In a **folded** book the capitals A to Z count as the letters a to z wherever
//! names are compared, with each other or with a question; spelling comes back
//! unchanged. Nothing else folds, and no letter with an accent does. Names for a folded
//! book have to rise by [`BookKind::order`].
//!
//! A **column** book is a plain book whose node table is stored field by field, for
//! memory that is faster when one field is read at a time. Names, answers, counts and
//! length are those of the plain book. [`to_columns`] makes it, and [`from_columns`]
//! gives the plain book back.
//!
//! A book's mark, its last four bytes, tells its [kind](BookKind), and every call goes
//! by that. [`check`] tells the kind, too. [`clip`] and [`route`] take plain and folded
//! books, a conversion the kind that it turns, and [`salvage`] plain books: a sound
//! book of another kind gets [`NoBook`](Refusal::NoBook) there, and
//! [`NoMap`](Refusal::NoMap) from [`salvage`]. Every other call that takes a book takes
//! each kind. Lists to be merged rise by bytes, as those of plain books do.
//!
//! ```
//! use mistrogu::{build_folded, check, exact, read, BookKind};
//!
//! let mut room = [0; 100];
//! let length = build_folded(b"\x03MAR\x06Marina", 2, &mut room)?;
//! let book = &room[..length];
//! assert_eq!(exact(book, b"marina"), Ok(Some(1)));
//! assert_eq!(read(book, 1, &mut [0; 6]), Ok(&b"Marina"[..]));
//! assert_eq!(check(book).map(|checked| checked.kind), Ok(BookKind::Folded));
//! # Ok::<(), mistrogu::Refused>(())
//! ```
//!
//! # Refusals
//!
//! A call that says no gives a [`Refusal`], why; one that takes lists gives a
//! [`Refused`], why and at which record of which list, and [`route`] a
//! [`RouteRefused`], why and at which place, both of which `?` makes into a
//! [`Refusal`]. Where several would fit, it is the first in the order that stands
//! with the call. The call has then changed nothing that was lent to it. A call that
//! is accepted writes its output at the front of the lent room and leaves the rest as
//! it was.
//!
//! # What a call costs
//!
//! Every call that takes a book checks all of it before anything else, and
//! nearly all of its time goes there. A [`Batch`] does so once for all of its
//! questions, and [`counted`] tells how far a single one looked behind the check. A
//! [`salvage`] takes bytes that need not be a book, and goes over their blocks alone.
//! Every call that takes two lists judges both, and each name of [`heads`] is such a
//! call. [`STACK`] bytes of stack are enough for a call, [`BUILD_STACK`] for [`build`]
//! and [`build_folded`].
//!
//! # Linking
//!
//! Which archive is linked says the variable `MISTROGU_ARCHIVE` while the crate
//! `proved` is compiled, by its whole path. `host/archive.sh` makes the archive for
//! the machine at hand, on x86-64 the product itself, and prints that path. Without
//! it the build ends with a sentence that says so. To have it set for every build of
//! a program of one's own, name the archive in that program's `.cargo/config.toml`,
//! by its path from the folder that `.cargo` is in:
//!
//! ```toml
//! [env]
//! MISTROGU_ARCHIVE = { value = "../mistrogu/target/staticlib/libmistrogu.a", relative = true }
//! ```

#![no_std]
#![forbid(unsafe_code)]
#![warn(missing_docs)]

/// The samples of the README, each tried as a program.
#[cfg(doctest)]
#[doc = include_str!("../../../README.md")]
mod readme {}

mod announcer;
mod batch;
mod columns;
pub mod counted;
mod list;
mod merging;
mod refusal;
mod salvage;

use core::ops::Range;

use proved::Answer;

pub use announcer::{clip, route, RouteRefused, Spoken};
pub use batch::{Batch, Replies, Reply};
pub use columns::{from_columns, to_columns};
#[doc(inline)]
pub use format::{
    BookKind, Kind, LARGEST_BLOCK, LONGEST_BOOK, LONGEST_NAME, MOST_NAMES, MOST_ROWS,
    MOST_SALVAGED, MOST_STOPS,
};
pub use list::List;
pub use merging::{heads, judge, merge, Head, Heads};
pub use refusal::{Refusal, Refused, Which};
pub use salvage::{blocks_of, salvage, Block, Blocks, Names, Report, Salvaged};

/// The version, as the header has it, too.
pub const VERSION: &str = env!("CARGO_PKG_VERSION");
/// The bytes of stack that are enough for [`build`] and [`build_folded`], whatever is
/// lent to them.
pub const BUILD_STACK: usize = 7936;
/// The bytes of stack that are enough for every other call, whatever is lent to
/// it: a book, or bytes that are none.
pub const STACK: usize = 26_624;

/// What a check tells of a book.
#[derive(Clone, Copy, Debug, PartialEq, Eq, Hash)]
pub struct Checked {
    /// How many names it has.
    pub names: usize,
    /// How many names a block of it has; the last block may have fewer.
    pub block: usize,
    /// Which kind of book it is.
    pub kind: BookKind,
}

/// A name that shares as many leading bytes with a question as any name does, and
/// how much of the question to light.
#[derive(Clone, Copy, Debug, PartialEq, Eq, Hash)]
pub struct Nearest {
    /// The name's position.
    pub position: usize,
    /// How many leading bytes of the question to light: those that the name
    /// shares, but for a character of which it shares a part. The name begins
    /// with the same bytes; in a folded book, with the same letters.
    pub lit: usize,
}

/// The two numbers of an answer, where its code is 0.
fn accepted(answer: Answer) -> Result<(usize, usize), Refusal> {
    match answer.code {
        0 => Ok((answer.first, answer.second)),
        code => Err(Refusal::from_number(code).expect("the code is 0 or a refusal's number")),
    }
}

/// What exact's two numbers say.
fn found((position, found): (usize, usize)) -> Option<usize> {
    (found != 0).then_some(position)
}

/// What range's two numbers say.
fn span((place, names): (usize, usize)) -> Range<usize> {
    place..place.saturating_add(names)
}

/// What nearest's two numbers say.
fn near((position, lit): (usize, usize)) -> Nearest {
    Nearest { position, lit }
}

/// Builds the plain book of a list, in blocks of so many names, at the front of the
/// room, and gives the book's length.
///
/// Small blocks make reading a name cheaper, large ones make the book shorter;
/// 16 is a good middle. A room of [`LONGEST_BOOK`] bytes is always long enough.
///
/// Refused, in this order: [`BadBlockSize`](Refusal::BadBlockSize); then,
/// record by record, [`BadRecord`](Refusal::BadRecord),
/// [`NotAbove`](Refusal::NotAbove), [`TooManyNames`](Refusal::TooManyNames),
/// with the record's number; then [`BookTooLong`](Refusal::BookTooLong); then
/// [`RoomTooShort`](Refusal::RoomTooShort).
///
/// ```
/// use mistrogu::{build, Refusal};
///
/// let list = b"\x03Mar\x06Marina\x0DMarket Square";
/// assert_eq!(build(list, 2, &mut [0; 93]), Ok(93));
/// assert_eq!(build(list, 4, &mut [0; 93]), Ok(88));
///
/// let refused = build(list, 2, &mut [0; 92]).unwrap_err();
/// assert_eq!(refused.refusal, Refusal::RoomTooShort);
/// ```
pub fn build(list: &[u8], block: usize, room: &mut [u8]) -> Result<usize, Refused> {
    length_of_built(proved::book_build(list, block, room))
}

/// Builds the folded book of a list, as [`build`] does the plain one: questions
/// then find names in capitals and in small letters alike, and names come back as
/// they were spelt.
///
/// The list has to strictly rise by [`BookKind::order`], so it may be one for a
/// folded book and not for a plain one, or the other way round.
///
/// Refused as [`build`]; [`NotAbove`](Refusal::NotAbove) also for a name that is
/// equal to the one before it once both are folded.
///
/// ```
/// use mistrogu::{build, build_folded, nearest, range, Nearest, Refusal};
///
/// let list = b"\x05abbey\x03MAR\x06marina\x03Zoo";
/// let mut room = [0; 200];
/// assert_eq!(build(list, 2, &mut room).unwrap_err().record, 1);
/// let length = build_folded(list, 2, &mut room)?;
/// let book = &room[..length];
/// assert_eq!(range(book, b"Mar"), Ok(1..3));
/// assert_eq!(nearest(book, b"ZOE"), Ok(Nearest { position: 3, lit: 2 }));
///
/// let refused = build_folded(b"\x03MAR\x03mar", 2, &mut room).unwrap_err();
/// assert_eq!((refused.refusal, refused.record), (Refusal::NotAbove, 1));
/// # Ok::<(), mistrogu::Refused>(())
/// ```
pub fn build_folded(list: &[u8], block: usize, room: &mut [u8]) -> Result<usize, Refused> {
    length_of_built(proved::book_build_folded(list, block, room))
}

/// What the answer of a build says.
fn length_of_built(answer: Answer) -> Result<usize, Refused> {
    let (length, _) = accepted(answer).map_err(|refusal| Refused {
        refusal,
        record: answer.first,
        list: Which::Only,
    })?;
    Ok(length)
}

/// Tells whether bytes are a book: exactly those that [`build`] or [`build_folded`]
/// writes for some list and block size, or [`to_columns`] for some plain book. All of
/// the bytes count, so a book with one byte more is none. The kind is that of the mark
/// that a book ends with.
///
/// A book has no checksum, and a damaged one may be another book: one wrong bit makes
/// Marine of Marina, and the bytes are accepted.
///
/// Refused: [`NoBook`](Refusal::NoBook).
///
/// ```
/// use mistrogu::{build, check, BookKind, Checked, Refusal};
///
/// let mut room = [0; 100];
/// let length = build(b"\x03Mar\x06Marina", 16, &mut room)?;
/// let checked = Checked { names: 2, block: 16, kind: BookKind::Plain };
/// assert_eq!(check(&room[..length]), Ok(checked));
/// assert_eq!(check(&room), Err(Refusal::NoBook));
/// # Ok::<(), mistrogu::Refused>(())
/// ```
pub fn check(book: &[u8]) -> Result<Checked, Refusal> {
    let (names, block) = accepted(proved::book_check(book))?;
    let kind = BookKind::of_marked(book).expect("an accepted book has a mark");
    Ok(Checked { names, block, kind })
}

/// Reads the name at a position back, to the front of the room, and gives that
/// part of the room. A room of [`LONGEST_NAME`] bytes is always long enough.
///
/// Refused, in this order: [`NoBook`](Refusal::NoBook),
/// [`NoSuchPosition`](Refusal::NoSuchPosition),
/// [`RoomTooShort`](Refusal::RoomTooShort).
///
/// ```
/// use mistrogu::{build, read, Refusal};
///
/// let mut room = [0; 100];
/// let length = build(b"\x03Mar\x06Marina", 16, &mut room)?;
/// let book = &room[..length];
///
/// let mut name = [0; 6];
/// assert_eq!(read(book, 0, &mut name), Ok(&b"Mar"[..]));
/// assert_eq!(read(book, 1, &mut name), Ok(&b"Marina"[..]));
/// assert_eq!(read(book, 2, &mut name), Err(Refusal::NoSuchPosition));
/// # Ok::<(), mistrogu::Refused>(())
/// ```
pub fn read<'room>(
    book: &[u8],
    position: usize,
    room: &'room mut [u8],
) -> Result<&'room [u8], Refusal> {
    let (length, _) = accepted(proved::book_read(book, position, room))?;
    Ok(&room[..length])
}

/// The position of the name that equals the question, if there is one.
///
/// Refused, in this order: [`NoBook`](Refusal::NoBook),
/// [`QuestionTooLong`](Refusal::QuestionTooLong).
///
/// ```
/// use mistrogu::{build, exact};
///
/// let mut room = [0; 100];
/// let length = build(b"\x03Mar\x06Marina", 16, &mut room)?;
/// assert_eq!(exact(&room[..length], b"Marina"), Ok(Some(1)));
/// assert_eq!(exact(&room[..length], b"Marin"), Ok(None));
/// # Ok::<(), mistrogu::Refused>(())
/// ```
pub fn exact(book: &[u8], question: &[u8]) -> Result<Option<usize>, Refusal> {
    Ok(counted::exact(book, question)?.answer)
}

/// How many names are less than the question: the position that it has, or
/// would have.
///
/// Refused, in this order: [`NoBook`](Refusal::NoBook),
/// [`QuestionTooLong`](Refusal::QuestionTooLong).
///
/// ```
/// use mistrogu::{build, place};
///
/// let mut room = [0; 100];
/// let length = build(b"\x03Mar\x06Marina", 16, &mut room)?;
/// assert_eq!(place(&room[..length], b"Marin"), Ok(1));
/// assert_eq!(place(&room[..length], b"Maxim"), Ok(2));
/// # Ok::<(), mistrogu::Refused>(())
/// ```
pub fn place(book: &[u8], question: &[u8]) -> Result<usize, Refusal> {
    Ok(counted::place(book, question)?.answer)
}

/// The positions of the names that begin with the question. Where there are
/// none, the range is empty and stands at the question's place. An empty
/// question begins every name.
///
/// Refused, in this order: [`NoBook`](Refusal::NoBook),
/// [`QuestionTooLong`](Refusal::QuestionTooLong).
///
/// ```
/// use mistrogu::{build, range};
///
/// let mut room = [0; 100];
/// let length = build(b"\x03Mar\x06Marina", 16, &mut room)?;
/// assert_eq!(range(&room[..length], b"Mar"), Ok(0..2));
/// assert_eq!(range(&room[..length], b"Mas"), Ok(2..2));
/// # Ok::<(), mistrogu::Refused>(())
/// ```
pub fn range(book: &[u8], question: &[u8]) -> Result<Range<usize>, Refusal> {
    Ok(counted::range(book, question)?.answer)
}

/// A name that shares as many leading bytes with the question as any name does,
/// and how many leading bytes of the question to light. They may be none. Of
/// several such names the book's nodes lead to one, always the same, and not always
/// the first: docs/STATEMENTS.md says which.
///
/// Of a text in UTF-8 no half character is lit. The number is the greatest, not
/// above the shared bytes, that is 0, or the question's length, or a place where
/// the question's byte is not 128 to 191: in UTF-8 those are the bytes that go on
/// with a character. A question that ends inside a character and is shared in full
/// is lit in full. What the name goes on with does not count.
///
/// Refused, in this order: [`NoBook`](Refusal::NoBook),
/// [`QuestionTooLong`](Refusal::QuestionTooLong),
/// [`NoNames`](Refusal::NoNames).
///
/// ```
/// use mistrogu::{build, nearest, Nearest};
///
/// let mut room = [0; 100];
/// let length = build("\x05Café\x06Marina".as_bytes(), 16, &mut room)?;
/// let book = &room[..length];
/// let answer = nearest(book, b"Marine Parade");
/// assert_eq!(answer, Ok(Nearest { position: 1, lit: 5 }));
///
/// // é is C3 A9 and è is C3 A8: four bytes are shared, and Caf is lit.
/// let answer = nearest(book, "Cafè".as_bytes());
/// assert_eq!(answer, Ok(Nearest { position: 0, lit: 3 }));
/// # Ok::<(), mistrogu::Refused>(())
/// ```
pub fn nearest(book: &[u8], question: &[u8]) -> Result<Nearest, Refusal> {
    Ok(counted::nearest(book, question)?.answer)
}

/// How many bytes the longest of the names has that begin with the question, so
/// how much space a screen keeps for any of them. Where none does, as in a book
/// without names, it is 0. An empty question begins every name.
///
/// Refused, in this order: [`NoBook`](Refusal::NoBook),
/// [`QuestionTooLong`](Refusal::QuestionTooLong).
///
/// ```
/// use mistrogu::{build, width};
///
/// let mut room = [0; 100];
/// let length = build(b"\x03Mar\x06Marina", 16, &mut room)?;
/// assert_eq!(width(&room[..length], b"Ma"), Ok(6));
/// assert_eq!(width(&room[..length], b"Mas"), Ok(0));
/// # Ok::<(), mistrogu::Refused>(())
/// ```
pub fn width(book: &[u8], question: &[u8]) -> Result<usize, Refusal> {
    Ok(counted::width(book, question)?.answer)
}
