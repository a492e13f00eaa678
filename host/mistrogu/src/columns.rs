//! Turning a plain book into a column book, and back.

use proved::Answer;

use crate::{accepted, Refusal};

/// Turns a plain book into the column book of the same names, at the front of the
/// room, and gives that part of the room.
///
/// The column book has exactly the bytes that building gives for its kind, with the
/// same list and block size. It is as long as the plain one, and answers every
/// question alike, with the same counts: only its node table is stored field by
/// field. A room as long as the book is long enough.
///
/// Refused, in this order: [`NoBook`](Refusal::NoBook) for anything but a sound plain
/// book, so also for a folded one and for a column book;
/// [`RoomTooShort`](Refusal::RoomTooShort).
///
/// ```
/// use mistrogu::{build, check, from_columns, range, to_columns, BookKind, Refusal};
///
/// let mut room = [0; 93];
/// build(b"\x03Mar\x06Marina\x0DMarket Square", 2, &mut room)?;
/// let plain = &room[..];
/// let mut other = [0; 93];
/// let columns = to_columns(plain, &mut other)?;
/// assert_eq!(check(columns).map(|checked| checked.kind), Ok(BookKind::Columns));
/// assert_eq!(range(columns, b"Mari"), range(plain, b"Mari"));
///
/// assert_eq!(from_columns(columns, &mut [0; 93]), Ok(plain));
/// assert_eq!(to_columns(columns, &mut [0; 93]), Err(Refusal::NoBook));
/// assert_eq!(to_columns(plain, &mut [0; 92]), Err(Refusal::RoomTooShort));
/// # Ok::<(), mistrogu::Refusal>(())
/// ```
pub fn to_columns<'room>(book: &[u8], room: &'room mut [u8]) -> Result<&'room [u8], Refusal> {
    let answer = proved::book_to_columns(book, room);
    written(answer, room)
}

/// Turns a column book into the plain book of the same names, at the front of the
/// room, and gives that part of the room: exactly the bytes that [`build`](crate::build)
/// gives for the same list and block size. A room as long as the book is long enough.
///
/// Refused, in this order: [`NoBook`](Refusal::NoBook) for anything but a sound column
/// book; [`RoomTooShort`](Refusal::RoomTooShort).
///
/// A sample stands with [`to_columns`].
pub fn from_columns<'room>(book: &[u8], room: &'room mut [u8]) -> Result<&'room [u8], Refusal> {
    let answer = proved::book_from_columns(book, room);
    written(answer, room)
}

/// The part of the room that an accepted answer says is written.
fn written(answer: Answer, room: &[u8]) -> Result<&[u8], Refusal> {
    let (length, _) = accepted(answer)?;
    Ok(&room[..length])
}
