//! What is spoken: the clip for a typed text, and the clips of a route.

use core::error::Error;
use core::fmt;

use crate::{accepted, Refusal};

/// What the announcer has for a text.
#[derive(Clone, Copy, Debug, PartialEq, Eq, Hash)]
pub enum Spoken {
    /// The clip of the one stop that is meant.
    Clip(u16),
    /// No stop is meant alone: so many names begin with the text, none or several.
    Names(usize),
}

/// The clip for a text, such as what a driver typed: that of the name that equals it,
/// or else of the only name that begins with it. Where there is neither, it tells how
/// many names begin with the text. The empty text begins every name.
///
/// The table has one clip for each name of the book, in the order of their positions,
/// so it belongs to that book. When the book is built anew, the table is made anew.
///
/// Refused, in this order: [`NoBook`](Refusal::NoBook), also for a column book;
/// [`BadClipTable`](Refusal::BadClipTable);
/// [`QuestionTooLong`](Refusal::QuestionTooLong).
///
/// ```
/// use mistrogu::{build, clip, Refusal, Spoken};
///
/// let mut room = [0; 100];
/// let length = build(b"\x03Mar\x06Marina\x0DMarket Square", 2, &mut room)?;
/// let (book, clips) = (&room[..length], [301, 302, 303]);
///
/// // Mar has its own clip, though three names begin with it.
/// assert_eq!(clip(book, &clips, b"Mar"), Ok(Spoken::Clip(301)));
/// assert_eq!(clip(book, &clips, b"Mark"), Ok(Spoken::Clip(303)));
/// assert_eq!(clip(book, &clips, b"Ma"), Ok(Spoken::Names(3)));
/// assert_eq!(clip(book, &clips, b"Zoo"), Ok(Spoken::Names(0)));
/// assert_eq!(clip(book, &clips[1..], b"Mar"), Err(Refusal::BadClipTable));
/// # Ok::<(), mistrogu::Refused>(())
/// ```
pub fn clip(book: &[u8], clips: &[u16], text: &[u8]) -> Result<Spoken, Refusal> {
    match accepted(proved::announce_clip(book, clips, text))? {
        (0, names) => Ok(Spoken::Names(names)),
        (_, clip) => {
            let clip = u16::try_from(clip).expect("a clip is one of the table");
            Ok(Spoken::Clip(clip))
        }
    }
}

/// Why a route is refused, and where: a [`Refusal`], and the place in the route that it
/// is about.
///
/// ```
/// use mistrogu::{build, route, Refusal, RouteRefused};
///
/// let mut room = [0; 100];
/// let length = build(b"\x03Mar\x06Marina", 2, &mut room)?;
/// let refused = route(&room[..length], &[301, 302], &[1, 0, 2], &mut [0; 3]).unwrap_err();
/// assert_eq!(refused, RouteRefused { refusal: Refusal::NoSuchPosition, place: 2 });
/// let sentence = "place 2 of the route: the position is at or above the number of names";
/// assert_eq!(refused.to_string(), sentence);
/// # Ok::<(), mistrogu::Refused>(())
/// ```
#[derive(Clone, Copy, Debug, PartialEq, Eq, Hash)]
pub struct RouteRefused {
    /// Why.
    pub refusal: Refusal,
    /// The place of the first bad position in the route, counted from 0. It is told
    /// for [`Refusal::NoSuchPosition`], and 0 for all others.
    pub place: usize,
}

impl fmt::Display for RouteRefused {
    fn fmt(&self, out: &mut fmt::Formatter<'_>) -> fmt::Result {
        match self.refusal {
            refusal @ Refusal::NoSuchPosition => {
                write!(out, "place {} of the route: {refusal}", self.place)
            }
            refusal => refusal.fmt(out),
        }
    }
}

impl Error for RouteRefused {}

impl From<RouteRefused> for Refusal {
    /// The refusal alone, without the place.
    fn from(refused: RouteRefused) -> Self {
        refused.refusal
    }
}

/// The clips of a route, one for each position and in the same order, at the front of
/// the room: that part of the room is given. A route has up to
/// [`MOST_STOPS`](crate::MOST_STOPS) positions, and a room of as many clips is always
/// long enough. Positions may come several times.
///
/// The table has one clip for each name of the book, as for [`clip`].
///
/// Refused, in this order: [`NoBook`](Refusal::NoBook),
/// [`BadClipTable`](Refusal::BadClipTable), [`BadBatch`](Refusal::BadBatch) with more
/// positions than that, [`NoSuchPosition`](Refusal::NoSuchPosition) with the place of
/// the first bad one, [`RoomTooShort`](Refusal::RoomTooShort).
///
/// ```
/// use mistrogu::{build, route, Refusal, MOST_STOPS};
///
/// let mut room = [0; 100];
/// let length = build(b"\x03Mar\x06Marina\x0DMarket Square", 2, &mut room)?;
/// let (book, clips) = (&room[..length], [301, 302, 303]);
///
/// let mut row = [0; MOST_STOPS];
/// assert_eq!(route(book, &clips, &[2, 0, 2], &mut row), Ok(&[303, 301, 303][..]));
/// let refused = route(book, &clips, &[2, 3], &mut row).unwrap_err();
/// assert_eq!((refused.refusal, refused.place), (Refusal::NoSuchPosition, 1));
/// # Ok::<(), mistrogu::Refused>(())
/// ```
pub fn route<'room>(
    book: &[u8],
    clips: &[u16],
    positions: &[usize],
    room: &'room mut [u16],
) -> Result<&'room [u16], RouteRefused> {
    let answer = proved::announce_route(book, clips, positions, room);
    let (bytes, _) = accepted(answer).map_err(|refusal| RouteRefused {
        refusal,
        place: answer.first,
    })?;
    Ok(&room[..bytes / size_of::<u16>()])
}
