//! Two lists made one, and gone through side by side.

use core::iter::FusedIterator;

use proved::Answer;

use crate::{accepted, Refused, Which};

/// The first number of an answer about two lists, where its code is 0.
fn accepted_of_two(answer: Answer) -> Result<usize, Refused> {
    let list = match answer.second {
        1 => Which::First,
        2 => Which::Second,
        _ => Which::Merged,
    };
    let (first, _) = accepted(answer).map_err(|refusal| Refused {
        refusal,
        record: answer.first,
        list,
    })?;
    Ok(first)
}

/// Merges two lists into one at the front of the room, and gives the bytes
/// written: a list for [`build`](crate::build). A name in both is written once.
///
/// A room as long as both lists together is always long enough. Each of the two
/// may have any number of names.
///
/// Refused, in this order: of the first list, record by record,
/// [`BadRecord`](crate::Refusal::BadRecord), [`NotAbove`](crate::Refusal::NotAbove);
/// then so of the second, each with the record's number and the list; then
/// [`TooManyNames`](crate::Refusal::TooManyNames), where the merged list would
/// have over 2,000; then [`RoomTooShort`](crate::Refusal::RoomTooShort).
///
/// ```
/// use mistrogu::{build, merge};
///
/// let first = b"\x03Mar\x0DMarket Square";
/// let second = b"\x03Mar\x06Marina";
/// let mut room = [0; 100];
/// let length = merge(first, second, &mut room)?;
/// let merged = &room[..length];
/// assert_eq!(merged, b"\x03Mar\x06Marina\x0DMarket Square");
/// assert_eq!(build(merged, 2, &mut [0; 100]), Ok(93));
///
/// let refused = merge(first, b"\x03Zoo\x03Mar", &mut room).unwrap_err();
/// let sentence = "second list, record 1: a name is not above the one before it";
/// assert_eq!(refused.to_string(), sentence);
/// # Ok::<(), mistrogu::Refused>(())
/// ```
pub fn merge(first: &[u8], second: &[u8], room: &mut [u8]) -> Result<usize, Refused> {
    accepted_of_two(proved::list_merge(first, second, room))
}

/// Tells whether two runs of bytes are lists. Each may have any number of names.
///
/// Refused as by [`merge`], with a record of the first list, then of the second.
///
/// ```
/// use mistrogu::{judge, Refusal, Refused, Which};
///
/// assert_eq!(judge(b"\x03Mar", b""), Ok(()));
/// let refused = Refused {
///     refusal: Refusal::BadRecord,
///     record: 1,
///     list: Which::First,
/// };
/// assert_eq!(judge(b"\x03Mar\0", b"\0"), Err(refused));
/// ```
pub fn judge(first: &[u8], second: &[u8]) -> Result<(), Refused> {
    accepted_of_two(proved::list_judge(first, second)).map(|_| ())
}

/// A name of two lists, as a part of the one that it stands in.
#[derive(Clone, Copy, Debug, PartialEq, Eq, Hash)]
pub enum Head<'lists> {
    /// It stands in the first list, and it may stand in the second, too.
    First(&'lists [u8]),
    /// It stands in the second list alone.
    Second(&'lists [u8]),
}

impl<'lists> Head<'lists> {
    /// The name.
    pub fn name(self) -> &'lists [u8] {
        match self {
            Head::First(name) | Head::Second(name) => name,
        }
    }
}

/// The names of two lists in their order, each once: what [`heads`] gives.
#[derive(Clone, Debug)]
pub struct Heads<'lists> {
    first: &'lists [u8],
    second: &'lists [u8],
    passed_first: usize,
    passed_second: usize,
    /// The name that was shown last.
    before: Option<&'lists [u8]>,
}

/// The names that [`merge`] would write, one after the other, each as a part of
/// the list that it stands in; of a name in both, the first list's. Nothing is
/// copied, and no room is needed.
///
/// For a screen that follows a merge. Every name that is shown is asked for anew,
/// with how many records of each list are passed: that judges both lists and goes
/// over them from their start. To the end it takes as many such calls as both
/// lists have records, so time as the square of that; [`merge`] goes over them
/// once.
///
/// Refused as by [`judge`]. However many names there are, none is too many.
///
/// ```
/// use mistrogu::{heads, Head};
///
/// let first = b"\x03Mar\x0DMarket Square";
/// let second = b"\x03Mar\x06Marina";
/// let mut shown = heads(first, second)?;
/// assert_eq!(shown.next(), Some(Head::First(b"Mar")));
/// assert_eq!(shown.next(), Some(Head::Second(b"Marina")));
/// assert_eq!(shown.next(), Some(Head::First(b"Market Square")));
/// assert_eq!(shown.next(), None);
/// # Ok::<(), mistrogu::Refused>(())
/// ```
pub fn heads<'lists>(first: &'lists [u8], second: &'lists [u8]) -> Result<Heads<'lists>, Refused> {
    judge(first, second)?;
    Ok(Heads {
        first,
        second,
        passed_first: 0,
        passed_second: 0,
        before: None,
    })
}

impl<'lists> Heads<'lists> {
    /// The lesser head behind the passed records.
    fn lesser(&self) -> Option<Head<'lists>> {
        let head = proved::list_head(
            self.first,
            self.second,
            self.passed_first,
            self.passed_second,
        );
        let part = head.start..head.start + head.length;
        match head.list {
            _ if part.is_empty() => None,
            1 => Some(Head::First(&self.first[part])),
            _ => Some(Head::Second(&self.second[part])),
        }
    }
}

impl<'lists> Iterator for Heads<'lists> {
    type Item = Head<'lists>;

    fn next(&mut self) -> Option<Head<'lists>> {
        loop {
            let head = self.lesser()?;
            match head {
                Head::First(_) => self.passed_first += 1,
                Head::Second(_) => self.passed_second += 1,
            }
            // A name in both lists is the first one's head, and right behind
            // that the second one's: it is passed there, too.
            let name = Some(head.name());
            if self.before != name {
                self.before = name;
                return Some(head);
            }
        }
    }
}

impl FusedIterator for Heads<'_> {}
