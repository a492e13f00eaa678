//! Writing a list.

use crate::{Refusal, LONGEST_NAME};

/// A list in a lent room: what [`build`](crate::build) takes, written name by
/// name.
///
/// ```
/// use mistrogu::{build, List};
///
/// let mut room = [0; 100];
/// let mut list = List::new(&mut room);
/// for stop in ["Mar", "Marina", "Market Square"] {
///     list.push(stop.as_bytes())?;
/// }
/// assert_eq!(list.records(), b"\x03Mar\x06Marina\x0DMarket Square");
///
/// let mut book = [0; 100];
/// assert_eq!(build(list.records(), 2, &mut book), Ok(93));
/// # Ok::<(), mistrogu::Refusal>(())
/// ```
#[derive(Debug)]
pub struct List<'room> {
    room: &'room mut [u8],
    length: usize,
}

impl<'room> List<'room> {
    /// A list without names. A name takes its bytes and one more.
    pub fn new(room: &'room mut [u8]) -> Self {
        List { room, length: 0 }
    }

    /// Writes a name behind the others. That names rise, and how many there
    /// are, [`build`](crate::build) judges.
    ///
    /// Refused with [`BadRecord`](Refusal::BadRecord) where the name has no
    /// bytes or over 200, then with [`RoomTooShort`](Refusal::RoomTooShort);
    /// the list is then as it was.
    pub fn push(&mut self, name: &[u8]) -> Result<(), Refusal> {
        if name.is_empty() || name.len() > LONGEST_NAME {
            return Err(Refusal::BadRecord);
        }
        let left = &mut self.room[self.length..];
        let record = left.get_mut(..1 + name.len());
        let record = record.ok_or(Refusal::RoomTooShort)?;
        record[0] = name.len() as u8;
        record[1..].copy_from_slice(name);
        self.length += record.len();
        Ok(())
    }

    /// The records that were written.
    pub fn records(&self) -> &[u8] {
        &self.room[..self.length]
    }
}
