//! Two lists judged, then gone through side by side.

use crate::bytes::{byte, is_above, leading_equal, part, put};
use crate::calls::Head;
use crate::records::judge_record;
use crate::rules::Plain;
use crate::MOST_NAMES;

/// Judges a list, however many names it has: the refusal, 5 or 6, and the
/// record's number.
pub fn judge(list: &[u8]) -> Result<(), (usize, usize)> {
    let mut before: &[u8] = &[];
    let mut at = 0;
    let mut count = 0;
    while at < list.len() {
        // SAFETY: there is a byte.
        let judged = unsafe { judge_record::<Plain>(list, at, before) };
        before = judged.map_err(|code| (code, count))?.name;
        count += 1;
        at += 1 + before.len();
    }
    Ok(())
}

/// A list that was judged, and where its next record begins.
#[derive(Clone, Copy)]
struct Rest<'lent> {
    list: &'lent [u8],
    at: usize,
}

impl<'lent> Rest<'lent> {
    /// The next record, with its length byte; none at the end.
    #[inline(always)]
    fn record(self) -> Option<&'lent [u8]> {
        if self.at == self.list.len() {
            return None;
        }
        // SAFETY: a record begins here, and it does not run past the list.
        Some(unsafe { part(self.list, self.at, 1 + byte(self.list, self.at)) })
    }

    /// Passes so many records, or as many as there are.
    #[inline(always)]
    fn pass(&mut self, count: usize) {
        for _ in 0..count {
            match self.record() {
                None => break,
                Some(record) => self.at += record.len(),
            }
        }
    }
}

/// Which list the lesser of two heads stands in.
#[derive(Clone, Copy)]
enum Lesser {
    First,
    Second,
    /// The heads are one name.
    Both,
}

/// Which of two records has the lesser name.
#[inline(always)]
fn lesser(one: &[u8], other: &[u8]) -> Lesser {
    // SAFETY: a record has a length byte, and the names share so many bytes.
    unsafe {
        let (one, other) = (one.get_unchecked(1..), other.get_unchecked(1..));
        let shared = leading_equal(one, other);
        if is_above::<Plain>(other, one, shared) {
            Lesser::First
        } else if is_above::<Plain>(one, other, shared) {
            Lesser::Second
        } else {
            Lesser::Both
        }
    }
}

/// Two lists that were judged, each from some record on.
#[derive(Clone, Copy)]
pub struct Pair<'lent> {
    first: Rest<'lent>,
    second: Rest<'lent>,
}

impl<'lent> Pair<'lent> {
    /// Both lists from their start.
    ///
    /// # Safety
    ///
    /// Both were judged.
    pub unsafe fn new(first: &'lent [u8], second: &'lent [u8]) -> Pair<'lent> {
        let [first, second] = [first, second].map(|list| Rest { list, at: 0 });
        Pair { first, second }
    }

    /// The record of the lesser head, and where it stands; none where both
    /// lists have ended.
    #[inline(always)]
    fn next(self) -> Option<(Lesser, &'lent [u8])> {
        match (self.first.record(), self.second.record()) {
            (None, None) => None,
            (Some(one), None) => Some((Lesser::First, one)),
            (None, Some(other)) => Some((Lesser::Second, other)),
            (Some(one), Some(other)) => match lesser(one, other) {
                Lesser::Second => Some((Lesser::Second, other)),
                first => Some((first, one)),
            },
        }
    }

    /// Passes the lesser head, both where they are equal, and gives its record.
    #[inline(always)]
    fn take(&mut self) -> Option<&'lent [u8]> {
        let (lesser, record) = self.next()?;
        if !matches!(lesser, Lesser::Second) {
            self.first.at += record.len();
        }
        if !matches!(lesser, Lesser::First) {
            self.second.at += record.len();
        }
        Some(record)
    }

    /// How many bytes the merged list has; nothing where it has over 2,000
    /// names.
    pub fn merged_length(mut self) -> Option<usize> {
        let (mut names, mut length) = (0, 0);
        while let Some(record) = self.take() {
            if names == MOST_NAMES {
                return None;
            }
            names += 1;
            length += record.len();
        }
        Some(length)
    }

    /// Writes the merged list to the front of the room.
    ///
    /// # Safety
    ///
    /// The room is long enough.
    pub unsafe fn write(mut self, room: &mut [u8]) {
        let mut at = 0;
        while let Some(record) = self.take() {
            put(room, at, record);
            at += record.len();
        }
    }

    /// The lesser head behind so many records of each list.
    pub fn head(mut self, passed_first: usize, passed_second: usize) -> Head {
        self.first.pass(passed_first);
        self.second.pass(passed_second);
        let Some((lesser, record)) = self.next() else {
            return Head::EMPTY;
        };
        let (list, at) = match lesser {
            Lesser::Second => (2, self.second.at),
            Lesser::First | Lesser::Both => (1, self.first.at),
        };
        Head {
            list,
            start: at + 1,
            length: record.len() - 1,
        }
    }
}
