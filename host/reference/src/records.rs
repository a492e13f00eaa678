//! List records, judged one by one.

use crate::bytes::{byte, is_above, leading_equal, letters_from, part};
use crate::rules::Rule;
use crate::LONGEST_NAME;

/// A record that is good: its name, how many bytes the name has in common with the
/// one before, and how many letters.
#[derive(Clone, Copy)]
pub struct Record<'lent> {
    /// The name.
    pub name: &'lent [u8],
    /// The bytes in common.
    pub bytes: usize,
    /// The letters in common: as many, or more.
    pub letters: usize,
}

/// The record at this offset, behind one with this name. Refusals: 5, 6.
///
/// # Safety
///
/// There is a byte.
#[inline(always)]
pub unsafe fn judge_record<'lent, R: Rule>(
    list: &'lent [u8],
    at: usize,
    before: &[u8],
) -> Result<Record<'lent>, usize> {
    let length = byte(list, at);
    if length == 0 || length > LONGEST_NAME || length >= list.len() - at {
        return Err(5);
    }
    let name = part(list, at + 1, length);
    let bytes = leading_equal(before, name);
    let letters = letters_from::<R>(before, name, bytes);
    if is_above::<R>(name, before, letters) {
        Ok(Record {
            name,
            bytes,
            letters,
        })
    } else {
        Err(6)
    }
}
