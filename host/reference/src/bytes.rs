//! Bytes and numbers at an offset, without a test.

use crate::rules::Rule;

/// The byte at this offset.
///
/// # Safety
///
/// It lies inside.
#[inline(always)]
pub unsafe fn byte(bytes: &[u8], at: usize) -> usize {
    usize::from(*bytes.get_unchecked(at))
}

/// The number of two bytes at this offset.
///
/// # Safety
///
/// Both lie inside.
#[inline(always)]
pub unsafe fn two(bytes: &[u8], at: usize) -> usize {
    let pair = bytes.as_ptr().add(at).cast::<[u8; 2]>().read();
    usize::from(u16::from_le_bytes(pair))
}

/// Writes a number of two bytes at this offset.
///
/// # Safety
///
/// Both lie inside.
#[inline(always)]
pub unsafe fn put_two(bytes: &mut [u8], at: usize, number: usize) {
    let pair = (number as u16).to_le_bytes();
    bytes.as_mut_ptr().add(at).cast::<[u8; 2]>().write(pair);
}

/// The bytes from this offset on, so many.
///
/// # Safety
///
/// All lie inside.
#[inline(always)]
pub unsafe fn part(bytes: &[u8], at: usize, length: usize) -> &[u8] {
    bytes.get_unchecked(at..at + length)
}

/// Copies bytes to this offset.
///
/// # Safety
///
/// There is space for all of them.
#[inline(always)]
pub unsafe fn put(bytes: &mut [u8], at: usize, from: &[u8]) {
    let to = bytes.as_mut_ptr().add(at);
    core::ptr::copy_nonoverlapping(from.as_ptr(), to, from.len());
}

/// How many leading bytes two names have in common.
#[inline(always)]
pub fn leading_equal(one: &[u8], other: &[u8]) -> usize {
    let least = one.len().min(other.len());
    let mut at = 0;
    // SAFETY: the place is below both lengths.
    while at < least && unsafe { one.get_unchecked(at) == other.get_unchecked(at) } {
        at += 1;
    }
    at
}

/// How many leading bytes two names have in common as letters.
#[inline(always)]
pub fn leading_letters<R: Rule>(one: &[u8], other: &[u8]) -> usize {
    letters_from::<R>(one, other, leading_equal(one, other))
}

/// The same, of names whose bytes are the same up to here and no further.
#[inline(always)]
pub fn letters_from<R: Rule>(one: &[u8], other: &[u8], known: usize) -> usize {
    if !R::FOLDS {
        return known;
    }
    let least = one.len().min(other.len());
    let mut at = known;
    // SAFETY: the place is below both lengths.
    while at < least && unsafe { R::letter(byte(one, at)) == R::letter(byte(other, at)) } {
        at += 1;
    }
    at
}

/// Whether a name that shares so many letters with the one before is above it.
///
/// # Safety
///
/// They do share so many.
#[inline(always)]
pub unsafe fn is_above<R: Rule>(name: &[u8], before: &[u8], shared: usize) -> bool {
    let goes_on = shared < name.len();
    goes_on
        && (shared == before.len()
            || R::letter(byte(before, shared)) < R::letter(byte(name, shared)))
}
