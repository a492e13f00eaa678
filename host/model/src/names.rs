//! Names, their symbols, their order, and lists of them.
//!
//! Renders document 01, "Names, symbols and order", with the three refusals
//! that a list record can bring (5, 6 and 7), and the second symbol rule that
//! document 02, change request 7, brings.

use crate::refusals::{BAD_RECORD, NOT_RISING, TOO_MANY_NAMES};

/// A name has 1 to 200 bytes.
pub const LONGEST_NAME: usize = 200;
/// The list of a book has 0 to 2,000 names, and so has a merged list.
pub const MOST_NAMES: usize = 2000;
/// The symbol after the last byte. It is below the symbol of every byte.
pub const END_SYMBOL: usize = 0;

/// Which symbol each byte is.
#[derive(Clone, Copy, Debug, PartialEq, Eq)]
pub enum Rule {
    /// Each byte b is the symbol b + 1.
    Plain,
    /// The same, but bytes 65 to 90 are the symbols of the bytes 32 higher.
    Folded,
}

impl Rule {
    /// The symbol of a byte, 1 to 256.
    ///
    /// M is 78 and m is 110; folded, both are 110. An accented capital is two
    /// bytes from 128 on, and those never fold.
    pub fn symbol(self, byte: u8) -> usize {
        match (self, byte) {
            (Rule::Folded, 65..=90) => usize::from(byte + 32) + 1,
            _ => usize::from(byte) + 1,
        }
    }
}

/// The symbols of a name or a question: one for each byte, then the end.
///
/// Mar has the symbols 78, 98, 115, 0; folded it has 110, 98, 115, 0.
pub fn symbols(rule: Rule, bytes: &[u8]) -> Vec<usize> {
    let mut symbols = Vec::new();
    for &byte in bytes {
        symbols.push(rule.symbol(byte));
    }
    symbols.push(END_SYMBOL);
    symbols
}

/// Whether `one` comes before `other`: the first differing symbol decides.
///
/// Comparing two vectors in Rust is comparing them at the first place where
/// they differ. Mar is before Marina, since 0 is below the symbol of i.
pub fn is_less(rule: Rule, one: &[u8], other: &[u8]) -> bool {
    symbols(rule, one) < symbols(rule, other)
}

/// Whether the two have the same symbols.
pub fn is_same(rule: Rule, one: &[u8], other: &[u8]) -> bool {
    symbols(rule, one) == symbols(rule, other)
}

/// Whether the name has the question's symbols at its front, the question's end
/// symbol left out.
pub fn begins_with(rule: Rule, name: &[u8], question: &[u8]) -> bool {
    shared_symbols(rule, name, question) == question.len()
}

/// How many leading bytes of the two are the same by their symbols. The end
/// symbol is no byte and does not count.
///
/// MAR and marina share 3 when folded; as bytes they share none.
pub fn shared_symbols(rule: Rule, one: &[u8], other: &[u8]) -> usize {
    let pairs = one.iter().zip(other);
    pairs
        .take_while(|(&left, &right)| rule.symbol(left) == rule.symbol(right))
        .count()
}

/// Whether every name is less than the one after it.
pub fn is_strictly_rising(rule: Rule, names: &[Vec<u8>]) -> bool {
    let mut pairs = names.windows(2);
    pairs.all(|pair| is_less(rule, &pair[0], &pair[1]))
}

/// Whether these are 0 to 2,000 names of 1 to 200 bytes that strictly rise.
pub fn is_sound_list(rule: Rule, names: &[Vec<u8>]) -> bool {
    let lengths_fit = names
        .iter()
        .all(|name| (1..=LONGEST_NAME).contains(&name.len()));
    names.len() <= MOST_NAMES && lengths_fit && is_strictly_rising(rule, names)
}

/// How many items from the front are the same in both.
pub fn leading_equal<T: PartialEq>(one: &[T], other: &[T]) -> usize {
    let pairs = one.iter().zip(other);
    pairs.take_while(|(left, right)| left == right).count()
}

/// Reads the records of the list of a book: all names, or the refusal of the
/// first bad record together with that record's number, counted from 0.
pub fn read_list(rule: Rule, list: &[u8]) -> Result<Vec<Vec<u8>>, (usize, usize)> {
    read_names(rule, list, MOST_NAMES)
}

/// The same of a list that may have so many names and no more.
///
/// Each record is asked 5, then 6, then 7, before the next one is looked at
/// ("The first bad record ends the reading").
pub fn read_names(rule: Rule, list: &[u8], most: usize) -> Result<Vec<Vec<u8>>, (usize, usize)> {
    let mut names: Vec<Vec<u8>> = Vec::new();
    let mut unread = list;
    while !unread.is_empty() {
        let record = names.len();
        let Some(name) = first_record(unread) else {
            return Err((BAD_RECORD, record));
        };
        if let Some(before) = names.last() {
            if !is_less(rule, before, name) {
                return Err((NOT_RISING, record));
            }
        }
        if record == most {
            return Err((TOO_MANY_NAMES, record));
        }
        names.push(name.to_vec());
        unread = &unread[1 + name.len()..];
    }
    Ok(names)
}

/// The name in the first record, unless its length is 0 or above 200 or it
/// runs past the list. A length byte with nothing behind it runs past, too.
fn first_record(records: &[u8]) -> Option<&[u8]> {
    let (&length, after) = records.split_first()?;
    let length = usize::from(length);
    if length == 0 || length > LONGEST_NAME {
        return None;
    }
    after.get(..length)
}

/// Writes names as list records: a length byte, then the name.
///
/// No limit is applied, so that tests can also write bad lists. A length
/// above 255 does not fit its byte and is cut to its low eight bits.
pub fn write_list(names: &[Vec<u8>]) -> Vec<u8> {
    let mut list = Vec::new();
    for name in names {
        list.push(low_byte(name.len()));
        list.extend_from_slice(name);
    }
    list
}

/// The low eight bits of a number.
pub(crate) fn low_byte(number: usize) -> u8 {
    (number % 256) as u8
}
