//! Two lists merged into one, and the step that follows along.
//!
//! Renders document 02, change request 2. A merged list is a set of names,
//! written as records; a step looks at one name of each list. Every call takes
//! any bytes and any numbers, and judges both lists before all else. Merging goes
//! by the plain rule alone.

use crate::calls::{accepted, refused_in_list, write_out, Answer};
use crate::names::{is_less, read_names, write_list, Rule, MOST_NAMES};
use crate::refusals::TOO_MANY_NAMES;
use std::collections::BTreeSet;

/// Where a head stands: the list, and the part of it that is the name without
/// its length byte.
#[derive(Clone, Copy, Debug, PartialEq, Eq, Default)]
pub struct Head {
    /// 1 for the first list, 2 for the second.
    pub list: usize,
    /// Where the name begins in its list.
    pub start: usize,
    /// How many bytes the name has.
    pub length: usize,
}

/// The empty part of the first list.
const EMPTY_PART: Head = Head {
    list: 1,
    start: 0,
    length: 0,
};

/// Merges two lists into one that strictly rises, with the names of both and a
/// name in both once. Refusals: 5 and 6 of the first list, then of the second;
/// 7 with 2,000 and list 0; 4.
pub fn list_merge(first: &[u8], second: &[u8], room: &mut [u8]) -> Answer {
    let merged = match read_both(first, second) {
        Err(refusal) => return refusal,
        Ok([first, second]) => union(first, second),
    };
    if merged.len() > MOST_NAMES {
        return refused_in_list(TOO_MANY_NAMES, MOST_NAMES, 0);
    }
    write_out(&write_list(&merged), room)
}

/// Judges two lists as a merge and a step do. Refusals: 5 and 6 of the first
/// list, then of the second.
pub fn list_judge(first: &[u8], second: &[u8]) -> Answer {
    match read_both(first, second) {
        Err(refusal) => refusal,
        Ok(_) => accepted(0, 0),
    }
}

/// Where the head stands that a step shows, when so many records of each list
/// have been passed: the lesser of the two heads, of equal ones the first
/// list's, and where one list is exhausted the other's. Two exhausted lists, and
/// lists that are refused, give the empty part of the first.
pub fn list_head(first: &[u8], second: &[u8], passed_first: usize, passed_second: usize) -> Head {
    let Ok([first, second]) = read_both(first, second) else {
        return EMPTY_PART;
    };
    match (first.get(passed_first), second.get(passed_second)) {
        (None, None) => EMPTY_PART,
        (Some(_), None) => head_of(1, &first, passed_first),
        (None, Some(_)) => head_of(2, &second, passed_second),
        (Some(one), Some(other)) if is_less(Rule::Plain, other, one) => {
            head_of(2, &second, passed_second)
        }
        (Some(_), Some(_)) => head_of(1, &first, passed_first),
    }
}

/// The step: the head itself, as a part of the list it stands in.
pub fn list_step<'lists>(
    first: &'lists [u8],
    second: &'lists [u8],
    passed_first: usize,
    passed_second: usize,
) -> &'lists [u8] {
    let head = list_head(first, second, passed_first, passed_second);
    let list = if head.list == 1 { first } else { second };
    &list[head.start..head.start + head.length]
}

/// The names of both lists, or the refusal of the first list, else that of the
/// second, with the number of the record and that of the list.
fn read_both(first: &[u8], second: &[u8]) -> Result<[Vec<Vec<u8>>; 2], Answer> {
    Ok([read_one(1, first)?, read_one(2, second)?])
}

/// The names of one of the two lists. It may have as many as its bytes hold:
/// only the merged list has a limit.
fn read_one(number: usize, list: &[u8]) -> Result<Vec<Vec<u8>>, Answer> {
    let names = read_names(Rule::Plain, list, usize::MAX);
    names.map_err(|(code, record)| refused_in_list(code, record, number))
}

/// The names that are in one of the two or in both, rising.
///
/// A set has each of its items once, and gives them in their order, which for
/// byte strings is that of names.
fn union(first: Vec<Vec<u8>>, second: Vec<Vec<u8>>) -> Vec<Vec<u8>> {
    let both: BTreeSet<Vec<u8>> = first.into_iter().chain(second).collect();
    both.into_iter().collect()
}

/// Where the name behind so many passed records stands in the list of this
/// number: behind all of those records and its own length byte.
fn head_of(number: usize, names: &[Vec<u8>], passed: usize) -> Head {
    Head {
        list: number,
        start: write_list(&names[..passed]).len() + 1,
        length: names[passed].len(),
    }
}
