//! The laws of merging, of document 02, change request 6, by the proved library
//! alone: in whatever order and grouping three lists are merged, the bytes are
//! the same, and a list with itself is that list.

use crate::lent::{hex, lend};
use crate::shapes::{any_names, as_many_as_can_be, ANY_BLOCK};
use fenced::{on_stack, Fenced};
use format::MOST_NAMES;
use mistrogu::STACK;
use model::{write_list, BookKind};
use vectors::lists::shared_out;
use vectors::random::Random;

/// The places of three lists in every order.
const ORDERS: [[usize; 3]; 6] = [
    [0, 1, 2],
    [0, 2, 1],
    [1, 0, 2],
    [1, 2, 0],
    [2, 0, 1],
    [2, 1, 0],
];

/// Merges three random lists in every way: 0, or the whole case.
pub fn run(random: &mut Random) -> Result<usize, String> {
    let lists = any_three(random);
    match hold(random, &lists) {
        Ok(()) => Ok(0),
        Err(law) => {
            let [a, b, c] = lists.each_ref().map(|list| hex(list));
            Err(format!("{law}\nA {a}\nB {b}\nC {c}\nin any order"))
        }
    }
}

/// Three sound lists, to be lent, with at most 2,000 different names together.
fn any_three(random: &mut Random) -> [Fenced<u8>; 3] {
    let mut names = match random.below(24) {
        0 => as_many_as_can_be(random),
        _ => any_names(random, BookKind::Plain, ANY_BLOCK),
    };
    names.truncate(MOST_NAMES);
    shared_out(random, &names).map(|names| lend(random, &write_list(&names)))
}

/// Every law for these lists, or the first that does not hold.
fn hold(random: &mut Random, lists: &[Fenced<u8>; 3]) -> Result<(), String> {
    for list in lists {
        same("A with A", list, &merged(random, list, list)?)?;
    }
    let one = merged(random, &lists[0], &lists[1])?;
    let all = merged(random, &one, &lists[2])?;
    for [a, b, c] in ORDERS.map(|order| order.map(|at| &lists[at])) {
        let [ab, ba] = [merged(random, a, b)?, merged(random, b, a)?];
        same("B with A", &ab, &ba)?;
        same("(A with B) with C", &all, &merged(random, &ab, c)?)?;
        let bc = merged(random, b, c)?;
        same("A with (B with C)", &all, &merged(random, a, &bc)?)?;
    }
    Ok(())
}

/// The merged list of two, in a room that is long enough for all of their
/// records.
fn merged(random: &mut Random, first: &[u8], second: &[u8]) -> Result<Fenced<u8>, String> {
    let mut room = lend(random, &vec![0; first.len() + second.len()]);
    let answer = on_stack(STACK, || proved::list_merge(first, second, &mut room));
    match (answer.code, room.get(..answer.first)) {
        (0, Some(merged)) => Ok(lend(random, merged)),
        _ => Err(format!("{} with {}: {answer:?}", hex(first), hex(second))),
    }
}

/// Asserts that both are the same bytes.
fn same(law: &str, expected: &[u8], found: &[u8]) -> Result<(), String> {
    if expected == found {
        return Ok(());
    }
    let (expected, found) = (hex(expected), hex(found));
    Err(format!("{law}\nexpected {expected}\nfound    {found}"))
}
