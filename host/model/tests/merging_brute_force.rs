//! Document 02, change request 2, tried out: every pair of small lists, sound
//! or not, and each answer compared with a direct look at the bytes.
//!
//! The comparisons here use nothing of the model but its calls. They cut a list
//! into parts by their places, sort the names of both lists and drop doubles.

mod common;

use common::{all_strings, answer, head, no, yes, Random, EMPTY_PART, FILLING};
use model::{list_head, list_judge, list_merge, list_step, write_list, Answer, Head};
use std::ops::Range;

/// Where the names of a list stand, or the refusal of its first bad record.
fn direct_parts(list: &[u8]) -> Result<Vec<Range<usize>>, (usize, usize)> {
    let mut parts: Vec<Range<usize>> = Vec::new();
    let mut at = 0;
    while at < list.len() {
        let length = usize::from(list[at]);
        let part = at + 1..at + 1 + length;
        if length == 0 || length > 200 || part.end > list.len() {
            return Err((5, parts.len()));
        }
        let name = &list[part.clone()];
        if parts
            .last()
            .is_some_and(|before| list[before.clone()] >= *name)
        {
            return Err((6, parts.len()));
        }
        at = part.end;
        parts.push(part);
    }
    Ok(parts)
}

fn direct_judge(first: &[u8], second: &[u8]) -> Answer {
    match (direct_parts(first), direct_parts(second)) {
        (Err((code, record)), _) => answer(code, record, 1),
        (Ok(_), Err((code, record))) => answer(code, record, 2),
        (Ok(_), Ok(_)) => yes(0, 0),
    }
}

/// The merged list of two sound lists.
fn direct_merge(first: &[u8], second: &[u8]) -> Result<Vec<u8>, Answer> {
    let mut names: Vec<&[u8]> = Vec::new();
    for list in [first, second] {
        let parts = direct_parts(list).expect("a sound list");
        names.extend(parts.into_iter().map(|part| &list[part]));
    }
    names.sort();
    names.dedup();
    if names.len() > 2000 {
        return Err(answer(7, 2000, 0));
    }
    let records = names
        .iter()
        .map(|name| [&[name.len() as u8], *name].concat());
    Ok(records.collect::<Vec<_>>().concat())
}

/// The least head of two sound lists, by name and then by list.
fn direct_head(first: &[u8], second: &[u8], passed_first: usize, passed_second: usize) -> Head {
    let heads = [(1, first, passed_first), (2, second, passed_second)];
    let heads = heads.into_iter().filter_map(|(number, list, passed)| {
        let mut parts = direct_parts(list).expect("a sound list").into_iter();
        let part = parts.nth(passed)?;
        Some((&list[part.clone()], head(number, part.start, part.len())))
    });
    let least = heads.min_by_key(|&(name, head)| (name, head.list));
    least.map_or(EMPTY_PART, |(_, head)| head)
}

/// Asserts what a merge gives in a room of this length, and what it leaves there.
fn assert_merge(first: &[u8], second: &[u8], room_length: usize, expected: Result<&[u8], Answer>) {
    let mut room = vec![FILLING; room_length];
    let answer = list_merge(first, second, &mut room);
    let mut left = vec![FILLING; room_length];
    match expected {
        Err(refusal) => assert_eq!(answer, refusal, "{first:?} {second:?}"),
        Ok(merged) => {
            assert_eq!(answer, yes(merged.len(), 0), "{first:?} {second:?}");
            left[..merged.len()].copy_from_slice(merged);
        }
    }
    assert_eq!(room, left, "{first:?} {second:?}");
}

/// Merges with room to spare, with just enough, and with a byte too little.
fn try_merge(first: &[u8], second: &[u8]) {
    let judged = direct_judge(first, second);
    assert_eq!(list_judge(first, second), judged, "{first:?} {second:?}");
    let merged = match judged.code {
        0 => direct_merge(first, second),
        _ => Err(judged),
    };
    let enough = first.len() + second.len();
    let merged = merged.as_deref().map_err(|&refusal| refusal);
    assert_merge(first, second, enough + 3, merged);
    let Ok(bytes) = merged else {
        return assert_merge(first, second, 0, merged);
    };
    assert_merge(first, second, bytes.len(), merged);
    if let Some(short) = bytes.len().checked_sub(1) {
        assert_merge(first, second, short, Err(no(4)));
    }
}

/// Steps with these counts for each list.
fn try_steps(first: &[u8], second: &[u8], counts: &[usize]) {
    let sound = direct_judge(first, second).code == 0;
    for &one in counts {
        for &other in counts {
            let mut expected = EMPTY_PART;
            if sound {
                expected = direct_head(first, second, one, other);
            }
            let found = list_head(first, second, one, other);
            assert_eq!(found, expected, "{first:?} {second:?} {one} {other}");
            let list = [first, second][found.list - 1];
            let part = &list[found.start..][..found.length];
            assert!(std::ptr::eq(list_step(first, second, one, other), part));
        }
    }
}

#[test]
fn every_pair_of_lists_of_six_names_merges_and_steps_as_the_sorted_names_say() {
    // a, aa, ab, b, ba, bb: 64 lists, and every count up to one past the last
    let candidates = common::names(&["a", "aa", "ab", "b", "ba", "bb"]);
    let lists: Vec<Vec<u8>> = (0..64usize)
        .map(|set| {
            let chosen = (0..6).filter(|at| set >> at & 1 == 1);
            write_list(&chosen.map(|at| candidates[at].clone()).collect::<Vec<_>>())
        })
        .collect();
    for first in &lists {
        for second in &lists {
            assert_eq!(direct_judge(first, second).code, 0);
            try_merge(first, second);
            try_steps(first, second, &[0, 1, 2, 3, 4, 5, 6, 7, usize::MAX]);
        }
    }
}

#[test]
fn every_pair_of_strings_of_four_bytes_is_judged_merged_and_stepped_as_its_bytes_say() {
    // lengths that a name has, and two that it has not
    let strings = all_strings(&[0, 1, 2, 255], 4);
    assert_eq!(strings.len(), 1 + 4 + 16 + 64 + 256);
    let mut codes = [0; 8];
    for first in &strings {
        for second in &strings {
            codes[direct_judge(first, second).code] += 1;
            try_merge(first, second);
            try_steps(first, second, &[0, 1, 2, usize::MAX]);
        }
    }
    assert!(
        codes[0] > 100 && codes[5] > 1000 && codes[6] > 1000,
        "{codes:?}"
    );
}

/// A rising list of random names, with a byte changed now and then.
fn random_list(random: &mut Random) -> Vec<u8> {
    let count = random.below(60);
    let names = (0..count).map(|_| random.string(&[0, b'a', b'b', 255], 1, 5));
    let mut names: Vec<Vec<u8>> = names.collect();
    names.sort();
    names.dedup();
    let mut list = write_list(&names);
    if !list.is_empty() && random.below(4) == 0 {
        let at = random.below(list.len());
        list[at] = random.byte();
    }
    list
}

#[test]
fn random_pairs_of_longer_lists_merge_and_step_as_their_bytes_say() {
    for seed in 0..1500 {
        let mut random = Random::from_seed(seed);
        let (first, second) = (random_list(&mut random), random_list(&mut random));
        try_merge(&first, &second);
        try_steps(&first, &second, &[0, 1, 7, 30, 59]);
    }
}
