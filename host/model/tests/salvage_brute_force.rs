//! Document 02, change request 5, tried out: every small block, sound or not, and
//! random books with random damage, each compared with a direct look at the
//! bytes; and the promise that blocks do not touch each other, on random pairs.
//!
//! The comparisons here use nothing of the model but its call and its layout of
//! sound books. A block is what the names that can be read from it are laid out
//! as, or it is dropped; a map is what follows from n, k, m and the length.

mod common;

use common::{all_strings, no, shared, yes, Random, BOOK_BY_2, BOOK_BY_4, FILLING};
use model::{book_of, book_salvage, write_list, BookKind, Kept};
use std::collections::{BTreeMap, BTreeSet};
use std::ops::Range;

type Names = Vec<Vec<u8>>;

/// A report row before a call, so that every change shows.
const UNSET: Kept = Kept {
    kept: 904,
    names: 905,
};

/// The bytes of a block of these names.
fn laid_out(names: &[Vec<u8>]) -> Vec<u8> {
    let mut bytes = Vec::new();
    let mut before = &Vec::new();
    for name in names {
        let count = shared(before, name);
        bytes.extend([count as u8, (name.len() - count) as u8]);
        bytes.extend(&name[count..]);
        before = name;
    }
    bytes
}

/// The number of two bytes at this place.
fn number(data: &[u8], at: usize) -> usize {
    usize::from(data[at]) + 256 * usize::from(data[at + 1])
}

/// Bytes that end with a trailer of these numbers and the mark.
fn with_trailer(front: &[u8], numbers: [usize; 6]) -> Vec<u8> {
    let numbers = numbers.map(|number| (number as u16).to_le_bytes());
    [front, &numbers.concat(), b"NBK2"].concat()
}

/// A direct look at a span: the names that stand in it, if these are as many as
/// they should be and are laid out as the span is.
fn direct_block(span: &[u8], proper: usize) -> Option<Names> {
    let mut names: Names = Vec::new();
    let mut at = 0;
    for _ in 0..proper {
        let &[count, length] = span.get(at..at + 2)? else {
            return None;
        };
        let rest = span.get(at + 2..at + 2 + usize::from(length))?;
        let before = names.last().cloned().unwrap_or_default();
        names.push([before.get(..usize::from(count))?, rest].concat());
        at += 2 + rest.len();
    }
    let sorted: BTreeSet<&Vec<u8>> = names.iter().collect();
    let rise = sorted.into_iter().eq(&names);
    let lengths_fit = names.iter().all(|name| (1..201).contains(&name.len()));
    (rise && lengths_fit && laid_out(&names) == span).then_some(names)
}

/// A direct look at the map, from the end: the span of each block with the number
/// of its names, if the trailer is the only one that it could be.
fn direct_map(data: &[u8]) -> Option<Vec<(Range<usize>, usize)>> {
    let end = data.len().checked_sub(16).filter(|end| end + 16 < 65_536)?;
    let [names, block, nodes] = [0, 2, 8].map(|at| number(data, end + at));
    if names >= 2001 || block == 0 || block >= 65 {
        return None;
    }
    let proper: Vec<usize> = (0..names)
        .step_by(block)
        .map(|first| block.min(names - first))
        .collect();
    let node_table = end.checked_sub(12 * nodes)?;
    let block_table = node_table.checked_sub(2 * proper.len())?;
    let numbers = [names, block, block_table, node_table, nodes, data.len()];
    if data != with_trailer(&data[..end], numbers) {
        return None;
    }
    let mut bounds: Vec<usize> = (0..proper.len())
        .map(|number_of_block| number(data, block_table + 2 * number_of_block))
        .collect();
    bounds.push(block_table);
    let sorted: BTreeSet<&usize> = bounds.iter().collect();
    if bounds[0] != 0 || !sorted.into_iter().eq(&bounds) {
        return None;
    }
    let spans = bounds.windows(2).map(|pair| pair[0]..pair[1]);
    Some(spans.zip(proper).collect())
}

/// A direct look at all of it: what becomes of each block.
fn direct_salvage(data: &[u8]) -> Option<Vec<Option<Names>>> {
    let blocks = direct_map(data)?.into_iter();
    Some(
        blocks
            .map(|(span, proper)| direct_block(&data[span], proper))
            .collect(),
    )
}

/// The report row of a block.
fn direct_row(names: &Option<Names>) -> Kept {
    Kept {
        kept: usize::from(names.is_some()),
        names: names.as_ref().map_or(0, Vec::len),
    }
}

/// Makes a call and gives what it leaves: the answer's numbers, room and report.
fn salvage(data: &[u8], room_length: usize, rows: usize) -> (model::Answer, Vec<u8>, Vec<Kept>) {
    let mut room = vec![FILLING; room_length];
    let mut report = vec![UNSET; rows];
    let answer = book_salvage(data, &mut room, &mut report);
    (answer, room, report)
}

/// Asserts what a call with such a room and report gives and leaves.
fn assert_salvage(data: &[u8], room_length: usize, rows: usize, direct: &[Option<Names>]) {
    let records: Vec<u8> = direct
        .iter()
        .flatten()
        .flat_map(|names| write_list(names))
        .collect();
    let mut room = vec![FILLING; room_length];
    let mut report = vec![UNSET; rows];
    let mut answer = no(12);
    if rows == direct.len() && room_length < records.len() {
        answer = no(4);
    }
    if rows == direct.len() && room_length >= records.len() {
        answer = yes(records.len(), 0);
        room[..records.len()].copy_from_slice(&records);
        report = direct.iter().map(direct_row).collect();
    }
    let expected = (answer, room, report);
    assert_eq!(salvage(data, room_length, rows), expected, "{data:?}");
}

/// Compares the call with the direct look, with rooms and reports that are long
/// enough, just so, and not; tells whether there is a map and how many blocks
/// are kept and dropped.
fn try_salvage(data: &[u8]) -> (bool, [usize; 2]) {
    let Some(direct) = direct_salvage(data) else {
        for (room_length, rows) in [(0, 0), (300, 1), (300, 3)] {
            let left = (no(13), vec![FILLING; room_length], vec![UNSET; rows]);
            assert_eq!(salvage(data, room_length, rows), left, "{data:?}");
        }
        return (false, [0, 0]);
    };
    let blocks = direct.len();
    let kept = direct.iter().flatten();
    let bytes: usize = kept.clone().map(|names| write_list(names).len()).sum();
    for (room_length, rows) in [
        (bytes, blocks),
        (bytes + 7, blocks),
        (bytes.saturating_sub(1), blocks),
        (bytes, blocks + 1),
        (0, blocks.saturating_sub(1)),
    ] {
        assert_salvage(data, room_length, rows, &direct);
    }
    let kept = kept.count();
    (true, [kept, blocks - kept])
}

// Every small block

/// Every rising list of so many of these names that is laid out in at most so
/// many bytes, by its bytes.
fn all_blocks(names: &[Vec<u8>], count: usize, longest: usize) -> BTreeMap<Vec<u8>, Names> {
    let mut lists: Vec<Names> = vec![vec![]];
    for _ in 0..count {
        let longer = lists.iter().flat_map(|list| {
            let above = names.iter().filter(|&name| list.last() < Some(name));
            above.map(|name| [&list[..], std::slice::from_ref(name)].concat())
        });
        lists = longer.collect();
    }
    let blocks = lists.into_iter().map(|list| (laid_out(&list), list));
    blocks.filter(|(bytes, _)| bytes.len() <= longest).collect()
}

/// Every string of at most nine of the bytes 0 to 3 as the only block.
fn try_every_block(proper: usize, longest_name: usize) {
    let bytes = [0, 1, 2, 3];
    let names = &all_strings(&bytes, longest_name)[1..];
    let blocks = all_blocks(names, proper, 9);
    let mut kept = 0;
    for span in &all_strings(&bytes, 9)[1..] {
        let front = [&span[..], &[0, 0]].concat();
        let numbers = [proper, 5, span.len(), span.len() + 2, 0, span.len() + 18];
        let data = with_trailer(&front, numbers);
        let names = blocks.get(span).cloned();
        kept += usize::from(names.is_some());
        assert_salvage(&data, 30, 1, &[names]);
    }
    // A block with a rest of more than 3 bytes is no string of these bytes.
    let strings = blocks
        .keys()
        .filter(|span| span.iter().all(|&byte| byte < 4));
    assert_eq!(kept, strings.count());
    assert!(kept > 50, "{kept}");
}

#[test]
fn every_small_block_of_one_name_is_kept_just_where_it_is_laid_out() {
    try_every_block(1, 5);
}

#[test]
fn every_small_block_of_two_names_is_kept_just_where_it_is_laid_out() {
    try_every_block(2, 5);
}

#[test]
fn every_small_block_of_three_names_is_kept_just_where_it_is_laid_out() {
    try_every_block(3, 3);
}

// Every changed byte

#[test]
fn every_changed_byte_of_the_worked_example_gives_what_a_direct_look_gives() {
    let mut maps = [0; 2];
    for book in [&BOOK_BY_2[..], &BOOK_BY_4] {
        for at in 0..book.len() {
            for change in 1..=255 {
                let mut data = book.to_vec();
                data[at] ^= change;
                let (is_mapped, _) = try_salvage(&data);
                maps[usize::from(is_mapped)] += 1;
            }
        }
    }
    assert!(maps[0] > 5000 && maps[1] > 10_000, "{maps:?}");
}

// Random books

/// Random rising names.
fn random_names(random: &mut Random) -> Names {
    let count = random.below(24);
    let letters: &[u8] = [&b"ab"[..], b"\0a\xFF"][random.below(2)];
    let names: BTreeSet<Vec<u8>> = (0..count).map(|_| random.string(letters, 1, 6)).collect();
    names.into_iter().collect()
}

/// Changes some bytes of this part, one or a run of them, to any or to small
/// ones.
fn damage(random: &mut Random, data: &mut [u8], part: Range<usize>) {
    if part.is_empty() {
        return;
    }
    let start = part.start + random.below(part.len());
    let end = match random.below(3) {
        0 => part.end.min(start + 1 + random.below(9)),
        _ => start + 1,
    };
    for byte in &mut data[start..end] {
        *byte = match random.below(3) {
            0 => random.byte(),
            1 => random.below(4) as u8,
            _ => byte.wrapping_add([1, 255][random.below(2)]),
        };
    }
}

/// A random book with damage in its entries, tables or trailer, or in none.
fn random_data(random: &mut Random) -> Vec<u8> {
    let names = random_names(random);
    let mut data = book_of(BookKind::Plain, 1 + random.below(6), &names);
    let end = data.len() - 16;
    let (block_table, node_table) = (number(&data, end + 4), number(&data, end + 6));
    let whole = data.len();
    for _ in 0..random.below(4) {
        let part = match random.below(10) {
            0..=5 => 0..block_table,
            6 => block_table..node_table,
            7 => node_table..end,
            8 => end..whole,
            _ => 0..whole,
        };
        damage(random, &mut data, part);
    }
    data
}

#[test]
fn random_damage_gives_what_a_direct_look_gives() {
    let (mut maps, mut blocks) = ([0; 2], [0; 2]);
    for seed in 0..20_000 {
        let data = random_data(&mut Random::from_seed(seed));
        let (is_mapped, [kept, dropped]) = try_salvage(&data);
        maps[usize::from(is_mapped)] += 1;
        blocks[0] += kept;
        blocks[1] += dropped;
    }
    assert!(maps.iter().all(|&times| times > 2000), "{maps:?}");
    assert!(blocks.iter().all(|&times| times > 7000), "{blocks:?}");
}

// The promise

/// What a call gives of each block: its row and its records.
fn by_block(data: &[u8], rows: usize) -> Vec<(Kept, Vec<u8>)> {
    let (answer, room, report) = salvage(data, data.len() * 200, rows);
    assert_eq!(answer.code, 0, "{data:?}");
    let mut unread = &room[..answer.first];
    let blocks = report.into_iter().map(|row| {
        let mut records = Vec::new();
        for _ in 0..row.names {
            let (record, rest) = unread.split_at(1 + usize::from(unread[0]));
            records.extend(record);
            unread = rest;
        }
        (row, records)
    });
    let blocks = blocks.collect();
    assert!(unread.is_empty());
    blocks
}

#[test]
fn inputs_that_differ_inside_one_block_s_span_agree_on_all_other_blocks() {
    let mut others = [0; 2];
    for seed in 0..20_000 {
        let mut random = Random::from_seed(seed);
        let one = random_data(&mut random);
        let Some(blocks) = direct_map(&one).filter(|blocks| !blocks.is_empty()) else {
            continue;
        };
        let chosen = random.below(blocks.len());
        let mut other = one.clone();
        for _ in 0..=random.below(3) {
            damage(&mut random, &mut other, blocks[chosen].0.clone());
        }
        let mut found = by_block(&one, blocks.len());
        let mut found_other = by_block(&other, blocks.len());
        found.remove(chosen);
        found_other.remove(chosen);
        assert_eq!(found, found_other, "{one:?} {other:?}");
        for (row, _) in found {
            others[row.kept] += 1;
        }
    }
    assert!(others.iter().all(|&times| times > 4000), "{others:?}");
}
