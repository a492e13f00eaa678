//! What is left of document 01's book, damaged in many places, through the typed
//! call.

use mistrogu::{
    blocks_of, build, check, salvage, Block, List, Refusal, Report, MOST_NAMES, MOST_SALVAGED,
};

const LIST: &[u8] = b"\x03Mar\x06Marina\x0DMarket Square";

/// The book of a list, in blocks of so many.
fn card_of(list: &[u8], block: usize) -> Vec<u8> {
    let mut room = vec![0; mistrogu::LONGEST_BOOK];
    let length = build(list, block, &mut room).unwrap();
    room.truncate(length);
    room
}

/// Document 01's book, of 93 bytes, with other bytes from some offset on.
fn worn(at: usize, bytes: &[u8]) -> Vec<u8> {
    let mut card = card_of(LIST, 2);
    card[at..at + bytes.len()].copy_from_slice(bytes);
    card
}

/// Names, as texts.
fn texts<'a>(names: impl Iterator<Item = &'a [u8]>) -> Vec<&'a str> {
    let text = |name| std::str::from_utf8(name).unwrap();
    names.map(text).collect()
}

/// Asserts which names are left of each block of a card, in a room with something in
/// it, and a report of another card; nothing stands for a block that is dropped.
fn assert_left(card: &[u8], expected: &[Option<&[&str]>]) {
    let mut room = [0xAA; 100];
    let mut report = Report::<5>::new();
    salvage(
        &card_of(b"\x01a\x01b\x01c\x01d", 1),
        &mut [0; 8],
        &mut report,
    )
    .unwrap();
    assert_eq!(blocks_of(card), Some(expected.len()));
    let salvaged = salvage(card, &mut room, &mut report).unwrap();
    let blocks: Vec<Option<Vec<&str>>> = salvaged
        .blocks()
        .map(|block| match block {
            Block::Kept(names) => Some(texts(names)),
            Block::Dropped => None,
        })
        .collect();
    let whole = blocks.iter().all(Option::is_some);
    assert_eq!(salvaged.is_whole(), whole);
    let names: Vec<&str> = blocks.iter().flatten().flatten().copied().collect();
    assert_eq!(texts(salvaged.names()), names);
    let expected: Vec<Option<Vec<&str>>> = expected
        .iter()
        .map(|names| names.map(<[&str]>::to_vec))
        .collect();
    assert_eq!(blocks, expected, "{card:?}");

    let length: usize = names.iter().map(|name| 1 + name.len()).sum();
    assert_eq!(salvaged.records().len(), length);
    assert!(room[length..].iter().all(|&byte| byte == 0xAA));
}

#[test]
fn of_a_sound_book_all_is_left() {
    let both: [Option<&[&str]>; 2] = [Some(&["Mar", "Marina"]), Some(&["Market Square"])];
    assert_left(&worn(0, &[]), &both);
    let all: &[&str] = &["Mar", "Marina", "Market Square"];
    assert_left(&card_of(LIST, 64), &[Some(all)]);
    let [mar, marina, market] = [["Mar"], ["Marina"], ["Market Square"]];
    let each: [Option<&[&str]>; 3] = [Some(&mar), Some(&marina), Some(&market)];
    assert_left(&card_of(LIST, 1), &each);
}

#[test]
fn a_damaged_block_is_dropped_and_the_other_stays() {
    let cases: [(usize, &[u8], &str); 10] = [
        (0, b"\x01", "a count at the block's start"),
        (1, b"\x00", "a name without bytes"),
        (1, b"\x04", "an entry too long"),
        (5, b"\x02", "names that fall: Mar, Maina"),
        (5, b"\x02\x03rin", "a count below the greatest"),
        (5, b"\x04", "a count above the name before"),
        (6, b"\x00", "a name twice"),
        (6, b"\x02", "a byte left over"),
        (6, b"\x04", "an entry past the span"),
        (6, b"\xC9", "a rest of 201 bytes"),
    ];
    for (at, bytes, how) in cases {
        eprintln!("{how}");
        assert_left(&worn(at, bytes), &[None, Some(&["Market Square"])]);
    }
    for (at, bytes) in [(10, b"\x03"), (11, b"\x0C"), (11, b"\x0E"), (11, b"\x00")] {
        assert_left(&worn(at, bytes), &[Some(&["Mar", "Marina"]), None]);
    }
}

#[test]
fn of_two_damaged_blocks_nothing_is_left() {
    let mut card = worn(0, b"\x01");
    card[10] = 1;
    assert_left(&card, &[None, None]);
}

#[test]
fn a_block_with_the_wrong_number_of_names_is_dropped() {
    // Two entries, M and Maa, where the last block of three names has one.
    let card = worn(10, b"\x00\x01M\x01\x0Aaaaaaaaaaa");
    assert_left(&card, &[Some(&["Mar", "Marina"]), None]);
    // One entry, of eight bytes, where the first block has two.
    let card = worn(0, b"\x00\x08Marinara");
    assert_left(&card, &[None, Some(&["Market Square"])]);
}

#[test]
fn a_block_that_is_sound_with_other_names_is_kept_with_those() {
    let marinb: [Option<&[&str]>; 2] = [Some(&["Mar", "Marinb"]), Some(&["Market Square"])];
    assert_left(&worn(9, b"b"), &marinb);
    // They need not rise from block to block.
    let larket: [Option<&[&str]>; 2] = [Some(&["Mar", "Marina"]), Some(&["Larket Square"])];
    assert_left(&worn(12, b"L"), &larket);
    let narina: [Option<&[&str]>; 2] = [Some(&["Nar", "Narina"]), Some(&["Market Square"])];
    assert_left(&worn(2, b"N"), &narina);
}

#[test]
fn nodes_are_never_looked_at() {
    let both: [Option<&[&str]>; 2] = [Some(&["Mar", "Marina"]), Some(&["Market Square"])];
    let card = worn(29, &[0xFF; 48]);
    assert_eq!(check(&card), Err(Refusal::NoBook));
    assert_left(&card, &both);
}

#[test]
fn a_book_is_built_again_from_what_is_left() {
    let card = worn(5, b"\x04");
    let (mut room, mut report) = ([0; 100], Report::<2>::new());
    let salvaged = salvage(&card, &mut room, &mut report).unwrap();
    let again = card_of(salvaged.records(), 2);
    assert_eq!(again, card_of(b"\x0DMarket Square", 2));
}

#[test]
fn the_report_says_what_became_of_each_block() {
    let (mut room, mut report) = ([0; 100], Report::<2>::new());
    for (at, expected) in [(0, [None, Some(1)]), (10, [Some(2), None])] {
        let card = worn(at, b"\x01");
        let salvaged = salvage(&card, &mut room, &mut report).unwrap();
        let names = salvaged.blocks().map(|block| match block {
            Block::Kept(names) => Some(names.len()),
            Block::Dropped => None,
        });
        assert_eq!(names.collect::<Vec<_>>(), expected);
    }
}

#[test]
fn a_card_without_names_has_no_blocks() {
    let card = card_of(&[], 2);
    assert_eq!(blocks_of(&card), Some(0));
    let mut report = Report::<0>::new();
    let salvaged = salvage(&card, &mut [], &mut report).unwrap();
    assert_eq!(salvaged.records(), b"");
    assert_eq!((salvaged.blocks().len(), salvaged.names().len()), (0, 0));
    assert!(salvaged.is_whole());
}

/// Asserts that a salvage with so many places and this room is refused so, and leaves
/// the room as it was.
fn assert_refused<const PLACES: usize>(card: &[u8], room: usize, refusal: Refusal) {
    let mut room = vec![0xAA; room];
    let mut report = Report::<PLACES>::default();
    let refused = salvage(card, &mut room, &mut report).map(|_| ());
    assert_eq!(refused, Err(refusal), "{card:?}");
    assert!(room.iter().all(|&byte| byte == 0xAA));
}

#[test]
fn a_map_without_sense_is_refused_with_13() {
    let cases: [(usize, &[u8], &str); 15] = [
        (25, b"\x01\x00", "the first block does not start at 0"),
        (27, b"\x00\x00", "the starts do not rise"),
        (27, b"\x19\x00", "a start at the end of the entries"),
        (27, b"\xFF\xFF", "a start far away"),
        (77, b"\x02\x00", "too few names for the blocks"),
        (77, b"\x05\x00", "too many names for the blocks"),
        (77, b"\xD1\x07", "2,001 names"),
        (79, b"\x00\x00", "blocks of 0"),
        (79, b"\x41\x00", "blocks of 65"),
        (81, b"\x18\x00", "a gap before the block table"),
        (83, b"\x1E\x00", "a gap before the nodes"),
        (85, b"\x03\x00", "a gap before the trailer"),
        (87, b"\x5E\x00", "another length"),
        (89, b"M", "no mark"),
        (92, b"1", "the old mark"),
    ];
    for (at, bytes, how) in cases {
        eprintln!("{how}");
        let card = worn(at, bytes);
        for room in [0, 100] {
            assert_refused::<0>(&card, room, Refusal::NoMap);
            assert_refused::<2>(&card, room, Refusal::NoMap);
            assert_refused::<3>(&card, room, Refusal::NoMap);
        }
    }
    let card = worn(0, &[]);
    for part in [&card[1..], &card[..92], &card[78..], &[]] {
        assert_refused::<2>(part, 100, Refusal::NoMap);
    }
    let mut entries_without_names = card_of(&[], 2);
    entries_without_names.insert(0, 0);
    assert_refused::<0>(&entries_without_names, 100, Refusal::NoMap);
}

#[test]
fn fewer_places_than_blocks_are_refused_with_12() {
    let card = worn(0, &[]);
    for room in [0, 100] {
        assert_refused::<0>(&card, room, Refusal::BadBatch);
        assert_refused::<1>(&card, room, Refusal::BadBatch);
    }
    assert!(salvage(&card, &mut [0; 25], &mut Report::<3>::new()).is_ok());
    assert!(salvage(&card, &mut [0; 25], &mut <Report>::new()).is_ok());
}

#[test]
fn a_room_too_short_is_refused_with_4() {
    let card = worn(0, &[]);
    for room in [0, 1, 24] {
        assert_refused::<2>(&card, room, Refusal::RoomTooShort);
    }
    assert!(salvage(&card, &mut [0; 25], &mut Report::<2>::new()).is_ok());
    // What is dropped takes no room.
    let card = worn(10, b"\x01");
    assert_refused::<2>(&card, 10, Refusal::RoomTooShort);
    assert!(salvage(&card, &mut [0; 11], &mut Report::<2>::new()).is_ok());
}

/// The end of a card with these numbers.
fn trailer(names: u16, block: u16) -> Vec<u8> {
    let [names, block] = [names, block].map(u16::to_le_bytes);
    let numbers = [names, block].concat();
    [&b"before"[..], &numbers, &[0; 12]].concat()
}

#[test]
fn blocks_are_counted_where_the_trailer_makes_sense() {
    assert_eq!(blocks_of(&[]), None);
    assert_eq!(blocks_of(&[1; 15]), None);
    for (names, block, blocks) in [
        (0, 1, Some(0)),
        (1, 64, Some(1)),
        (64, 64, Some(1)),
        (65, 64, Some(2)),
        (2000, 1, Some(MOST_NAMES)),
        (2001, 1, None),
        (2000, 0, None),
        (2000, 65, None),
        (3, 256, None),
    ] {
        assert_eq!(blocks_of(&trailer(names, block)), blocks);
    }
}

/// A row of the table in `examples/blocks.c`: names, names in a block, blocks.
fn row_of_c(line: &str) -> Option<[u16; 3]> {
    let numbers = line.trim().strip_prefix('{')?.strip_suffix("},")?;
    let numbers = numbers.split(", ").map(|number| number.parse().ok());
    let numbers: Option<Vec<u16>> = numbers.collect();
    numbers?.try_into().ok()
}

#[test]
fn blocks_are_counted_as_c_counts_them() {
    let rows = include_str!("../../../examples/blocks.c")
        .lines()
        .filter_map(row_of_c);
    let mut count = 0;
    for [names, block, blocks] in rows {
        // C says 0 where there is nothing to count, too.
        let counted = blocks_of(&trailer(names, block)).unwrap_or(0);
        assert_eq!(counted, usize::from(blocks), "{names} {block}");
        count += 1;
    }
    assert_eq!(count, 31, "the rows are not found");
}

/// The list of 64 names of 200 bytes that differ in the last.
fn longest() -> Vec<u8> {
    let mut room = [0; 64 * 201];
    let mut list = List::new(&mut room);
    for last in 0..64 {
        let mut name = [b'a'; 200];
        name[199] = last;
        list.push(&name).unwrap();
    }
    list.records().to_vec()
}

/// A card with 2,000 names of 200 bytes: the same block as often as it takes. It
/// is no book, since names do not rise from block to block.
fn fullest_card() -> Vec<u8> {
    let block: Vec<u8> = card_of(&longest(), 64)[..202 + 63 * 3].to_vec();
    let last = 202 + 15 * 3;
    let mut card = block.repeat(31);
    card.extend_from_slice(&block[..last]);
    let blocks_at = card.len();
    for number in 0..32 {
        card.extend_from_slice(&((number * block.len()) as u16).to_le_bytes());
    }
    let nodes_at = card.len();
    for number in [2000, 64, blocks_at, nodes_at, 0, nodes_at + 16] {
        card.extend_from_slice(&(number as u16).to_le_bytes());
    }
    card.extend_from_slice(b"NBK2");
    card
}

#[test]
fn a_room_of_402_000_bytes_is_always_long_enough_and_may_be_needed() {
    let card = fullest_card();
    let mut room = vec![0; MOST_SALVAGED];
    let mut report = Report::<32>::new();
    let salvaged = salvage(&card, &mut room, &mut report).unwrap();
    assert_eq!(salvaged.records().len(), 402_000);
    assert_eq!(salvaged.names().len(), MOST_NAMES);
    assert!(salvaged.names().all(|name| name.len() == 200));
    assert!(salvaged.is_whole());
    assert_refused::<32>(&card, MOST_SALVAGED - 1, Refusal::RoomTooShort);
}

#[test]
fn damage_inside_of_one_block_changes_no_other() {
    let stops: Vec<u8> = (0..40)
        .flat_map(|number| format!("\x07Stop {number:02}").into_bytes())
        .collect();
    let card = card_of(&stops, 5);
    let whole = |card: &[u8]| {
        let (mut room, mut report) = ([0; 500], Report::<8>::new());
        let salvaged = salvage(card, &mut room, &mut report).unwrap();
        let blocks = salvaged.blocks().map(|block| match block {
            Block::Kept(names) => Some(names.map(<[u8]>::to_vec).collect::<Vec<_>>()),
            Block::Dropped => None,
        });
        blocks.collect::<Vec<_>>()
    };
    let sound = whole(&card);
    let entries = card.len() - 16 - 8 * 2 - 12 * nodes_in(&card);
    for at in 0..entries {
        for byte in [0, 1, 2, 7, 255] {
            let mut worn = card.clone();
            worn[at] = byte;
            let left = whole(&worn);
            let differ = |number: &usize| left[*number] != sound[*number];
            let changed: Vec<usize> = (0..8).filter(differ).collect();
            assert!(changed.len() <= 1, "byte {at}: {changed:?}");
            assert!(changed.iter().all(|&number| number == at / (entries / 8)));
        }
    }
}

/// How many nodes the trailer tells of.
fn nodes_in(card: &[u8]) -> usize {
    let at = card.len() - 8;
    usize::from(u16::from_le_bytes([card[at], card[at + 1]]))
}
