//! Document 02, change request 5: the names of a worn card's sound blocks, the
//! report on them, and the refusals. A brute force stands in
//! `salvage_brute_force.rs`.

mod common;

use common::{
    built, many_names, names, no, yes, BOOK_BY_2, BOOK_BY_4, EMPTY_BOOK, FILLING, MAR_LIST,
};
use model::{book_of, book_salvage, write_list, Answer, BookKind, Kept};

/// A report row before a call, so that every change shows.
const UNSET: Kept = Kept {
    kept: 904,
    names: 905,
};

/// The row of a dropped block.
const DROPPED: Kept = Kept { kept: 0, names: 0 };

/// The row of a kept block with so many names.
fn kept(names: usize) -> Kept {
    Kept { kept: 1, names }
}

/// The records of the two blocks of the 93 bytes.
const MAR_MARINA: &[u8] = b"\x03Mar\x06Marina";
const MARKET_SQUARE: &[u8] = b"\x0DMarket Square";

/// Where those blocks stand.
const FIRST_BLOCK: std::ops::Range<usize> = 0..10;
const SECOND_BLOCK: std::ops::Range<usize> = 10..25;

/// Salvages with so many report rows and a room that is large enough, asserts
/// that the room past the records is untouched, and gives records and report.
fn salvaged(data: &[u8], rows: usize) -> (Vec<u8>, Vec<Kept>) {
    let mut room = vec![FILLING; 70_000];
    let mut report = vec![UNSET; rows];
    let answer = book_salvage(data, &mut room, &mut report);
    assert_eq!(answer, yes(answer.first, 0), "{data:?}");
    assert!(room[answer.first..].iter().all(|&byte| byte == FILLING));
    room.truncate(answer.first);
    (room, report)
}

/// Asserts that these records and this report come out.
fn assert_salvaged(data: &[u8], records: &[u8], report: &[Kept]) {
    let expected = (records.to_vec(), report.to_vec());
    assert_eq!(salvaged(data, report.len()), expected, "{data:?}");
}

/// Asserts that a call with a room and a report of these lengths is refused like
/// this, and leaves both as they were.
fn assert_refused(data: &[u8], room_length: usize, rows: usize, expected: Answer) {
    let mut room = vec![FILLING; room_length];
    let mut report = vec![UNSET; rows];
    assert_eq!(book_salvage(data, &mut room, &mut report), expected);
    assert_eq!(room, vec![FILLING; room_length]);
    assert_eq!(report, vec![UNSET; rows]);
}

/// Asserts that the map makes no sense, whatever the room and the report.
fn assert_no_map(data: &[u8]) {
    for (room_length, rows) in [(0, 0), (0, 2), (300, 0), (300, 1), (300, 2), (300, 3)] {
        assert_refused(data, room_length, rows, no(13));
    }
}

/// These bytes with others from an offset on.
fn changed(data: &[u8], at: usize, bytes: &[u8]) -> Vec<u8> {
    let mut data = data.to_vec();
    data[at..at + bytes.len()].copy_from_slice(bytes);
    data
}

/// The 93 bytes with others from an offset on.
fn worn(at: usize, bytes: &[u8]) -> Vec<u8> {
    changed(&BOOK_BY_2, at, bytes)
}

/// The 93 bytes with another first block of ten bytes: its own names are these,
/// or it is dropped.
fn assert_first_block(block: &[u8; 10], texts: Option<&[&str]>) {
    let records = texts.map_or(vec![], |texts| write_list(&names(texts)));
    let row = texts.map_or(DROPPED, |texts| kept(texts.len()));
    let all = [&records, MARKET_SQUARE].concat();
    assert_salvaged(&worn(0, block), &all, &[row, kept(1)]);
}

/// The 93 bytes with another second block of fifteen: it is dropped.
fn assert_second_dropped(block: &[u8; 15]) {
    assert_salvaged(&worn(10, block), MAR_MARINA, &[kept(2), DROPPED]);
}

/// A number in two bytes, low byte first.
fn number(number: usize) -> [u8; 2] {
    (number as u16).to_le_bytes()
}

/// Bytes with a right map: blocks of these bytes, so many names, k, and these
/// bytes of node records.
fn mapped(blocks: &[&[u8]], names: usize, block: usize, nodes: &[u8]) -> Vec<u8> {
    let mut starts = vec![0];
    for block in blocks {
        starts.push(starts[starts.len() - 1] + block.len());
    }
    let entries = starts.pop().unwrap();
    with_starts(&blocks.concat(), entries, &starts, names, block, nodes)
}

/// Bytes with these entries, and with a block table, of these starts, that
/// begins right behind so many of them.
fn with_starts(
    entries: &[u8],
    block_table: usize,
    starts: &[usize],
    names: usize,
    block: usize,
    nodes: &[u8],
) -> Vec<u8> {
    let node_table = block_table + 2 * starts.len();
    let length = entries.len() + 2 * starts.len() + nodes.len() + 16;
    let starts: Vec<u8> = starts.iter().flat_map(|&start| number(start)).collect();
    let trailer = [
        names,
        block,
        block_table,
        node_table,
        nodes.len() / 12,
        length,
    ];
    let trailer = trailer.map(number).concat();
    [entries, &starts, nodes, &trailer, b"NBK2"].concat()
}

// Sound blocks

#[test]
fn a_sound_book_gives_all_its_names_and_keeps_every_block() {
    assert_salvaged(&BOOK_BY_2, MAR_LIST, &[kept(2), kept(1)]);
    assert_salvaged(&BOOK_BY_4, MAR_LIST, &[kept(3)]);
    let by_one = built(&names(&["Mar", "Marina", "Market Square"]), 1);
    assert_salvaged(&by_one, MAR_LIST, &[kept(1); 3]);
}

#[test]
fn the_answer_counts_the_bytes_of_the_records_and_not_the_report() {
    let (mut room, mut report) = ([FILLING; 25], [UNSET; 2]);
    let answer = book_salvage(&BOOK_BY_2, &mut room, &mut report);
    assert_eq!(answer, yes(25, 0));
    assert_eq!(room, MAR_LIST);
}

#[test]
fn the_helper_of_these_tests_lays_out_the_93_bytes() {
    let blocks = [&BOOK_BY_2[FIRST_BLOCK], &BOOK_BY_2[SECOND_BLOCK]];
    assert_eq!(mapped(&blocks, 3, 2, &BOOK_BY_2[29..77]), BOOK_BY_2);
}

#[test]
fn names_of_1_and_200_bytes_are_kept_and_those_of_201_dropped() {
    // Alone: 200 letters, and 201 to 255.
    for length in [1, 200, 201, 255] {
        let name = vec![b'n'; length];
        let block = [&[0, length as u8], &name[..]].concat();
        let data = mapped(&[&block], 1, 1, &[]);
        match length {
            1 | 200 => assert_salvaged(&data, &write_list(&[name]), &[kept(1)]),
            _ => assert_salvaged(&data, b"", &[DROPPED]),
        }
    }
    // 150 letters n, then 100 of them and 100 or 101 letters o.
    let first = [&[0, 150], &[b'n'; 150][..]].concat();
    for rest in [100, 101] {
        let second = [&[100, rest as u8], &vec![b'o'; rest][..]].concat();
        let data = mapped(&[&[&first[..], &second].concat()], 2, 2, &[]);
        let name = [vec![b'n'; 100], vec![b'o'; rest]].concat();
        let records = write_list(&[vec![b'n'; 150], name]);
        match rest {
            100 => assert_salvaged(&data, &records, &[kept(2)]),
            _ => assert_salvaged(&data, b"", &[DROPPED]),
        }
    }
}

#[test]
fn a_block_that_is_sound_with_other_names_is_kept_with_those() {
    assert_first_block(b"\0\x03Mar\x03\x03inb", Some(&["Mar", "Marinb"]));
    assert_first_block(b"\0\x03Nar\x03\x03ina", Some(&["Nar", "Narina"]));
    assert_first_block(b"\0\x02ab\x01\x04cdef", Some(&["ab", "acdef"]));
    assert_first_block(b"\0\x03Mar\0\x03Nar", Some(&["Mar", "Nar"]));
    assert_first_block(b"\0\x02Ma\x02\x04rina", Some(&["Ma", "Marina"]));
    // A smaller count in the 88 bytes: Mar, Mina, Minket Square.
    let records = b"\x03Mar\x04Mina\x0DMinket Square";
    assert_salvaged(&changed(&BOOK_BY_4, 5, &[1]), records, &[kept(3)]);
}

#[test]
fn blocks_that_do_not_rise_against_each_other_are_all_kept() {
    // Zar, Zarina before Market Square; Larket Square behind Marina; and the
    // same name, and the same block, three times.
    assert_first_block(b"\0\x03Zar\x03\x03ina", Some(&["Zar", "Zarina"]));
    let larket = [MAR_MARINA, b"\x0DLarket Square"].concat();
    assert_salvaged(&worn(12, b"L"), &larket, &[kept(2), kept(1)]);
    let same = mapped(&[&b"\0\x03Mar"[..]; 3], 3, 1, &[]);
    assert_salvaged(&same, b"\x03Mar\x03Mar\x03Mar", &[kept(1); 3]);
    let block = &BOOK_BY_2[FIRST_BLOCK];
    let twice = mapped(&[block; 2], 4, 2, &[]);
    assert_salvaged(&twice, &[MAR_MARINA; 2].concat(), &[kept(2); 2]);
}

// Damaged blocks

#[test]
fn a_changed_byte_drops_its_own_block_alone() {
    // lengths of rests and counts of the first block, then of the second
    for (at, byte) in [(0, 1), (1, 2), (1, 4), (5, 2), (5, 4), (6, 2), (6, 4)] {
        let data = worn(at, &[byte]);
        assert_salvaged(&data, MARKET_SQUARE, &[DROPPED, kept(1)]);
    }
    for (at, byte) in [(10, 1), (11, 0), (11, 12), (11, 14), (11, 255)] {
        let data = worn(at, &[byte]);
        assert_salvaged(&data, MAR_MARINA, &[kept(2), DROPPED]);
    }
    for (at, byte) in [(0, 3), (5, 2), (10, 2), (10, 4), (11, 9), (11, 11)] {
        assert_salvaged(&changed(&BOOK_BY_4, at, &[byte]), b"", &[DROPPED]);
    }
}

#[test]
fn a_run_of_bytes_drops_the_blocks_that_it_breaks() {
    let dropped = [DROPPED, kept(1)];
    assert_salvaged(&worn(3, &[0xFF; 5]), MARKET_SQUARE, &dropped);
    assert_salvaged(&worn(0, &[0xFF; 10]), MARKET_SQUARE, &dropped);
    assert_salvaged(&worn(0, &[0; 10]), MARKET_SQUARE, &dropped);
    assert_salvaged(
        &worn(8, &[0xFF; 4]),
        b"\x03Mar\x06Mari\xFF\xFF",
        &[kept(2), DROPPED],
    );
    assert_salvaged(&worn(5, &[0; 10]), b"", &[DROPPED; 2]);
    assert_second_dropped(&[0; 15]);
    assert_second_dropped(&[0xFF; 15]);
    // Letters alone make other names.
    let other = b"\x03\xFF\xFF\xFF\x06\xFF\xFF\xFFina";
    let all = [&other[..], MARKET_SQUARE].concat();
    assert_salvaged(&worn(2, &[0xFF; 3]), &all, &[kept(2), kept(1)]);
}

#[test]
fn a_block_s_first_count_must_be_0() {
    for count in 1..=255 {
        assert_salvaged(&worn(0, &[count]), MARKET_SQUARE, &[DROPPED, kept(1)]);
        assert_salvaged(&worn(10, &[count]), MAR_MARINA, &[kept(2), DROPPED]);
    }
    // What the name before shares is no excuse: 03 0A ket Square behind Marina.
    let blocks = [&BOOK_BY_4[..10], &BOOK_BY_4[10..22]];
    let data = mapped(&blocks, 3, 2, &BOOK_BY_4[24..72]);
    assert_salvaged(&data, MAR_MARINA, &[kept(2), DROPPED]);
}

#[test]
fn a_count_smaller_than_possible_drops_its_block() {
    assert_first_block(b"\0\x03Mar\x02\x03rin", None);
    assert_first_block(b"\0\x02Ma\x00\x04Mari", None);
    assert_first_block(b"\0\x02Ma\x01\x04arin", None);
    let long = mapped(
        &[b"\0\x03Mar\x02\x04rina", &BOOK_BY_2[SECOND_BLOCK]],
        3,
        2,
        &[],
    );
    assert_salvaged(&long, MARKET_SQUARE, &[DROPPED, kept(1)]);
}

#[test]
fn a_count_above_the_name_before_drops_its_block() {
    for count in 4..=255 {
        assert_salvaged(&worn(5, &[count]), MARKET_SQUARE, &[DROPPED, kept(1)]);
    }
}

#[test]
fn names_that_do_not_strictly_rise_drop_their_block() {
    // equal, and with bytes behind; a beginning; falling; no rest at the end
    assert_first_block(b"\0\x03Mar\x03\0ina", None);
    assert_first_block(b"\0\x06Marina\x06\0", None);
    assert_first_block(b"\0\x06Marina\x03\0", None);
    assert_first_block(b"\0\x03Mar\0\x03Lar", None);
    assert_first_block(b"\0\x03Mar\x02\x03ina", None);
    // equal to the byte, with count 0 and with the greatest count less one
    assert_first_block(b"\0\x03Mar\0\x03Mar", None);
    assert_first_block(b"\0\x04Mari\x02\x02ri", None);
}

#[test]
fn a_name_without_bytes_drops_its_block() {
    assert_first_block(b"\0\0\0\x06Marina", None);
    assert_salvaged(&mapped(&[b"\0\0"], 1, 1, &[]), b"", &[DROPPED]);
    assert_salvaged(&mapped(&[b"\0\0\0\x01a"], 2, 2, &[]), b"", &[DROPPED]);
}

#[test]
fn entries_must_fill_their_span_exactly() {
    // one, two and three bytes left over
    assert_first_block(b"\0\x03Mar\x03\x02in\0", None);
    assert_first_block(b"\0\x03Mar\x03\x01i\0\0", None);
    assert_first_block(b"\0\x02Ma\x02\x01r\0\x01S", None);
    // the last entry runs past by one byte, by its rest, and by its length byte
    assert_first_block(b"\0\x03Mar\x03\x04ina", None);
    assert_first_block(b"\0\x06Marina\x06\x01", None);
    assert_first_block(b"\0\x07Marinas\x07", None);
    // an entry that runs on into the next block, where it would read well
    let data = mapped(&[b"\0\x03Mar\x03\x03i", b"na"], 3, 2, &[]);
    assert_salvaged(&data, b"", &[DROPPED; 2]);
}

#[test]
fn a_block_has_the_proper_number_of_names() {
    // three names, and one, where there ought to be two
    assert_first_block(b"\0\x01M\x01\x01a\x02\x02ri", None);
    assert_first_block(b"\0\x08Marinade", None);
}

#[test]
fn the_last_block_has_what_is_left_of_the_names() {
    // Two names where n says three in all, then where n says four.
    let two = b"\0\x05Marke\x05\x06t Squa";
    assert_second_dropped(two);
    let of_four = changed(&worn(10, two), 77, &[4]);
    let records = [MAR_MARINA, b"\x05Marke\x0BMarket Squa"].concat();
    assert_salvaged(&of_four, &records, &[kept(2), kept(2)]);
    // One name where n says four.
    assert_salvaged(&worn(77, &[4]), MAR_MARINA, &[kept(2), DROPPED]);
    // One block: it has as many names as n says, whatever k is.
    for count in [1, 2, 4] {
        assert_salvaged(&changed(&BOOK_BY_4, 72, &[count]), b"", &[DROPPED]);
    }
    for block in 3..=64 {
        let data = changed(&BOOK_BY_4, 74, &[block]);
        assert_salvaged(&data, MAR_LIST, &[kept(3)]);
    }
}

#[test]
fn a_block_is_dropped_where_another_has_its_names() {
    // Starts one earlier or later, or at another entry: bytes change sides.
    for start in [9, 11] {
        assert_salvaged(&worn(27, &[start]), b"", &[DROPPED; 2]);
    }
    for start in [1, 5, 24] {
        assert_salvaged(&worn(27, &[start]), b"", &[DROPPED; 2]);
    }
    // Mar alone in the first block and Nar, Nara in the last: n tells the last
    // one's number, k the first's.
    let data = mapped(&[b"\0\x03Mar", b"\0\x03Nar\x03\x01a"], 3, 2, &[]);
    assert_salvaged(&data, b"", &[DROPPED; 2]);
}

// The map: refusal 13

#[test]
fn every_byte_of_the_trailer_is_looked_at() {
    let (by_2, by_4) = (&BOOK_BY_2[..], &BOOK_BY_4[..]);
    for (data, sound) in [(by_2, &[77][..]), (by_4, &[72, 74])] {
        for at in data.len() - 16..data.len() {
            for step in [1, 2, 3, 64, 128, 255, 254] {
                let byte = data[at].wrapping_add(step);
                let data = changed(data, at, &[byte]);
                if !sound.contains(&at) {
                    assert_no_map(&data);
                }
            }
        }
    }
}

#[test]
fn n_and_k_must_give_the_number_of_blocks_that_the_parts_have() {
    // three names by 2 in two starts: only n = 4 has as many blocks
    for n in (0..=255).filter(|&n| n != 3 && n != 4) {
        assert_no_map(&worn(77, &[n]));
    }
    for k in (0..=255).filter(|&k| k != 2) {
        assert_no_map(&worn(79, &[k]));
    }
    // three names by 4 in one start
    for n in (5..=255).chain([0]) {
        assert_no_map(&changed(&BOOK_BY_4, 72, &[n]));
    }
    for k in [0, 1, 2, 65, 66, 128, 255] {
        assert_no_map(&changed(&BOOK_BY_4, 74, &[k]));
    }
    assert_no_map(&changed(&BOOK_BY_4, 75, &[1]));
}

#[test]
fn n_is_at_most_2000() {
    let most = built(&many_names(2000), 64);
    let (records, report) = salvaged(&most, 32);
    assert_eq!(records, write_list(&many_names(2000)));
    assert_eq!(report[..31], [kept(64); 31]);
    assert_eq!(report[31], kept(16));
    // By 1 there are 2,000 rows.
    let by_one = built(&many_names(2000), 1);
    assert_salvaged(&by_one, &write_list(&many_names(2000)), &[kept(1); 2000]);
    // One more, laid out as it should be, and told alone.
    let more = book_of(BookKind::Plain, 64, &many_names(2001));
    assert_refused(&more, 70_000, 32, no(13));
    let at = most.len() - 16;
    assert_refused(&changed(&most, at, &number(2001)), 70_000, 32, no(13));
    assert_refused(&changed(&most, at, &number(2048)), 70_000, 32, no(13));
    let fewer = salvaged(&changed(&most, at, &number(1999)), 32);
    assert_eq!(fewer.0, write_list(&many_names(31 * 64)));
    assert_eq!(fewer.1[31], DROPPED);
}

#[test]
fn k_is_1_to_64() {
    let list = many_names(130);
    for (block, rows) in [(1, 130), (2, 65), (63, 3), (64, 3)] {
        let (records, report) = salvaged(&book_of(BookKind::Plain, block, &list), rows);
        assert_eq!(records, write_list(&list));
        assert!(report.iter().all(|row| row.kept == 1));
    }
    for (block, rows) in [
        (0, 0),
        (0, 1),
        (0, 130),
        (65, 2),
        (66, 2),
        (256, 1),
        (257, 1),
    ] {
        assert_refused(
            &book_of(BookKind::Plain, block, &list),
            70_000,
            rows,
            no(13),
        );
    }
    for block in [0, 65, 255, 256, 65_535] {
        let data = changed(&EMPTY_BOOK, 2, &number(block));
        assert_refused(&data, 0, 0, no(13));
    }
    for block in [1, 2, 63, 64] {
        assert_salvaged(&changed(&EMPTY_BOOK, 2, &number(block)), b"", &[]);
    }
}

#[test]
fn the_mark_is_that_of_today() {
    for (at, byte) in b"NBK2".iter().enumerate() {
        for change in 1..=255 {
            assert_no_map(&worn(89 + at, &[byte ^ change]));
        }
    }
    assert_no_map(&worn(89, b"NBK1"));
    assert_refused(&changed(&EMPTY_BOOK, 12, b"NBK1"), 0, 0, no(13));
    // Document 01's own layout, of ten bytes a node, under either mark.
    for mark in [b"NBK1", b"NBK2"] {
        let mut old = BOOK_BY_2[..29].to_vec();
        for node in BOOK_BY_2[29..77].chunks(12) {
            old.extend(&node[..10]);
        }
        old.extend(&BOOK_BY_2[77..]);
        let old = changed(&changed(&old, 79, &[85]), 81, mark);
        assert_eq!(old.len(), 85);
        assert_no_map(&old);
    }
}

#[test]
fn the_told_length_is_the_length() {
    for length in 0..93 {
        assert_no_map(&BOOK_BY_2[..length]);
        assert_no_map(&BOOK_BY_2[93 - length..]);
    }
    for byte in [0, 1, b'2', 255] {
        assert_no_map(&[&BOOK_BY_2[..], &[byte]].concat());
        assert_no_map(&[&[byte], &BOOK_BY_2[..]].concat());
    }
    assert_no_map(&[&BOOK_BY_2[..], &BOOK_BY_2].concat());
    // The two bytes of the length are all there is of it.
    assert_no_map(&[&vec![0; 65_536][..], &BOOK_BY_2].concat());
}

#[test]
fn fewer_than_16_bytes_have_no_map() {
    assert_no_map(b"");
    for length in 0..16 {
        assert_no_map(&EMPTY_BOOK[16 - length..]);
        assert_no_map(&vec![0; length]);
    }
}

#[test]
fn parts_meet_without_gaps() {
    let blocks = [&BOOK_BY_2[FIRST_BLOCK], &BOOK_BY_2[SECOND_BLOCK]];
    let entries = &BOOK_BY_2[..25];
    assert_salvaged(&mapped(&blocks, 3, 2, &[]), MAR_LIST, &[kept(2), kept(1)]);
    // A byte or twelve between block table and node table, or before the trailer.
    for gap in [1, 2, 11] {
        assert_no_map(&mapped(&blocks, 3, 2, &vec![0; gap]));
        let moved = mapped(&blocks, 3, 2, &vec![0; gap]);
        let at = moved.len() - 16 + 6;
        assert_no_map(&changed(&moved, at, &number(29 + gap)));
    }
    // A start more than there are blocks, and one fewer.
    assert_no_map(&with_starts(entries, 25, &[0, 10, 20], 3, 2, &[]));
    assert_no_map(&with_starts(entries, 25, &[0], 3, 2, &[]));
    // The block table said to stand a byte before or behind the entries' end: then
    // it begins elsewhere, and the node table with it.
    assert_no_map(&with_starts(entries, 24, &[0, 10], 3, 2, &[]));
    assert_no_map(&with_starts(entries, 26, &[0, 10], 3, 2, &[]));
    // A gap behind the entries is a part of the last block.
    let behind = mapped(&[blocks[0], &[blocks[1], &[0]].concat()], 3, 2, &[]);
    assert_salvaged(&behind, MAR_MARINA, &[kept(2), DROPPED]);
}

#[test]
fn numbers_that_would_wrap_do_not_meet() {
    // 16,384 nodes more are 3 times 65,536 bytes more.
    assert_no_map(&worn(85, &number(4 + 16_384)));
    assert_no_map(&worn(85, &number(4 + 32_768)));
    assert_no_map(&worn(83, &number(65_535)));
    assert_no_map(&worn(81, &number(65_535)));
    assert_no_map(&worn(81, &[0xFF; 6]));
}

#[test]
fn block_starts_rise_strictly_from_0_inside_the_entries() {
    for start in [1, 2, 9, 10, 255] {
        assert_no_map(&worn(25, &number(start)));
    }
    assert_no_map(&worn(25, &number(256)));
    // the second start at the first, at the end of the entries and past it
    for start in [0, 25, 26, 29, 77, 92, 93, 10 + 256, 65_535] {
        assert_no_map(&worn(27, &number(start)));
    }
    assert_salvaged(&worn(27, &[24]), b"", &[DROPPED; 2]);
    let entries = b"\0\x01a\0\x01b\0\x01c";
    let starts = |starts: [usize; 3]| with_starts(entries, 9, &starts, 3, 1, &[]);
    assert_salvaged(&starts([0, 3, 6]), b"\x01a\x01b\x01c", &[kept(1); 3]);
    for wrong in [
        [0, 6, 3],
        [0, 3, 3],
        [0, 6, 6],
        [0, 0, 3],
        [3, 6, 8],
        [0, 3, 9],
    ] {
        assert_no_map(&starts(wrong));
    }
    assert_salvaged(&starts([0, 3, 8]), b"\x01a", &[kept(1), DROPPED, DROPPED]);
    assert_salvaged(&starts([0, 5, 6]), b"\x01c", &[DROPPED, DROPPED, kept(1)]);
}

#[test]
fn names_without_entry_bytes_have_no_map() {
    assert_no_map(&with_starts(b"", 0, &[0], 1, 1, &[]));
    assert_no_map(&with_starts(b"", 0, &[0], 64, 64, &[]));
    assert_no_map(&with_starts(b"", 0, &[0, 0], 2, 1, &[]));
    assert_no_map(&with_starts(b"", 0, &[0, 1], 2, 1, &[]));
    // One byte is enough for a map, if not for a name.
    assert_salvaged(&with_starts(b"\0", 1, &[0], 1, 1, &[]), b"", &[DROPPED]);
}

// No names

#[test]
fn no_names_give_no_records_and_no_rows() {
    assert_salvaged(&EMPTY_BOOK, b"", &[]);
    assert_eq!(book_salvage(&EMPTY_BOOK, &mut [], &mut []), yes(0, 0));
    assert_refused(&EMPTY_BOOK, 9, 1, no(12));
}

#[test]
fn no_names_have_no_entry_bytes() {
    for entries in [&b"\0"[..], b"\0\x03Mar", &BOOK_BY_2[..25]] {
        let data = with_starts(entries, entries.len(), &[], 0, 2, &[]);
        assert_refused(&data, 100, 0, no(13));
        assert_refused(&data, 100, 1, no(13));
    }
    // Bytes of a node are none of an entry.
    for nodes in [1, 2, 100] {
        let data = with_starts(b"", 0, &[], 0, 2, &vec![0xFF; 12 * nodes]);
        assert_salvaged(&data, b"", &[]);
    }
}

// Nodes

#[test]
fn node_records_are_never_looked_at() {
    let report = [kept(2), kept(1)];
    for byte in [0, 1, 0x7F, 0xFF] {
        assert_salvaged(&worn(29, &[byte; 48]), MAR_LIST, &report);
    }
    for (at, byte) in BOOK_BY_2.iter().enumerate().take(77).skip(29) {
        assert_salvaged(&worn(at, &[byte ^ 0xFF]), MAR_LIST, &report);
    }
}

#[test]
fn any_number_of_nodes_that_fits_the_length_will_do() {
    // Three names have at most five nodes.
    let blocks = [&BOOK_BY_2[FIRST_BLOCK], &BOOK_BY_2[SECOND_BLOCK]];
    let most = (65_535 - 16 - 29) / 12;
    for nodes in [0, 1, 3, 4, 5, 6, 100, 3999, 4000, most] {
        let data = mapped(&blocks, 3, 2, &vec![0xFF; 12 * nodes]);
        assert_salvaged(&data, MAR_LIST, &[kept(2), kept(1)]);
    }
    assert_refused(
        &mapped(&blocks, 3, 2, &vec![0xFF; 12 * (most + 1)]),
        100,
        2,
        no(13),
    );
}

// Report and room: refusals 12 and 4

#[test]
fn the_report_has_as_many_rows_as_there_are_blocks() {
    for rows in [0, 1, 3, 4, 64, 65, 2000] {
        assert_refused(&BOOK_BY_2, 300, rows, no(12));
    }
    for rows in [0, 2] {
        assert_refused(&BOOK_BY_4, 300, rows, no(12));
    }
    // A dropped block has its row, too.
    for rows in [0, 1, 3] {
        assert_refused(&worn(0, &[1]), 300, rows, no(12));
    }
}

#[test]
fn a_room_of_exactly_the_records_is_enough_and_one_byte_less_is_not() {
    // all kept, the first block dropped, the second, and both
    for (data, length) in [
        (BOOK_BY_2.to_vec(), 25),
        (worn(0, &[1]), 14),
        (worn(10, &[1]), 11),
    ] {
        let mut room = vec![FILLING; length];
        let answer = book_salvage(&data, &mut room, &mut [UNSET; 2]);
        assert_eq!(answer, yes(length, 0));
        for short in [0, 1, length - 1] {
            assert_refused(&data, short, 2, no(4));
        }
    }
    let both = worn(10, &[1]);
    let both = changed(&both, 0, &[1]);
    let mut report = [UNSET; 2];
    assert_eq!(book_salvage(&both, &mut [], &mut report), yes(0, 0));
    assert_eq!(report, [DROPPED; 2]);
}

#[test]
fn salvage_gives_13_then_12_then_4() {
    let no_map = worn(92, b"1");
    assert_refused(&no_map, 0, 0, no(13));
    assert_refused(&no_map, 24, 1, no(13));
    assert_refused(&no_map, 25, 2, no(13));
    assert_refused(&no_map, 25, 2001, no(13));
    assert_refused(&BOOK_BY_2, 0, 1, no(12));
    assert_refused(&BOOK_BY_2, 24, 3, no(12));
    assert_refused(&BOOK_BY_2, 24, 2, no(4));
    assert_refused(&BOOK_BY_2, 0, 2, no(4));
}

#[test]
fn the_most_bytes_of_records_are_written() {
    // 320 names by 1, in as many bytes of entries as two bytes can tell: names
    // of 200 bytes with two that differ.
    let list: Vec<Vec<u8>> = many_names(320)
        .into_iter()
        .map(|name| [name, vec![b'x'; 198]].concat())
        .collect();
    let blocks: Vec<Vec<u8>> = list
        .iter()
        .map(|name| [&[0, 200], &name[..]].concat())
        .collect();
    let blocks: Vec<&[u8]> = blocks.iter().map(|block| &block[..]).collect();
    let data = mapped(&blocks, 320, 1, &[]);
    assert_eq!(data.len(), 320 * 204 + 16);
    assert_salvaged(&data, &write_list(&list), &[kept(1); 320]);
}

// The promise: bytes of one block touch no other

/// The names of each block, as records, taken apart by the report.
fn by_block(records: &[u8], report: &[Kept]) -> Vec<Vec<u8>> {
    let mut unread = records;
    let mut blocks = Vec::new();
    for row in report {
        let mut length = 0;
        for _ in 0..row.names {
            length += 1 + usize::from(unread[length]);
        }
        blocks.push(unread[..length].to_vec());
        unread = &unread[length..];
    }
    assert!(unread.is_empty());
    blocks
}

#[test]
fn a_changed_byte_inside_a_block_changes_no_other_block() {
    let by_one = built(&names(&["Mar", "Marina", "Market Square"]), 1);
    let spans_by_one = [0..5, 5..13, 13..28];
    for (data, spans) in [
        (&BOOK_BY_2[..], &[FIRST_BLOCK, SECOND_BLOCK][..]),
        (&by_one, &spans_by_one),
    ] {
        let (records, report) = salvaged(data, spans.len());
        let blocks = by_block(&records, &report);
        for (number, span) in spans.iter().enumerate() {
            for at in span.clone() {
                for change in 1..=255 {
                    let data = changed(data, at, &[data[at] ^ change]);
                    let (records, changed_report) = salvaged(&data, spans.len());
                    let changed_blocks = by_block(&records, &changed_report);
                    for other in (0..spans.len()).filter(|&other| other != number) {
                        assert_eq!(changed_report[other], report[other]);
                        assert_eq!(changed_blocks[other], blocks[other]);
                    }
                }
            }
        }
    }
}
