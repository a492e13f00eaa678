//! Document 02's request 5, sentence by sentence, through the linked archive; and
//! the stored cases of it. The cases, what to do with them and what is expected
//! stand in `data`, written by `cargo run -p vectors -- salvage FOLDER`.

use proved::{book_build, book_salvage, Answer, Kept};

const LIST: &[u8] = b"\x03Mar\x06Marina\x0DMarket Square";

/// The records of the first block, by 2, and of the second.
const FIRST: &[u8] = b"\x03Mar\x06Marina";
const SECOND: &[u8] = b"\x0DMarket Square";

/// A report row before a call.
const UNSET: Kept = Kept {
    kept: 904,
    names: 905,
};

/// The row of a dropped block.
const DROPPED: Kept = Kept { kept: 0, names: 0 };

/// The row of a kept block with so many names.
fn kept(names: usize) -> Kept {
    Kept { kept: 1, names }
}

/// An answer.
fn answer(code: usize, first: usize, second: usize) -> Answer {
    Answer {
        code,
        first,
        second,
    }
}

/// The book of 93 bytes: entries up to 10 and 25, block starts up to 29, nodes up
/// to 77, trailer.
fn book() -> Vec<u8> {
    let mut room = vec![0; 93];
    assert_eq!(book_build(LIST, 2, &mut room), answer(0, 93, 0));
    room
}

/// The book with other bytes from this one on.
fn worn(at: usize, bytes: &[u8]) -> Vec<u8> {
    let mut data = book();
    data[at..at + bytes.len()].copy_from_slice(bytes);
    data
}

/// The answer, and the room and the report afterwards, which have these lengths.
fn salvaged(data: &[u8], space: usize, rows: usize) -> (Answer, Vec<u8>, Vec<Kept>) {
    let (mut room, mut report) = (vec![0xAA; space], vec![UNSET; rows]);
    let answer = book_salvage(data, &mut room, &mut report);
    (answer, room, report)
}

/// Asserts that these records and rows come out, in a room that is just long enough
/// and in a longer one, and a refusal in one that is a byte too short.
fn assert_salvaged(data: &[u8], records: &[u8], report: &[Kept]) {
    let length = records.len();
    for space in [length, length + 9] {
        let room = [records, &vec![0xAA; space - length]].concat();
        let expected = (answer(0, length, 0), room, report.to_vec());
        assert_eq!(salvaged(data, space, report.len()), expected, "{data:?}");
    }
    if length > 0 {
        assert_refused(data, length - 1, report.len(), 4);
    }
}

/// Asserts that the call is refused, and that room and report are as they were.
fn assert_refused(data: &[u8], space: usize, rows: usize, code: usize) {
    let expected = (answer(code, 0, 0), vec![0xAA; space], vec![UNSET; rows]);
    assert_eq!(salvaged(data, space, rows), expected, "{data:?}");
}

/// Asserts that the map makes no sense, whatever the room and the report.
fn assert_no_map(data: &[u8]) {
    for (space, rows) in [(0, 0), (0, 2), (100, 1), (100, 2), (100, 3)] {
        assert_refused(data, space, rows, 13);
    }
}

#[test]
fn sound_blocks_go_out_as_list_records_in_order() {
    assert_salvaged(&book(), LIST, &[kept(2), kept(1)]);
    let mut by_4 = vec![0; 88];
    assert_eq!(book_build(LIST, 4, &mut by_4), answer(0, 88, 0));
    assert_salvaged(&by_4, LIST, &[kept(3)]);
}

#[test]
fn a_damaged_block_is_dropped_and_the_others_are_kept() {
    for (at, bytes) in [
        (0, &b"\x01"[..]),
        (1, &[4]),
        (5, &[4]),
        (6, &[2]),
        (3, &[255; 5]),
        (0, &[0; 10]),
        (5, b"\x02\x03rin"),
        (0, b"\0\x01M\x01\x01a\x02\x02ri"),
        (0, b"\0\x08Marinade"),
        (0, b"\0\x06Marina\x06\0"),
    ] {
        assert_salvaged(&worn(at, bytes), SECOND, &[DROPPED, kept(1)]);
    }
    for (at, bytes) in [
        (10, &b"\x03"[..]),
        (11, &[12]),
        (11, &[14]),
        (10, &[255; 15]),
        (10, b"\0\x05Marke\x05\x06t Squa"),
        (77, &[4]),
    ] {
        assert_salvaged(&worn(at, bytes), FIRST, &[kept(2), DROPPED]);
    }
    assert_salvaged(&worn(5, &[0; 10]), b"", &[DROPPED; 2]);
}

#[test]
fn a_damaged_block_that_is_sound_is_kept_with_its_other_names() {
    let other = [b"\x03Mar\x06Marinb", SECOND].concat();
    assert_salvaged(&worn(9, b"b"), &other, &[kept(2), kept(1)]);
}

#[test]
fn the_result_need_not_rise_from_block_to_block() {
    let above = [b"\x03Zar\x06Zarina", SECOND].concat();
    assert_salvaged(&worn(2, b"Z"), &above, &[kept(2), kept(1)]);
    let below = [FIRST, b"\x0DAarket Square"].concat();
    assert_salvaged(&worn(12, b"A"), &below, &[kept(2), kept(1)]);
}

#[test]
fn a_map_that_makes_no_sense_is_refused_with_13() {
    // each number of the trailer one more and one less, but an n of four
    for at in [77, 79, 81, 83, 85, 87] {
        for step in [1, 255] {
            let number = book()[at].wrapping_add(step);
            if (at, number) != (77, 4) {
                assert_no_map(&worn(at, &[number]));
            }
        }
        assert_no_map(&worn(at + 1, &[1]));
    }
    for at in 89..93 {
        assert_no_map(&worn(at, &[0]));
    }
    assert_no_map(&worn(92, b"1"));
    // m and 16,384 more: three times 65,536 bytes
    assert_no_map(&worn(86, &[64]));
}

#[test]
fn block_starts_rise_strictly_from_0_inside_the_entries() {
    for start in [1, 10, 255] {
        assert_no_map(&worn(25, &[start]));
    }
    for start in [0, 25, 26, 93, 255] {
        assert_no_map(&worn(27, &[start]));
    }
    assert_no_map(&worn(28, &[1]));
    for start in [1, 9, 11, 24] {
        assert_salvaged(&worn(27, &[start]), b"", &[DROPPED; 2]);
    }
}

#[test]
fn bytes_missing_or_added_are_refused_with_13() {
    let book = book();
    for length in 0..93 {
        assert_no_map(&book[..length]);
        assert_no_map(&book[93 - length..]);
    }
    assert_no_map(&[&book[..], &[0]].concat());
    assert_no_map(&[&[0], &book[..]].concat());
    assert_no_map(&[&vec![0; 65_536][..], &book].concat());
}

#[test]
fn node_records_are_never_looked_at() {
    assert_salvaged(&worn(29, &[255; 48]), LIST, &[kept(2), kept(1)]);
    // Six nodes, where three names have at most five; and none.
    for nodes in [6, 0] {
        let mut data = [&book()[..29], &vec![255; 12 * nodes], &book()[77..]].concat();
        let end = 29 + 12 * nodes;
        data[end + 8] = nodes as u8;
        data[end + 10] = data.len() as u8;
        assert_salvaged(&data, LIST, &[kept(2), kept(1)]);
    }
}

#[test]
fn no_names_give_no_rows_and_have_no_entry_bytes() {
    let empty = b"\0\0\x02\0\0\0\0\0\0\0\x10\0NBK2";
    assert_salvaged(empty, b"", &[]);
    assert_refused(empty, 9, 1, 12);
    assert_no_map(b"a\0\0\x02\0\x01\0\x01\0\0\0\x11\0NBK2");
    // Names without entry bytes make no sense either.
    assert_no_map(b"\0\0\x01\0\x02\0\0\0\x02\0\0\0\x12\0NBK2");
}

#[test]
fn rows_that_differ_from_the_blocks_in_number_are_refused_with_12() {
    for rows in [0, 1, 3, 65, 2000] {
        assert_refused(&book(), 100, rows, 12);
        assert_refused(&worn(0, &[1]), 100, rows, 12);
    }
}

#[test]
fn refusal_13_comes_before_12_and_12_before_4() {
    assert_refused(&worn(92, b"1"), 0, 1, 13);
    assert_refused(&worn(92, b"1"), 100, 2001, 13);
    assert_refused(&book(), 0, 1, 12);
    assert_refused(&book(), 24, 3, 12);
    assert_refused(&book(), 24, 2, 4);
}

#[test]
fn a_byte_of_one_block_changes_no_other() {
    for at in 0..25 {
        for change in 1..=255 {
            let data = worn(at, &[book()[at] ^ change]);
            let (answer, room, report) = salvaged(&data, 100, 2);
            assert_eq!(answer.code, 0);
            let records = &room[..answer.first];
            if at < 10 {
                assert!(report[1] == kept(1) && records.ends_with(SECOND));
            } else {
                assert!(report[0] == kept(2) && records.starts_with(FIRST));
            }
        }
    }
}

// The stored cases

/// The number in the four bytes from this one on, low byte first.
fn number(file: &[u8], at: usize) -> usize {
    u32::from_le_bytes(file[at..at + 4].try_into().unwrap()) as usize
}

/// The checksum of numbers, as the vectors have it: both halves of Adler-32.
fn checksum(numbers: impl IntoIterator<Item = usize>) -> [usize; 2] {
    let (mut first, mut second) = (1, 0);
    for number in numbers {
        first = (first + number % 65_521) % 65_521;
        second = (second + first) % 65_521;
    }
    [first, second]
}

/// The checksum of bytes.
fn checksum_of_bytes(bytes: &[u8]) -> [usize; 2] {
    checksum(bytes.iter().map(|&byte| usize::from(byte)))
}

/// The line for a case: what came of the call, as numbers.
fn line(number: usize, data: &[u8], space: usize, rows: usize) -> String {
    let mut room: Vec<u8> = (0..space).map(|at| (at % 251) as u8).collect();
    let mut report: Vec<Kept> = (0..rows + 2)
        .map(|row| Kept {
            kept: 10_000 + row,
            names: 20_000 + row,
        })
        .collect();
    let answer = book_salvage(data, &mut room, &mut report[..rows]);
    let written = if answer.code == 0 { answer.first } else { 0 };
    let says = |what: usize| report.iter().filter(|row| row.kept == what).count();

    let mut line = vec![number, answer.code, answer.first, answer.second];
    line.extend(checksum_of_bytes(&room[..written]));
    line.extend(checksum_of_bytes(&room));
    line.extend([says(1), says(0)]);
    line.extend(checksum(
        report.iter().flat_map(|row| [row.kept, row.names]),
    ));
    let line: Vec<String> = line.iter().map(usize::to_string).collect();
    line.join(" ")
}

#[test]
fn the_stored_cases_give_what_the_second_program_gives() {
    let file = include_bytes!("data/salvage.cases");
    let mut expected = include_str!("data/salvage.expected").lines();
    let (mut at, mut cases) = (0, 0);
    while at < file.len() {
        let [length, space, rows] = [0, 4, 8].map(|field| number(file, at + field));
        let data = &file[at + 12..at + 12 + length];
        assert_eq!(Some(&line(cases, data, space, rows)[..]), expected.next());
        at += 12 + length;
        cases += 1;
    }
    assert_eq!(expected.next(), None);
    assert!(cases > 150, "{cases}");
}
