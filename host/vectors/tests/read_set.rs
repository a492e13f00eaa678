//! The set of `book_read`: its file read back by a reader of its own, and what
//! must be among its cases.

use std::collections::BTreeMap;
use vectors::checksum::checksum;
use vectors::columns;
use vectors::folded;
use vectors::reading::{self, Read as Call, LONGEST_ROOM};
use vectors::sets::{Case, Files};

/// A case as it stands in the file.
struct Read<'file> {
    book: &'file [u8],
    position: u64,
    room: usize,
}

/// Reads the file as its description says, and asserts that it ends with a
/// case.
fn read_file(mut file: &[u8]) -> Vec<Read<'_>> {
    let mut cases = Vec::new();
    let mut book: &[u8] = &[];
    while !file.is_empty() {
        let length = u32::from_le_bytes(file[..4].try_into().unwrap()) as usize;
        let position = u64::from_le_bytes(file[4..12].try_into().unwrap());
        let room = u32::from_le_bytes(file[12..16].try_into().unwrap()) as usize;
        let end = 16 + length;
        if length > 0 {
            book = &file[16..end];
        }
        cases.push(Read {
            book,
            position,
            room,
        });
        file = &file[end..];
    }
    cases
}

/// The line that a program prints for this case.
fn line(number: usize, case: &Read) -> String {
    let mut room: Vec<u8> = (0..case.room).map(|at| (at % 251) as u8).collect();
    let answer = model::book_read(case.book, case.position as usize, &mut room);
    let (mut a, mut b) = (1, 0);
    if answer.code == 0 {
        (a, b) = checksum(&room[..answer.first]);
    }
    let (whole_a, whole_b) = checksum(&room);
    let (code, first, second) = (answer.code, answer.first, answer.second);
    format!("{number} {code} {first} {second} {a} {b} {whole_a} {whole_b}\n")
}

/// The three numbers of a case's answer.
fn answer(case: &Case<Call>) -> [usize; 3] {
    let outcome = case.outcome();
    let mut numbers = outcome.split(' ').map(|word| word.parse().unwrap());
    std::array::from_fn(|_| numbers.next().unwrap())
}

#[test]
fn a_program_that_follows_the_description_prints_the_text() {
    for set in [&reading::SET, &folded::READ, &columns::READ] {
        let file = set.case_file();
        let cases = read_file(&file);
        let lines = cases.iter().enumerate();
        let text: String = lines.map(|(number, case)| line(number, case)).collect();
        assert_eq!(text, set.expected());
    }
}

#[test]
fn the_rooms_are_small_enough() {
    for (set, most) in [
        (&reading::SET, 1200),
        (&folded::READ, 300),
        (&columns::READ, 350),
    ] {
        let file = set.case_file();
        let cases = read_file(&file);
        assert!(cases.len() <= most, "{}", cases.len());
        assert!(cases.iter().all(|case| case.room <= LONGEST_ROOM));
    }
}

#[test]
fn folded_names_are_read_as_they_were_spelt() {
    let file = folded::READ.case_file();
    let mut read = Vec::new();
    for case in read_file(&file) {
        let mut room = vec![0; case.room];
        let answer = model::book_read(case.book, case.position as usize, &mut room);
        if answer.code == 0 {
            room.truncate(answer.first);
            read.push(room);
        }
    }
    for name in [
        "MAR",
        "marina",
        "mar",
        "Marina",
        "MARKET Square",
        "ABBOT",
        "cafÉ",
    ] {
        assert!(read.iter().any(|one| one == name.as_bytes()), "{name}");
    }
}

#[test]
fn every_refusal_of_a_reading_is_among_the_cases() {
    for set in [&reading::SET, &columns::READ] {
        let mut counts = BTreeMap::new();
        for case in set.cases() {
            *counts.entry(answer(&case)[0]).or_insert(0) += 1;
        }
        let codes: Vec<usize> = counts.keys().copied().collect();
        assert_eq!(codes, [0, 2, 3, 4], "{counts:?}");
    }
}

#[test]
fn the_edges_of_document_01_are_among_the_cases() {
    let cases = reading::SET.cases();
    for (purpose, expected) in [
        ("empty input: book 0, position 0, room 0", [2, 0, 0]),
        ("worked example: book 93, position 2, room 13", [0, 13, 0]),
        ("worked example: book 93, position 2, room 12", [4, 0, 0]),
        ("worked example: book 93, position 3, room 300", [3, 0, 0]),
        ("worked example: book 88, position 1, room 15", [0, 6, 0]),
        ("3 before 4: book 93, position 3, room 0", [3, 0, 0]),
        ("no names: book 16, position 0, room 9", [3, 0, 0]),
        (
            "one name of 200 bytes: book 232, position 0, room 200",
            [0, 200, 0],
        ),
        (
            "one name of 200 bytes: book 232, position 0, room 199",
            [4, 0, 0],
        ),
        ("2,000 names: book 30227, position 1999, room 2", [0, 2, 0]),
        (
            "past 2,000 names: book 30227, position 2000, room 9",
            [3, 0, 0],
        ),
        ("book of 65,535: book 65535, position 0, ", [0, 192, 0]),
    ] {
        let found = cases
            .iter()
            .find(|case| case.purpose().starts_with(purpose));
        let found = found.unwrap_or_else(|| panic!("no case for {purpose}"));
        assert_eq!(answer(found), expected, "{purpose}");
    }
}
