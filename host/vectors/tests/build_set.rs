//! The set of `book_build`: its file read back by a reader of its own, and what
//! must be among its cases.

use model::BookKind;
use std::collections::BTreeMap;
use vectors::building::{self, Build, LONGEST_ROOM};
use vectors::checksum::checksum;
use vectors::folded;
use vectors::sets::{Files, Set};

/// The set of each kind of book.
const SETS: [(BookKind, &Set<Build>); 2] = [
    (BookKind::Plain, &building::SET),
    (BookKind::Folded, &folded::BUILD),
];

/// A case as it stands in the file.
struct Read<'file> {
    list: &'file [u8],
    block: u64,
    room: usize,
}

/// Reads the file as its description says, and asserts that it ends with a
/// case.
fn read_file(mut file: &[u8]) -> Vec<Read<'_>> {
    let mut cases = Vec::new();
    while !file.is_empty() {
        let (length, block, room) = (number(file, 0, 4), number(file, 4, 8), number(file, 12, 4));
        let end = 16 + length as usize;
        cases.push(Read {
            list: &file[16..end],
            block,
            room: room as usize,
        });
        file = &file[end..];
    }
    cases
}

/// The number in so many bytes from this one on, low byte first.
fn number(file: &[u8], from: usize, bytes: usize) -> u64 {
    let bytes = file[from..from + bytes].iter().rev();
    bytes.fold(0, |number, &byte| 256 * number + u64::from(byte))
}

/// The line that a program prints for this case, when it builds books of this kind.
fn line(kind: BookKind, number: usize, case: &Read) -> String {
    let mut room: Vec<u8> = (0..case.room).map(|at| (at % 251) as u8).collect();
    let answer = model::build_kind(kind, case.list, case.block as usize, &mut room);
    let (mut a, mut b) = (1, 0);
    if answer.code == 0 {
        (a, b) = checksum(&room[..answer.first]);
    }
    let (whole_a, whole_b) = checksum(&room);
    let (code, first, second) = (answer.code, answer.first, answer.second);
    format!("{number} {code} {first} {second} {a} {b} {whole_a} {whole_b}\n")
}

/// The code, first and second that are expected for each case, with what the
/// case is there for.
fn outcomes(set: &Set<Build>) -> Vec<(String, [usize; 3])> {
    let cases = set.cases().into_iter();
    cases
        .map(|case| {
            let outcome = case.outcome();
            let mut numbers = outcome.split(' ').map(|word| word.parse().unwrap());
            let answer = std::array::from_fn(|_| numbers.next().unwrap());
            (case.purpose(), answer)
        })
        .collect()
}

/// Asserts that there is a case with this in its purpose, and what its answer
/// is.
fn assert_among(outcomes: &[(String, [usize; 3])], purpose: &str, answer: [usize; 3]) {
    let found = outcomes.iter().find(|(there, _)| there.contains(purpose));
    let (_, there) = found.unwrap_or_else(|| panic!("no case for {purpose}"));
    assert_eq!(there, &answer, "{purpose}");
}

#[test]
fn a_program_that_follows_the_description_prints_the_text() {
    for (kind, set) in SETS {
        let file = set.case_file();
        let cases = read_file(&file);
        let lines = cases.iter().enumerate();
        let text = lines.map(|(number, case)| line(kind, number, case));
        assert_eq!(text.collect::<String>(), set.expected());
    }
}

#[test]
fn the_rooms_are_small_enough() {
    for (_, set) in SETS {
        let file = set.case_file();
        let cases = read_file(&file);
        assert!(cases.len() <= 170, "{}", cases.len());
        assert!(cases.iter().all(|case| case.room <= LONGEST_ROOM));
    }
}

#[test]
fn every_refusal_of_a_build_is_among_the_cases() {
    for (_, set) in SETS {
        let mut counts = BTreeMap::new();
        for (_, [code, _, _]) in outcomes(set) {
            *counts.entry(code).or_insert(0) += 1;
        }
        let codes: Vec<usize> = counts.keys().copied().collect();
        assert_eq!(codes, [0, 4, 5, 6, 7, 8, 9], "{counts:?}");
    }
}

#[test]
fn the_edges_of_document_01_are_among_the_cases() {
    let outcomes = outcomes(&building::SET);
    let among = |purpose, answer| assert_among(&outcomes, purpose, answer);
    among("worked example: list 25, block 2, room 92", [4, 0, 0]);
    among("worked example: list 25, block 2, room 93", [0, 93, 0]);
    among("worked example: list 25, block 4, room 87", [4, 0, 0]);
    among("worked example: list 25, block 4, room 88", [0, 88, 0]);
    among("block 0, ", [8, 0, 0]);
    among("block 1, ", [0, 98, 0]);
    among("block 64, ", [0, 88, 0]);
    among("block 65, ", [8, 0, 0]);
    among("block 18446744073709551615, ", [8, 0, 0]);
    among("empty list: list 0, block 64, room 15", [4, 0, 0]);
    among("empty list: list 0, block 64, room 16", [0, 16, 0]);
    among("one name of 200 bytes", [0, 232, 0]);
    among("one name of 201 bytes", [5, 0, 0]);
    among("equal neighbours", [6, 1, 0]);
    among("2,000 names", [0, 30_227, 0]);
    among("2,001 names", [7, 2000, 0]);
    among("number 2,000 empty", [5, 2000, 0]);
    among("number 2,000 equal", [6, 2000, 0]);
    among("book of 65,535, many nodes", [0, 65_535, 0]);
    among("book of 65,535, room short", [4, 0, 0]);
    among("book of 65,536, no room", [9, 0, 0]);
    among("book of 65,536, room to spare", [9, 0, 0]);
    among("5 and not 9", [5, 1670, 0]);
    among("6 and not 9", [6, 1670, 0]);
    among("7 and not 9", [7, 2000, 0]);
}

#[test]
fn the_edges_of_folding_are_among_the_cases() {
    let outcomes = outcomes(&folded::BUILD);
    let among = |purpose, answer| assert_among(&outcomes, purpose, answer);
    among("MAR, marina: list 11, block 2, room 66", [4, 0, 0]);
    among("MAR, marina: list 11, block 2, room 67", [0, 67, 0]);
    among("spelt example: list 25, block 4, room 92", [4, 0, 0]);
    among("spelt example: list 25, block 4, room 93", [0, 93, 0]);
    among("spelt example: list 25, block 2, room 96", [0, 96, 0]);
    among("small letters: list 25, block 2", [0, 93, 0]);
    among("8 before 6", [8, 0, 0]);
    among("empty list: list 0, block 1, room 16", [0, 16, 0]);
    among("equal once folded: ", [6, 1, 0]);
    among("equal once folded, later: ", [6, 3, 0]);
    among("equal in one letter: ", [6, 1, 0]);
    among("rising as bytes alone: ", [6, 1, 0]);
    among("rising as symbols alone: ", [0, 66, 0]);
    among("Z before 91: ", [6, 1, 0]);
    among("91 before A: ", [0, 60, 0]);
    among("200 bytes, last in the other case: ", [6, 1, 0]);
    among("6 before a later 5", [6, 1, 0]);
    among("5 before a later 6", [5, 1, 0]);
    among("cut short, and equal", [5, 1, 0]);
    among("2,000 names", [0, 30_236, 0]);
    among("2,001 names", [7, 2000, 0]);
    among("book of 65,535", [0, 65_535, 0]);
    among("book of 65,536", [9, 0, 0]);
}

#[test]
fn of_all_pairs_around_the_letters_those_are_books_that_rise_once_folded() {
    let outcomes = outcomes(&folded::BUILD);
    let pairs = outcomes.iter().filter(|(purpose, _)| {
        let start = "around the letters: list 4";
        purpose.starts_with(start)
    });
    let taken = pairs.clone().filter(|(_, answer)| answer[0] == 0).count();
    // Of the 64 pairs, A and a are one letter, and so are Z and z: 6 letters, of
    // which 2 can be had in two spellings.
    assert_eq!((pairs.count(), taken), (64, 26));
}

#[test]
fn the_list_with_every_block_size_gives_64_different_books() {
    let cases = building::SET.cases().into_iter();
    let stops = cases.filter(|case| case.purpose().starts_with("seventy stops"));
    let mut outcomes: Vec<String> = stops.map(|case| case.outcome()).collect();
    outcomes.sort();
    outcomes.dedup();
    assert_eq!(outcomes.len(), 64);
    assert_eq!(vectors::lists::stops().len(), 70);
}
