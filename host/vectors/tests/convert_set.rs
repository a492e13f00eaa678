//! The set of the two conversions: its file read back by a reader of its own, and what
//! must be among its cases.

use model::{book_from_columns, book_to_columns};
use std::collections::BTreeMap;
use vectors::checksum::checksum;
use vectors::columns::{self, Convert};
use vectors::sets::{Case, Files};

/// A case as it stands in the file.
struct Read<'file> {
    book: &'file [u8],
    room: usize,
}

/// Reads the file as its description says, and asserts that it ends with a
/// case.
fn read_file(mut file: &[u8]) -> Vec<Read<'_>> {
    let mut cases = Vec::new();
    let mut book: &[u8] = &[];
    while !file.is_empty() {
        let number = |at: usize| u32::from_le_bytes(file[at..at + 4].try_into().unwrap()) as usize;
        let (length, room) = (number(0), number(4));
        let end = 8 + length;
        if length > 0 {
            book = &file[8..end];
        }
        cases.push(Read { book, room });
        file = &file[end..];
    }
    cases
}

/// The line that a program prints for this case.
fn line(number: usize, case: &Read) -> String {
    let mut line = number.to_string();
    for convert in [book_to_columns, book_from_columns] {
        let mut room: Vec<u8> = (0..case.room).map(|at| (at % 251) as u8).collect();
        let answer = convert(case.book, &mut room);
        let (mut a, mut b) = (1, 0);
        if answer.code == 0 {
            (a, b) = checksum(&room[..answer.first]);
        }
        let (whole_a, whole_b) = checksum(&room);
        let (code, first, second) = (answer.code, answer.first, answer.second);
        line.push_str(&format!(
            " {code} {first} {second} {a} {b} {whole_a} {whole_b}"
        ));
    }
    line + "\n"
}

/// The three numbers of each of both answers: to columns, then from columns.
fn answers(case: &Case<Convert>) -> [[usize; 3]; 2] {
    let outcome = case.outcome();
    let numbers: Vec<usize> = outcome
        .split(' ')
        .map(|word| word.parse().unwrap())
        .collect();
    assert_eq!(numbers.len(), 14, "{outcome}");
    [0, 7].map(|at| [numbers[at], numbers[at + 1], numbers[at + 2]])
}

#[test]
fn a_program_that_follows_the_description_prints_the_text() {
    let file = columns::CONVERT.case_file();
    let cases = read_file(&file);
    assert!(cases.len() <= 600, "{}", cases.len());
    let lines = cases.iter().enumerate();
    let text: String = lines.map(|(number, case)| line(number, case)).collect();
    assert_eq!(text, columns::CONVERT.expected());
}

#[test]
fn both_calls_accept_and_refuse_in_every_way_among_the_cases() {
    let mut counts = BTreeMap::new();
    for case in columns::CONVERT.cases() {
        let [to, from] = answers(&case).map(|[code, ..]| code);
        *counts.entry((to, from)).or_insert(0) += 1;
    }
    // No bytes are both a plain book and a column book.
    let codes: Vec<(usize, usize)> = counts.keys().copied().collect();
    let expected = [(0, 2), (2, 0), (2, 2), (2, 4), (4, 2)];
    assert_eq!(codes, expected, "{counts:?}");
    assert!(counts.values().all(|&count| count > 25), "{counts:?}");
}

#[test]
fn the_edges_of_a_conversion_are_among_the_cases() {
    let (no, short) = ([2, 0, 0], [4, 0, 0]);
    let cases = columns::CONVERT.cases();
    for (purpose, expected) in [
        ("empty input: book 0, room 0", [no, no]),
        (
            "worked example, k 2, Plain: book 93, room 93",
            [[0, 93, 0], no],
        ),
        ("worked example, k 2, Plain: book 93, room 92", [short, no]),
        ("worked example, k 2, Plain: book 93, room 0", [short, no]),
        (
            "worked example, k 4, Columns: book 88, room 88",
            [no, [0, 88, 0]],
        ),
        (
            "worked example, k 4, Columns: book 88, room 87",
            [no, short],
        ),
        ("no names, k 64, Plain: book 16, room 16", [[0, 16, 0], no]),
        ("no names, k 64, Columns: book 16, room 15", [no, short]),
        ("one name, k 2, Columns: book 35, room 38", [no, [0, 35, 0]]),
        // 2 before 4, also for a folded book
        ("folded book: book 93, room 93", [no, no]),
        ("folded book: book 93, room 0", [no, no]),
        ("folded book: book 16, room 16", [no, no]),
        (
            "worked example, Plain marked as Columns: book 93, room 93",
            [no, no],
        ),
        (
            "worked example, Columns marked as Plain: book 93, room 92",
            [no, no],
        ),
        (
            "one name, Folded marked as Columns: book 35, room 35",
            [no, [0, 35, 0]],
        ),
        (
            "Columns, node 3, width one more: book 93, room 99",
            [no, no],
        ),
        ("Plain, node 0, nodes one less: book 93, room 99", [no, no]),
    ] {
        let found = cases.iter().find(|case| case.purpose() == purpose);
        let found = found.unwrap_or_else(|| panic!("no case for {purpose}"));
        assert_eq!(answers(found), expected, "{purpose}");
    }
}
