//! The set of `book_salvage`: its file read back by a reader of its own, and what
//! must be among its cases.

use model::{book_salvage, Kept};
use std::collections::BTreeSet;
use vectors::checksum::{checksum, checksum_of};
use vectors::salvaging::{self, LONGEST_ROOM, MOST_ROWS};
use vectors::sets::Files;
use vectors::wear::WAYS;

/// A case as it stands in the file.
struct Read<'file> {
    data: &'file [u8],
    room: usize,
    rows: usize,
}

/// Reads the file as its description says, and asserts that it ends with a
/// case.
fn read_file(mut file: &[u8]) -> Vec<Read<'_>> {
    let mut cases = Vec::new();
    while !file.is_empty() {
        let [length, room, rows] = [0, 4, 8].map(|at| number(&file[at..at + 4]));
        let (data, rest) = file[12..].split_at(length);
        cases.push(Read { data, room, rows });
        file = rest;
    }
    cases
}

/// The number in these four bytes, low byte first.
fn number(bytes: &[u8]) -> usize {
    u32::from_le_bytes(bytes.try_into().unwrap()) as usize
}

/// The line that a program prints for this case.
fn line(number: usize, case: &Read) -> String {
    let mut room: Vec<u8> = (0..case.room).map(|at| (at % 251) as u8).collect();
    let mut report: Vec<Kept> = (0..case.rows + 2).map(unset).collect();
    let answer = book_salvage(case.data, &mut room, &mut report[..case.rows]);
    let written = if answer.code == 0 { answer.first } else { 0 };
    let says = |what: usize| report.iter().filter(|row| row.kept == what).count();

    let mut line = vec![number, answer.code, answer.first, answer.second];
    line.extend(two(checksum(&room[..written])));
    line.extend(two(checksum(&room)));
    line.extend([says(1), says(0)]);
    let numbers = report.iter().flat_map(|row| [row.kept, row.names]);
    line.extend(two(checksum_of(numbers.map(|number| number as u64))));
    let line: Vec<String> = line.iter().map(usize::to_string).collect();
    line.join(" ") + "\n"
}

/// The report row of this number before the call.
fn unset(number: usize) -> Kept {
    Kept {
        kept: 10_000 + number,
        names: 20_000 + number,
    }
}

/// The two numbers of a checksum.
fn two((first, second): (u64, u64)) -> [usize; 2] {
    [first as usize, second as usize]
}

/// What is expected for a case.
struct Expected {
    purpose: String,
    answer: [usize; 3],
    kept: usize,
    dropped: usize,
}

/// What is expected for each case, with what the case is there for.
fn all_expected() -> Vec<Expected> {
    let cases = salvaging::SET.cases().into_iter();
    cases
        .map(|case| {
            let outcome = case.outcome();
            let numbers = outcome.split(' ').map(|word| word.parse().unwrap());
            let numbers: Vec<usize> = numbers.collect();
            assert_eq!(numbers.len(), 11, "{outcome}");
            Expected {
                purpose: case.purpose(),
                answer: numbers[..3].try_into().unwrap(),
                kept: numbers[7],
                dropped: numbers[8],
            }
        })
        .collect()
}

#[test]
fn a_program_that_follows_the_description_prints_the_text() {
    let file = salvaging::SET.case_file();
    let cases = read_file(&file);
    let lines = cases.iter().enumerate();
    let text: String = lines.map(|(number, case)| line(number, case)).collect();
    assert_eq!(text, salvaging::SET.expected());
}

#[test]
fn the_worn_books_rooms_and_reports_are_small_enough() {
    let file = salvaging::SET.case_file();
    assert!(file.len() < 200_000, "{}", file.len());
    let cases = read_file(&file);
    assert!((150..=300).contains(&cases.len()), "{}", cases.len());
    assert!(cases.iter().all(|case| case.room <= LONGEST_ROOM));
    assert!(cases.iter().all(|case| case.rows <= MOST_ROWS));
}

#[test]
fn every_refusal_is_among_the_cases_with_zeros_beside_it() {
    let mut codes = BTreeSet::new();
    for expected in all_expected() {
        let [code, first, second] = expected.answer;
        assert_eq!(second, 0, "{}", expected.purpose);
        assert!(code == 0 || first == 0, "{}", expected.purpose);
        codes.insert(code);
    }
    assert_eq!(codes, [0, 4, 12, 13].into());
}

#[test]
fn a_refused_call_reports_nothing() {
    for expected in all_expected() {
        let rows = expected.kept + expected.dropped;
        let refused = expected.answer[0] != 0;
        assert!(!refused || rows == 0, "{}", expected.purpose);
    }
}

#[test]
fn every_way_to_wear_is_among_the_cases() {
    for way in &WAYS {
        let cases = all_expected().into_iter();
        let count = cases.filter(|case| case.purpose.contains(way.how)).count();
        assert!(count >= 6, "{}: {count}", way.how);
    }
}

#[test]
fn blocks_are_kept_and_dropped_side_by_side() {
    let [mut all, mut some, mut none] = [0; 3];
    for expected in all_expected() {
        match (expected.kept, expected.dropped) {
            (0, 0) => (),
            (0, _) => none += 1,
            (_, 0) => all += 1,
            (_, _) => some += 1,
        }
    }
    let counts = [all, some, none];
    assert!(counts.iter().all(|&times| times >= 10), "{counts:?}");
}

#[test]
fn the_edges_of_document_02_are_among_the_cases() {
    let all = all_expected();
    for (purpose, answer, rows) in [
        ("no bytes: ", [13, 0, 0], [0, 0]),
        ("15 bytes: ", [13, 0, 0], [0, 0]),
        ("worked example, k 2: book 93, ", [0, 25, 0], [2, 0]),
        ("worked example, k 4: book 88, ", [0, 25, 0], [1, 0]),
        ("both kept: book 93, room 25, rows 2", [0, 25, 0], [2, 0]),
        ("both kept: book 93, room 24, rows 2", [4, 0, 0], [0, 0]),
        ("both kept: book 93, room 25, rows 1", [12, 0, 0], [0, 0]),
        ("both kept: book 93, room 25, rows 3", [12, 0, 0], [0, 0]),
        ("first dropped: book 93, room 14, ", [0, 14, 0], [1, 1]),
        ("first dropped: book 93, room 13, ", [4, 0, 0], [0, 0]),
        ("second dropped: book 93, room 11, ", [0, 11, 0], [1, 1]),
        ("both dropped: book 93, room 0, ", [0, 0, 0], [0, 2]),
        ("13, 12 and 4: ", [13, 0, 0], [0, 0]),
        ("12 and 4: ", [12, 0, 0], [0, 0]),
        ("no names, k 2: ", [0, 0, 0], [0, 0]),
        ("no names, k 0: ", [13, 0, 0], [0, 0]),
        ("no names, k 65: ", [13, 0, 0], [0, 0]),
        ("no names, a row: ", [12, 0, 0], [0, 0]),
        ("no names, entry bytes: ", [13, 0, 0], [0, 0]),
        ("no names, four nodes: ", [0, 0, 0], [0, 0]),
        ("three names, no entry bytes: ", [13, 0, 0], [0, 0]),
        ("first block, another letter: ", [0, 25, 0], [2, 0]),
        ("first block, above the second block: ", [0, 25, 0], [2, 0]),
        ("first block, first count 1: ", [0, 14, 0], [1, 1]),
        ("first block, count one less: ", [0, 14, 0], [1, 1]),
        ("first block, a byte left over: ", [0, 14, 0], [1, 1]),
        ("first block, an entry too many: ", [0, 14, 0], [1, 1]),
        ("second block, two names: ", [0, 11, 0], [1, 1]),
        ("second block, two names of four: ", [0, 29, 0], [2, 0]),
        ("second block, one name of four: ", [0, 11, 0], [1, 1]),
        ("second block, below the first block: ", [0, 25, 0], [2, 0]),
        ("falling names, k 1: ", [0, 52, 0], [26, 0]),
        ("falling names, k 2: ", [0, 0, 0], [0, 13]),
        ("small book, block 1 one later: ", [0, 2, 0], [1, 2]),
        ("first start 1: ", [13, 0, 0], [0, 0]),
        ("second start 0: ", [13, 0, 0], [0, 0]),
        ("second start 24: ", [0, 0, 0], [0, 2]),
        ("second start 25: ", [13, 0, 0], [0, 0]),
        ("starts [0, 3, 3]: ", [13, 0, 0], [0, 0]),
        ("length one more: ", [13, 0, 0], [0, 0]),
        ("node table one less: ", [13, 0, 0], [0, 0]),
        ("old mark: ", [13, 0, 0], [0, 0]),
        ("folded mark: ", [13, 0, 0], [0, 0]),
        ("16,384 nodes more: ", [13, 0, 0], [0, 0]),
        ("nodes all 255: ", [0, 25, 0], [2, 0]),
        ("6 nodes: ", [0, 25, 0], [2, 0]),
        ("a name of 200: ", [0, 201, 0], [1, 0]),
        ("a name of 201: ", [0, 0, 0], [0, 1]),
        ("a second name of 200: ", [0, 352, 0], [1, 0]),
        ("a second name of 201: ", [0, 0, 0], [0, 1]),
        ("block size 64: ", [0, 2555, 0], [2, 0]),
        ("block size 65: ", [13, 0, 0], [0, 0]),
        ("2000 names, k 1: ", [0, 6000, 0], [2000, 0]),
        ("2000 names, k 64: ", [0, 6000, 0], [32, 0]),
        ("2001 names, k 64: ", [13, 0, 0], [0, 0]),
        ("most bytes: ", [0, 402_000, 0], [32, 0]),
    ] {
        let found = all.iter().find(|case| case.purpose.starts_with(purpose));
        let found = found.unwrap_or_else(|| panic!("no case for {purpose}"));
        let outcome = (found.answer, [found.kept, found.dropped]);
        assert_eq!(outcome, (answer, rows), "{purpose}");
    }
}
