//! The set of the calls of two lists: its file read back by a reader of its own,
//! and what must be among its cases.

use model::{list_head, list_judge, list_merge, list_step, Answer};
use std::collections::BTreeSet;
use vectors::checksum::checksum;
use vectors::merging::{self, LONGEST_ROOM};
use vectors::sets::Files;

/// A case as it stands in the file.
struct Read<'file> {
    first: &'file [u8],
    second: &'file [u8],
    passed_first: usize,
    passed_second: usize,
    room: usize,
}

/// Reads the file as its description says, and asserts that it ends with a
/// case.
fn read_file(file: &[u8]) -> Vec<Read<'_>> {
    let mut cases = Vec::new();
    let mut at = 0;
    while at < file.len() {
        let lists = at + 28;
        let between = lists + number(file, at, 4);
        let end = between + number(file, at + 24, 4);
        cases.push(Read {
            first: &file[lists..between],
            second: &file[between..end],
            passed_first: number(file, at + 8, 8),
            passed_second: number(file, at + 16, 8),
            room: number(file, at + 4, 4),
        });
        at = end;
    }
    cases
}

/// The number in so many bytes from this one on, low byte first.
fn number(file: &[u8], from: usize, bytes: usize) -> usize {
    let bytes = file[from..from + bytes].iter().rev();
    bytes.fold(0, |number, &byte| 256 * number + usize::from(byte))
}

/// The line that a program prints for this case.
fn line(number: usize, case: &Read) -> String {
    let (first, second) = (case.first, case.second);
    let (passed_first, passed_second) = (case.passed_first, case.passed_second);
    let mut room: Vec<u8> = (0..case.room).map(|at| (at % 251) as u8).collect();
    let merged = list_merge(first, second, &mut room);
    let judged = list_judge(first, second);
    let head = list_head(first, second, passed_first, passed_second);
    let part = list_step(first, second, passed_first, passed_second);
    let written = if merged.code == 0 { merged.first } else { 0 };

    let mut line = vec![number];
    line.extend(three(merged));
    line.extend(two(&room[..written]));
    line.extend(two(&room));
    line.extend(three(judged));
    line.extend([head.list, head.start, head.length]);
    line.extend(two(part));
    let line: Vec<String> = line.iter().map(usize::to_string).collect();
    line.join(" ") + "\n"
}

/// The three numbers of an answer.
fn three(answer: Answer) -> [usize; 3] {
    [answer.code, answer.first, answer.second]
}

/// The two numbers of the checksum of these bytes.
fn two(bytes: &[u8]) -> [usize; 2] {
    let (first, second) = checksum(bytes);
    [first as usize, second as usize]
}

/// What is expected for a case.
struct Expected {
    purpose: String,
    merged: [usize; 3],
    judged: [usize; 3],
    head: [usize; 3],
}

/// What is expected for each case, with what the case is there for.
fn all_expected() -> Vec<Expected> {
    let cases = merging::SET.cases().into_iter();
    cases
        .map(|case| {
            let outcome = case.outcome();
            let numbers = outcome.split(' ').map(|word| word.parse().unwrap());
            let numbers: Vec<usize> = numbers.collect();
            assert_eq!(numbers.len(), 15, "{outcome}");
            let three = |from: usize| numbers[from..from + 3].try_into().unwrap();
            Expected {
                purpose: case.purpose(),
                merged: three(0),
                judged: three(7),
                head: three(10),
            }
        })
        .collect()
}

#[test]
fn a_program_that_follows_the_description_prints_the_text() {
    let file = merging::SET.case_file();
    let cases = read_file(&file);
    let lines = cases.iter().enumerate();
    let text: String = lines.map(|(number, case)| line(number, case)).collect();
    assert_eq!(text, merging::SET.expected());
}

#[test]
fn the_lists_and_rooms_are_small_enough() {
    let file = merging::SET.case_file();
    assert!(file.len() < 300_000, "{}", file.len());
    let cases = read_file(&file);
    assert!(cases.len() <= 600, "{}", cases.len());
    assert!(cases.iter().all(|case| case.room <= LONGEST_ROOM));
}

#[test]
fn every_refusal_of_each_list_is_among_the_cases() {
    let (mut merged, mut judged) = (BTreeSet::new(), BTreeSet::new());
    for expected in all_expected() {
        let [code, _, list] = expected.merged;
        merged.insert((code, list));
        let [code, _, list] = expected.judged;
        judged.insert((code, list));
    }
    let of_lists = [(5, 1), (5, 2), (6, 1), (6, 2)];
    let all = [(0, 0), (4, 0), (7, 0)].into_iter().chain(of_lists);
    assert_eq!(merged, all.collect());
    assert_eq!(judged, [(0, 0)].into_iter().chain(of_lists).collect());
}

#[test]
fn a_merge_and_the_judging_refuse_the_same_records() {
    for expected in all_expected() {
        let own = [0, 4, 7].contains(&expected.merged[0]);
        let same = if own { [0, 0, 0] } else { expected.merged };
        assert_eq!(expected.judged, same, "{}", expected.purpose);
    }
}

#[test]
fn heads_of_both_lists_are_shown_and_refused_lists_show_none() {
    let mut shown = [0; 3];
    for Expected {
        purpose,
        judged,
        head,
        ..
    } in all_expected()
    {
        match head {
            [1, 0, 0] => shown[0] += 1,
            [list, _, length] => {
                assert!(judged[0] == 0 && length > 0, "{purpose}");
                shown[list] += 1;
            }
        }
    }
    assert!(shown.iter().all(|&times| times > 80), "{shown:?}");
}

/// Asserts what is expected for the case with this purpose: of the merge, and
/// of the head.
fn assert_among(all: &[Expected], purpose: &str, merged: [usize; 3], head: [usize; 3]) {
    let mut all = all.iter();
    let found = all.find(|expected| expected.purpose.starts_with(purpose));
    let found = found.unwrap_or_else(|| panic!("no case for {purpose}"));
    assert_eq!((found.merged, found.head), (merged, head), "{purpose}");
}

#[test]
fn the_edges_of_document_02_are_among_the_cases() {
    let all = all_expected();
    let among = |purpose: &str, merged, head| assert_among(&all, purpose, merged, head);
    let lists = "first 25, second 20";
    let two = |rest: &str| format!("two operators: {lists}, passed 0 and 0, room {rest}");
    among(&two("37"), [4, 0, 0], [2, 1, 7]);
    among(&two("38"), [0, 38, 0], [2, 1, 7]);
    let step = |rest: &str| format!("every step: {lists}, passed {rest}");
    among(&step("1 and 1,"), [0, 38, 0], [1, 5, 6]);
    among(&step("2 and 1,"), [0, 38, 0], [2, 9, 6]);
    among(&step("3 and 2,"), [0, 38, 0], [2, 16, 4]);
    among(&step("0 and 3,"), [0, 38, 0], [1, 1, 3]);
    among(&step("3 and 3,"), [0, 38, 0], [1, 0, 0]);
    let high = format!("high count: {lists}, passed {} and 2,", u64::MAX);
    among(&high, [0, 38, 0], [2, 16, 4]);
    among("two empty lists: ", [0, 0, 0], [1, 0, 0]);
    among("200 bytes in both: ", [0, 201, 0], [1, 1, 200]);
    among("a name of 201 bytes: first 202, ", [5, 0, 1], [1, 0, 0]);
    among("a name of 201 bytes: first 201, ", [5, 0, 2], [1, 0, 0]);
    among("5 at 0, then 6 at 1, equal: ", [5, 0, 1], [1, 0, 0]);
    among("6 at 3, then 5 at 0: ", [6, 3, 1], [1, 0, 0]);
    among("sound, then 6 at 3: ", [6, 3, 2], [1, 0, 0]);
    among("67,335 bytes: ", [0, 67_335, 0], [1, 67_135, 200]);
}

#[test]
fn numbers_of_names_around_2000_are_among_the_cases() {
    let all = all_expected();
    let among = |purpose: &str, merged, head| assert_among(&all, purpose, merged, head);
    among("2,000 names, first: ", [0, 6000, 0], [1, 5998, 2]);
    among("2,000 names, second: ", [0, 6000, 0], [2, 5998, 2]);
    among("2,000 names in turn: ", [0, 6000, 0], [1, 2998, 2]);
    among("2,000 names, room short: ", [4, 0, 0], [2, 2998, 2]);
    among("2,000 names twice: ", [0, 6000, 0], [1, 5998, 2]);
    among("2,000 names, half twice: ", [0, 6000, 0], [1, 4498, 2]);
    among("2,001 names, first: ", [7, 2000, 0], [1, 6001, 2]);
    among("2,001 names, second: ", [7, 2000, 0], [2, 6001, 2]);
    among("2,001 names in turn: ", [7, 2000, 0], [1, 3001, 2]);
    among("2,000 names and one behind: ", [7, 2000, 0], [2, 1, 2]);
    among("one before 2,000 names: ", [7, 2000, 0], [1, 0, 0]);
    among("2,000 names, one moved: ", [7, 2000, 0], [1, 4, 2]);
    among("5 at 2,001, first: ", [5, 2001, 1], [1, 0, 0]);
    among("6 at 2,001, second: ", [6, 2001, 2], [1, 0, 0]);
    among("2,001 names, then 5: ", [5, 0, 2], [1, 0, 0]);
    among("2,001 names in turn, 6: ", [6, 1000, 2], [1, 0, 0]);
}
