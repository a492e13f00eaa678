//! The set of `book_batch`: its file read back by a reader of its own, and what
//! must be among its cases.

mod common;

use common::hold_nearest;
use model::{book_batch, book_check, open, Answer, Row};
use std::collections::{BTreeMap, BTreeSet};
use vectors::batching::{self, AskBatch};
use vectors::checksum::checksum_of;
use vectors::columns;
use vectors::folded;
use vectors::sets::{Files, Set};

/// A case as it stands in the file.
struct Asked<'file> {
    book: &'file [u8],
    questions: &'file [u8],
    rows: Vec<Row>,
    places: usize,
}

/// The number of so many bytes at the front of the file, low byte first; the
/// file goes on behind it.
fn take_number(file: &mut &[u8], bytes: usize) -> usize {
    take(file, bytes)
        .iter()
        .rev()
        .fold(0, |number, &byte| 256 * number + usize::from(byte))
}

/// So many bytes from the front of the file, which goes on behind them.
fn take<'file>(file: &mut &'file [u8], bytes: usize) -> &'file [u8] {
    let (front, rest) = file.split_at(bytes);
    *file = rest;
    front
}

/// Reads the file as its description says, and asserts that it ends with a
/// case.
fn read_file(mut file: &[u8]) -> Vec<Asked<'_>> {
    let mut cases = Vec::new();
    let mut book: &[u8] = &[];
    while !file.is_empty() {
        let [length, buffer, rows, places] = [(); 4].map(|()| take_number(&mut file, 4));
        if length > 0 {
            book = take(&mut file, length);
        }
        let questions = take(&mut file, buffer);
        let rows = (0..rows).map(|_| {
            let [kind, start, length] = [(); 3].map(|()| take_number(&mut file, 8));
            Row {
                kind,
                start,
                length,
            }
        });
        cases.push(Asked {
            book,
            questions,
            rows: rows.collect(),
            places,
        });
    }
    cases
}

/// What the batch answers, and all 65 answer rows afterwards.
fn ask(case: &Asked) -> (Answer, Vec<Answer>) {
    let mut rows: Vec<Answer> = (0..65).map(unset).collect();
    let lent = &mut rows[..case.places];
    let answer = book_batch(case.book, case.questions, &case.rows, lent);
    (answer, rows)
}

/// Answer row number so and so before the call.
fn unset(number: usize) -> Answer {
    Answer {
        code: 100 + number,
        first: 200 + number,
        second: 300 + number,
    }
}

/// An answer's three numbers.
fn numbers(answer: &Answer) -> [usize; 3] {
    [answer.code, answer.first, answer.second]
}

/// What is printed behind the number of a case.
fn outcome(answer: &Answer, rows: &[Answer]) -> String {
    let [code, first, second] = numbers(answer);
    let (a, b) = checksum_of(rows.iter().flat_map(numbers).map(|number| number as u64));
    format!("{code} {first} {second} {a} {b}")
}

/// The outcomes of the cases with this purpose.
fn outcomes(purpose: &str) -> Vec<String> {
    let cases = batching::SET.cases().into_iter();
    cases
        .filter(|case| case.purpose() == purpose)
        .map(|case| case.outcome())
        .collect()
}

/// What is printed for an accepted batch with these answer rows.
fn accepted(rows: &[[usize; 3]]) -> String {
    let answer = Answer {
        code: 0,
        first: rows.len(),
        second: 0,
    };
    let given = rows.iter().map(|&[code, first, second]| Answer {
        code,
        first,
        second,
    });
    let rows: Vec<Answer> = given.chain((rows.len()..65).map(unset)).collect();
    outcome(&answer, &rows)
}

/// What is printed for a batch that is refused as a whole.
fn refused(code: usize) -> String {
    let answer = Answer {
        code,
        ..Answer::default()
    };
    outcome(&answer, &(0..65).map(unset).collect::<Vec<_>>())
}

#[test]
fn a_program_that_follows_the_description_prints_the_text() {
    for set in [&batching::SET, &folded::BATCH, &columns::BATCH] {
        let file = set.case_file();
        let mut text = String::new();
        for (number, case) in read_file(&file).iter().enumerate() {
            let (answer, rows) = ask(case);
            text.push_str(&format!("{number} {}\n", outcome(&answer, &rows)));
        }
        assert_eq!(text, set.expected());
    }
}

#[test]
fn the_batches_are_small_enough() {
    for (set, most) in [
        (&batching::SET, 800),
        (&folded::BATCH, 60),
        (&columns::BATCH, 250),
    ] {
        let file = set.case_file();
        let cases = read_file(&file);
        assert!(cases.len() <= most, "{}", cases.len());
        assert!(cases
            .iter()
            .all(|case| case.rows.len() <= 65 && case.places <= 65));
    }
}

#[test]
fn every_refusal_of_a_batch_and_of_a_row_is_among_the_cases() {
    let file = batching::SET.case_file();
    let mut calls = BTreeMap::new();
    let mut rows = BTreeMap::new();
    for case in read_file(&file) {
        let (answer, answers) = ask(&case);
        *calls.entry(answer.code).or_insert(0) += 1;
        if answer.code == 0 {
            for (row, answer) in case.rows.iter().zip(answers) {
                let kind = row.kind.min(6);
                *rows.entry((answer.code, kind)).or_insert(0) += 1;
            }
        }
    }
    assert_eq!(calls.keys().copied().collect::<Vec<_>>(), [0, 2, 12]);
    assert!(calls.values().all(|&count| count >= 50), "{calls:?}");
    let seen: BTreeSet<(usize, usize)> = rows.keys().copied().collect();
    let kinds = 1..=5;
    let mut expected: BTreeSet<(usize, usize)> = kinds
        .flat_map(|kind| [(0, kind), (1, kind), (11, kind)])
        .collect();
    expected.extend([(10, 4), (11, 0), (11, 6)]);
    assert_eq!(seen, expected);
    assert!(rows.values().all(|&count| count >= 20), "{rows:?}");
}

#[test]
fn the_twelve_rows_of_document_01_are_one_batch() {
    let mut rows = [
        [0, 1, 1],
        [0, 0, 0],
        [0, 0, 0],
        [0, 2, 0],
        [0, 3, 0],
        [0, 0, 3],
        [0, 2, 1],
        [0, 3, 0],
        [0, 0, 2],
        [0, 1, 2],
        [0, 0, 0],
        [0, 0, 1],
    ];
    let in_order = accepted(&rows);
    let mut expected: Vec<String> = rows.iter().map(|&row| accepted(&[row])).collect();
    rows.reverse();
    expected.splice(..0, [in_order, accepted(&rows)]);
    for book in [93, 88] {
        let purpose = |rows: usize| {
            format!("worked example: book {book}, buffer 44, rows {rows}, places {rows}")
        };
        let found = [outcomes(&purpose(12)), outcomes(&purpose(1))].concat();
        assert_eq!(found, expected);
    }
}

#[test]
fn the_edges_of_document_01_are_among_the_cases() {
    for (purpose, expected) in [
        (
            "empty input: book 0, buffer 44, rows 0, places 0",
            refused(2),
        ),
        (
            "empty input: book 0, buffer 44, rows 64, places 64",
            refused(2),
        ),
        (
            "empty input: book 0, buffer 44, rows 65, places 65",
            refused(12),
        ),
        (
            "empty input: book 0, buffer 0, rows 1, places 0",
            refused(12),
        ),
        (
            "number of rows: book 93, buffer 44, rows 0, places 0",
            accepted(&[]),
        ),
        (
            "number of rows: book 93, buffer 44, rows 65, places 65",
            refused(12),
        ),
        (
            "unequal numbers: book 93, buffer 44, rows 64, places 65",
            refused(12),
        ),
        (
            "unequal numbers: book 93, buffer 44, rows 0, places 1",
            refused(12),
        ),
        (
            "unequal numbers, no book: book 92, buffer 44, rows 1, places 2",
            refused(12),
        ),
        (
            "unequal numbers, no names: book 16, buffer 0, rows 3, places 4",
            refused(12),
        ),
        (
            "no names: book 16, buffer 3, rows 5, places 5",
            accepted(&[[0, 0, 0], [0, 0, 0], [0, 0, 0], [10, 0, 0], [0, 0, 0]]),
        ),
        (
            "2,001 names: book 30243, buffer 0, rows 0, places 0",
            refused(2),
        ),
        (
            "same rows: book 93, buffer 6, rows 64, places 64",
            accepted(&[[0, 1, 1]; 64]),
        ),
    ] {
        let found = outcomes(purpose);
        assert_eq!(found.first(), Some(&expected), "{purpose}");
    }
    let one_row_each = outcomes("kinds: book 93, buffer 3, rows 1, places 1");
    let answered = [[0, 0, 1], [0, 0, 0], [0, 0, 3], [0, 0, 3], [0, 13, 0]];
    let mut expected = answered.to_vec();
    expected.resize(16, [11, 0, 0]);
    let expected: Vec<String> = expected.iter().map(|&row| accepted(&[row])).collect();
    assert_eq!(one_row_each, expected);
}

/// A row of which only the answer's code is looked at.
struct Edge {
    row: [usize; 3],
    buffer: usize,
    code: usize,
}

#[test]
fn the_edges_of_a_row_are_among_the_cases() {
    let file = batching::SET.case_file();
    let cases = read_file(&file);
    let max = usize::MAX;
    for (names, buffer, row, code) in [
        // up to the buffer's end, one byte past it; at its end, behind it
        (3, 6, [1, 0, 6], 0),
        (3, 6, [1, 0, 7], 11),
        (3, 6, [1, 3, 3], 0),
        (3, 6, [1, 3, 4], 11),
        (3, 6, [3, 6, 0], 0),
        (3, 6, [3, 7, 0], 11),
        (3, 0, [3, 0, 0], 0),
        (3, 0, [3, 1, 0], 11),
        // sums that wrap to 0 and more
        (3, 6, [3, max, 1], 11),
        (3, 6, [3, max, 2], 11),
        (3, 6, [3, 4, max], 11),
        (3, 6, [3, max, max], 11),
        // 200 bytes and 201; 11 before 1
        (3, 460, [4, 260, 200], 0),
        (3, 460, [4, 259, 201], 1),
        (3, 460, [4, 260, 201], 11),
        (3, 460, [0, 0, 201], 11),
        (3, 460, [5, 0, 201], 1),
        (3, 460, [6, 0, 201], 11),
        // no names: only nearest gives 10, and 1 and 11 come before it
        (0, 460, [1, 260, 200], 0),
        (0, 460, [2, 260, 200], 0),
        (0, 460, [3, 260, 200], 0),
        (0, 460, [4, 260, 200], 10),
        (0, 460, [4, 259, 201], 1),
        (0, 460, [4, 260, 201], 11),
        (0, 460, [5, 260, 200], 0),
        (0, 460, [6, 0, 0], 11),
    ] {
        let edge = Edge { row, buffer, code };
        let found = cases.iter().any(|case| has_edge(case, names, &edge));
        assert!(found, "names {names}, buffer {buffer}, {row:?}");
    }
}

/// Whether the case asks this row of a book of so many names, and the row gets
/// this code.
fn has_edge(case: &Asked, names: usize, edge: &Edge) -> bool {
    let rows = case.rows.iter();
    let at = rows
        .map(|row| [row.kind, row.start, row.length])
        .position(|row| row == edge.row);
    let fits = case.questions.len() == edge.buffer && book_check(case.book).first == names;
    match at {
        Some(at) if fits => ask(case).1[at].code == edge.code,
        _ => false,
    }
}

#[test]
fn other_bytes_outside_the_spans_change_no_line() {
    for (buffer, count) in [(57, 9), (109, 9)] {
        let purpose = format!("other bytes outside: book 93, buffer {buffer}, rows 12, places 12");
        let found = outcomes(&purpose);
        assert_eq!(found.len(), count);
        assert!(found.iter().all(|outcome| *outcome == found[0]));
    }
}

#[test]
fn nearest_lights_no_half_letter_in_any_row_and_less_than_is_shared_in_many() {
    assert!(held_nearest(&batching::SET) > 140);
    assert!(held_nearest(&folded::BATCH) > 5);
}

/// Holds nearest's numbers to the names in every row of a set. Gives in how many
/// less is lit than is shared.
fn held_nearest(set: &Set<AskBatch>) -> usize {
    let file = set.case_file();
    let mut less = 0;
    for case in read_file(&file) {
        let (answer, answers) = ask(&case);
        if answer.code != 0 {
            continue;
        }
        let (kind, _, names) = open(case.book).expect("an accepted book");
        for (row, answer) in case.rows.iter().zip(answers) {
            if row.kind == 4 && answer.code == 0 {
                let question = &case.questions[row.start..row.start + row.length];
                let (position, number) = (answer.first, answer.second);
                less += usize::from(hold_nearest(kind, &names, question, position, number));
            }
        }
    }
    less
}

#[test]
fn letters_of_several_bytes_are_among_the_rows() {
    // Each beginning of Bègles, Béziers and Bézu, also those that end inside a letter.
    let beginnings = [
        (0, 1..=7),
        (0, 1..=2),
        (1, 3..=8),
        (0, 1..=2),
        (1, 3..=4),
        (2, 5..=5),
    ];
    let rows = beginnings
        .into_iter()
        .flat_map(|(position, lengths)| lengths.map(move |length| [0, position, length]));
    let rows: Vec<[usize; 3]> = rows.collect();
    let purpose = "è and é: book 104, buffer 20, rows 20, places 20";
    assert_eq!(outcomes(purpose), [accepted(&rows)]);
}

#[test]
fn refused_rows_stand_between_good_ones() {
    let file = batching::SET.case_file();
    let between = read_file(&file)
        .iter()
        .filter(|case| {
            let (answer, rows) = ask(case);
            let codes: Vec<usize> = rows[..answer.first].iter().map(|row| row.code).collect();
            codes
                .windows(3)
                .any(|three| three[0] == 0 && three[1] != 0 && three[2] == 0)
        })
        .count();
    assert!(between > 30, "{between}");
}
