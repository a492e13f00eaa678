//! The set of `book_check`: its file read back by a reader of its own, and what
//! must be among its cases.

use vectors::checking::{self, Check};
use vectors::columns;
use vectors::folded;
use vectors::sets::{Files, Set};

/// Reads the file as its description says, and asserts that it ends with a
/// case.
fn read_file(mut file: &[u8]) -> Vec<&[u8]> {
    let mut books = Vec::new();
    while !file.is_empty() {
        let length = u32::from_le_bytes(file[..4].try_into().unwrap());
        let end = 4 + length as usize;
        books.push(&file[4..end]);
        file = &file[end..];
    }
    books
}

#[test]
fn a_program_that_follows_the_description_prints_the_text() {
    for set in [&checking::SET, &folded::CHECK, &columns::CHECK] {
        let file = set.case_file();
        let mut text = String::new();
        for (number, book) in read_file(&file).into_iter().enumerate() {
            let answer = model::book_check(book);
            let (code, first, second) = (answer.code, answer.first, answer.second);
            text.push_str(&format!("{number} {code} {first} {second}\n"));
        }
        assert_eq!(text, set.expected());
    }
}

#[test]
fn the_cases_are_not_too_many() {
    for (set, most) in [
        (&checking::SET, 1600),
        (&folded::CHECK, 900),
        (&columns::CHECK, 1400),
    ] {
        let cases = set.cases().len();
        assert!(cases <= most, "{cases}");
    }
}

/// Asserts that the set has a case for each purpose, with this answer.
fn assert_among(set: &Set<Check>, expected: &[(&str, &str)]) {
    let cases = set.cases();
    for (purpose, answer) in expected {
        let mut cases = cases.iter();
        let found = cases.find(|case| case.purpose().starts_with(purpose));
        let found = found.unwrap_or_else(|| panic!("no case for {purpose}"));
        assert_eq!(found.outcome(), *answer, "{purpose}");
    }
}

#[test]
fn the_edges_of_document_01_are_among_the_cases() {
    let expected = [
        ("worked example, k 2: book 93", "0 3 2"),
        ("worked example, k 4: book 88", "0 3 4"),
        ("no names, k 0: book 16", "2 0 0"),
        ("no names, k 1: book 16", "0 0 1"),
        ("no names, k 64: book 16", "0 0 64"),
        ("no names, k 65: book 16", "2 0 0"),
        ("one name of 200 bytes, k 2: ", "0 1 2"),
        ("one name of 201 bytes, k 2: ", "2 0 0"),
        ("a second name of 201, k 2: ", "2 0 0"),
        ("block size, k 64: ", "0 70 64"),
        ("block size, k 65: ", "2 0 0"),
        ("2,000 names, ", "0 2000 64"),
        ("2,001 names, ", "2 0 0"),
        ("book of 65,535, k 1: book 65535", "0 1670 1"),
        ("book of 65,536, k 1: book 65536", "2 0 0"),
        ("65,536 bytes, then a book: book 65624", "2 0 0"),
        ("equal names, k 1: ", "2 0 0"),
        ("longest name, k 2: ", "0 5 2"),
        ("93, node 0, width one less: ", "2 0 0"),
        ("93, node 0, width one more: ", "2 0 0"),
        ("93, node 0, width is its first child's: ", "2 0 0"),
        ("93, node 1, width one less: ", "2 0 0"),
        ("93, node 1, width one more: ", "2 0 0"),
        ("93, node 1, width is its depth: ", "2 0 0"),
        ("small tree, node 1, width is its first child's: ", "2 0 0"),
        (
            "longest in the middle, node 2, width is its last name's: ",
            "2 0 0",
        ),
        ("93, no widths, old mark: book 85", "2 0 0"),
        ("93, no widths, new mark: book 85", "2 0 0"),
        ("93, old mark: book 93", "2 0 0"),
        ("mirror of 60, root, width one less: ", "2 0 0"),
        ("empty input: book 0", "2 0 0"),
    ];
    assert_among(&checking::SET, &expected);
}

#[test]
fn the_edges_of_folding_are_among_the_cases() {
    let expected = [
        ("MAR, marina, k 2: book 67", "0 2 2"),
        ("spelt example, k 4: book 93", "0 3 4"),
        ("spelt example, k 65: ", "2 0 0"),
        ("no names, k 64: book 16", "0 0 64"),
        ("small letters, k 2: book 93", "0 3 2"),
        ("all around the letters, k 5: ", "0 42 5"),
        ("equal once folded, k 1: ", "2 0 0"),
        ("equal in one letter, k 2: ", "2 0 0"),
        ("rising as bytes alone, k 2: ", "2 0 0"),
        ("rising as symbols alone, k 2: ", "0 2 2"),
        ("rising as symbols alone, plain layout: ", "2 0 0"),
        ("rising as symbols alone, plain nodes: ", "2 0 0"),
        ("Plain marked as the other, no names: ", "0 0 2"),
        ("Plain marked as the other, one name: ", "0 1 2"),
        ("Plain marked as the other, small letters: ", "0 3 2"),
        ("Folded marked as the other, small letters: ", "0 3 2"),
        ("Plain marked as the other, parting in small", "0 2 2"),
        ("Folded marked as the other, parting in small", "0 2 2"),
        ("Plain marked as the other, parting in capit", "2 0 0"),
        ("Folded marked as the other, parting in capit", "2 0 0"),
        ("Plain marked as the other, another depth", "2 0 0"),
        ("Folded marked as the other, another depth", "2 0 0"),
        ("Plain marked as the other, another order", "2 0 0"),
        ("Folded marked as the other, another order", "2 0 0"),
        ("Plain marked as the other, equal once folded", "2 0 0"),
        ("Plain marked as the other, accents alone", "0 2 2"),
        ("chain by turns, k 64: ", "0 200 64"),
        ("mirror by turns, k 1: ", "0 200 1"),
        ("book of 65,535, k 16: book 65535", "0 1300 16"),
        ("67, byte 2 in the other case: ", "2 0 0"),
        ("67, byte 3 in the other case: ", "0 2 2"),
        ("67, byte 7 in the other case: ", "2 0 0"),
        ("67, byte 10 in the other case: ", "0 2 2"),
        ("93 by 4, entry 2 with count 0: ", "2 0 0"),
        ("capitals, node 2 of the plain book: ", "2 0 0"),
        ("mirror by turns, root, width one less: ", "2 0 0"),
    ];
    assert_among(&folded::CHECK, &expected);
}

#[test]
fn the_edges_of_columns_are_among_the_cases() {
    let expected = [
        ("worked example, k 2: book 93", "0 3 2"),
        ("worked example, k 4: book 88", "0 3 4"),
        ("worked example, k 65: ", "2 0 0"),
        ("no names, k 0: book 16", "2 0 0"),
        ("no names, k 64: book 16", "0 0 64"),
        ("one name of 200 bytes, k 2: ", "0 1 2"),
        ("one name of 201 bytes, k 2: ", "2 0 0"),
        ("a second name of 201, k 1: ", "2 0 0"),
        ("block size, k 64: ", "0 66 64"),
        ("block size, k 65: ", "2 0 0"),
        ("equal names, k 1: ", "2 0 0"),
        ("two children each, k 5: ", "0 64 5"),
        ("cut, the last 4 bytes: book 4", "2 0 0"),
        ("twice: book 186", "2 0 0"),
        ("no names, byte 2 one more: book 16", "0 0 3"),
        ("no names, byte 8 one more: book 16", "2 0 0"),
        // the mark's third byte tells the kind: C one less is B, one more is D
        ("no names, byte 14 one less: book 16", "2 0 0"),
        ("93, byte 91 one more: book 93", "2 0 0"),
        ("other mark, no names, Columns marked as Plain: ", "0 0 2"),
        ("other mark, one name, Columns marked as Folded: ", "0 1 2"),
        ("other mark, one name, Plain marked as Columns: ", "0 1 2"),
        (
            "other mark, two names, Columns marked as Columns: ",
            "0 2 2",
        ),
        ("other mark, two names, Plain marked as Columns: ", "2 0 0"),
        ("other mark, two names, Columns marked as Plain: ", "2 0 0"),
        ("other mark, two names, Columns marked as Folded: ", "2 0 0"),
        ("columns swapped: symbol, depth: ", "2 0 0"),
        ("columns swapped: nodes, width: ", "2 0 0"),
        ("column from behind: width: ", "2 0 0"),
        ("node by node: book 93", "2 0 0"),
        ("93, node 3, width one less: ", "2 0 0"),
        ("93, no widths, old mark: book 85", "2 0 0"),
        ("93, no widths, new mark: book 85", "2 0 0"),
        ("93, old mark: book 93", "2 0 0"),
        ("tree, node 1, width is its first child's: ", "2 0 0"),
        (
            "longest in the middle, node 2, width is its last name's: ",
            "2 0 0",
        ),
        ("mirror, root, width one less: ", "2 0 0"),
        ("40 children, last node, nodes one more: ", "2 0 0"),
    ];
    assert_among(&columns::CHECK, &expected);
}

#[test]
fn every_spoilt_piece_is_refused_but_for_letters_that_no_node_shows() {
    // A letter more or less behind a name moves the depth of its leaf; so of
    // the spoilt pieces only single letters, and k where it cuts no other
    // blocks, can make another sound book. Columns show what rows show.
    // Shapes, which are sound, tell their k.
    let spoilt = [
        "93, ",
        "88, ",
        "small tree, ",
        "tree, ",
        "longest in the middle, ",
    ];
    for set in [&checking::SET, &columns::CHECK] {
        let mut accepted = 0;
        for case in set.cases() {
            let purpose = case.purpose();
            let is_spoilt = spoilt.iter().any(|start| purpose.starts_with(start));
            if !is_spoilt || purpose.contains(", k ") {
                continue;
            }
            if case.outcome().starts_with('0') {
                assert!(purpose.contains(", byte "), "{purpose}");
                accepted += 1;
            }
        }
        // of the 93: na, et Square; of the 88: Mar, na, et Square and k; up and down
        assert_eq!(accepted, 2 * 11 + 2 * 14 + 2, "{}", set.name);
    }
}
