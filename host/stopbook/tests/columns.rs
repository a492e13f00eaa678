//! Column books from end to end: built, converted both ways, checked, listed, asked,
//! drawn, and neither announced nor salvaged.

mod common;

use common::{Folder, Numbers, EXAMPLE, NO_NAMES};

/// The column book of document 01's example: symbols, depths, first names, numbers of
/// names, numbers of nodes and widths, each of four nodes.
const COLUMNS: &[u8] = b"\x00\x03Mar\x03\x03ina\x00\x0DMarket Square\
    \x00\x00\x0A\x00\
    \x00\x00\x00\x00\x6A\x00\x6C\x00\
    \x03\x00\x04\x00\x07\x00\x0E\x00\
    \x00\x00\x00\x00\x01\x00\x02\x00\
    \x03\x00\x01\x00\x01\x00\x01\x00\
    \x04\x00\x01\x00\x01\x00\x01\x00\
    \x0D\x00\x03\x00\x06\x00\x0D\x00\
    \x03\x00\x02\x00\x19\x00\x1D\x00\x04\x00\x5D\x00\x4E\x42\x43\x32";

/// A folder with the plain and the column book of document 01's example.
fn with_books() -> Folder {
    let folder = Folder::with("plain.book", EXAMPLE);
    folder.write("columns.book", COLUMNS);
    folder
}

#[test]
fn a_column_book_is_built_byte_for_byte() {
    let folder = Folder::with("m.txt", b"Market Square\nMar\nMarina\n");
    let ran = folder.run(&["build", "m.txt", "--columns", "--block", "2"]);
    assert_eq!((ran.status, ran.err.as_str()), (0, ""));
    let parts = "blocks of 2 names; 4 nodes, in columns; entries 25 bytes, tables 68 bytes\n";
    assert!(ran.out().contains(parts), "{}", ran.out());
    assert_eq!(folder.read("m.book"), COLUMNS);
}

#[test]
fn a_book_is_converted_both_ways_and_that_is_said() {
    let folder = with_books();
    let numbers = "3 names in blocks of 2, 4 nodes, 93 bytes\n";
    let ran = folder.run(&["convert", "plain.book", "-o", "c.book"]);
    let said = format!("c.book is the column book of the plain book plain.book: {numbers}");
    ran.assert(0, &said);
    assert_eq!(folder.read("c.book"), COLUMNS);
    let ran = folder.run(&["convert", "c.book", "--output=p.book"]);
    let said = format!("p.book is the plain book of the column book c.book: {numbers}");
    ran.assert(0, &said);
    assert_eq!(folder.read("p.book"), EXAMPLE);
}

#[test]
fn a_book_is_converted_from_standard_input_to_standard_output() {
    let folder = Folder::new();
    let ran = folder.run_with(&["convert", "-", "-o", "-"], EXAMPLE);
    assert_eq!((ran.status, &ran.bytes[..]), (0, COLUMNS));
    assert!(
        ran.err.contains("is the column book of the plain book"),
        "{}",
        ran.err
    );
}

#[test]
fn books_of_no_name_and_of_one_name_differ_in_their_mark() {
    for (text, options) in [("", &["--empty"][..]), ("Mar\n", &[])] {
        let folder = Folder::with("n.txt", text.as_bytes());
        let words = [&["build", "n.txt"], options].concat();
        assert_eq!(folder.run(&words).status, 0);
        let ran = folder.run(&["convert", "n.book", "-o", "c.book"]);
        assert_eq!(ran.status, 0);
        let mut expected = folder.read("n.book");
        let third = expected.len() - 2;
        expected[third] = b'C';
        assert_eq!(folder.read("c.book"), expected);
    }
    let folder = Folder::with("none.book", NO_NAMES);
    let ran = folder.run(&["convert", "none.book", "-o", "c.book"]);
    let said = "c.book is the column book of the plain book none.book: \
                0 names in blocks of 2, 0 nodes, 16 bytes\n";
    ran.assert(0, said);
}

#[test]
fn a_folded_book_is_not_converted_and_that_is_said() {
    let folder = Folder::with("n.txt", b"MAR\nmarina\n");
    assert_eq!(folder.run(&["build", "n.txt", "--fold"]).status, 0);
    folder.write("old", b"as it was");
    let ran = folder.run(&["convert", "n.book", "-o", "old"]);
    let why = "n.book is a folded book, and only plain books and column books can be converted";
    ran.assert_fails(1, &[why]);
    assert_eq!(folder.read("old"), b"as it was");
    let ran = folder.run(&["build", "n.txt", "--fold", "--columns"]);
    ran.assert_fails(2, &["give --fold or --columns, not both"]);
}

#[test]
fn bytes_that_are_no_book_are_not_converted() {
    let folder = Folder::with("plain.book", EXAMPLE);
    let (rows, columns) = ([EXAMPLE, b"NBC2"], [COLUMNS, b"NBK2"]);
    for [book, mark] in [rows, columns] {
        let end = book.len() - 4;
        folder.write("other.book", &[&book[..end], mark].concat());
        let ran = folder.run(&["convert", "other.book", "-o", "new.book"]);
        ran.assert_fails(1, &["other.book is no book: its parts do not fit together"]);
        assert!(!folder.has("new.book"));
    }
    let ran = folder.run(&["convert", "plain.book", "-o", "./plain.book"]);
    ran.assert_fails(2, &["plain.book is read and would be written over"]);
    assert_eq!(folder.read("plain.book"), EXAMPLE);
}

#[test]
fn a_check_says_the_kind_and_a_damaged_one_is_to_be_built_again() {
    let folder = with_books();
    let ran = folder.run(&["check", "columns.book"]);
    ran.assert(
        0,
        "columns.book is a column book: 3 names in blocks of 2, 4 nodes, 93 bytes\n",
    );
    let mut worn = COLUMNS.to_vec();
    worn[0] = 9;
    folder.write("worn.book", &worn);
    let why = "its parts do not fit together, so it was damaged; build it again from its names";
    let ran = folder.run(&["check", "worn.book"]);
    ran.assert(1, &format!("worn.book is no book: {why}\n"));
}

#[test]
fn a_column_book_is_neither_salvaged_nor_announced_and_that_is_said() {
    let folder = with_books();
    let ran = folder.run(&["salvage", "columns.book", "-o", "left.txt"]);
    let why = "columns.book cannot be salvaged: it is marked as a column book, \
               and only plain ones can be; build it again from its names";
    ran.assert_fails(1, &[why]);
    assert!(!folder.has("left.txt"));
    folder.write("clips.txt", b"301\n302\n303\n");
    let why = "columns.book is a column book, and the announcer takes plain and folded ones; \
               stopbook convert makes a plain book of a column book";
    for words in [
        &["clip", "columns.book", "clips.txt", "Mar"],
        &["route", "columns.book", "clips.txt", "0"],
    ] {
        folder.run(words).assert_fails(1, &[why]);
    }
}

#[test]
fn every_other_command_says_of_both_books_the_same() {
    let mut numbers = Numbers(10);
    let folder = Folder::new();
    for turn in 0..8 {
        let names = numbers.names(1 + 13 * turn);
        folder.write("n.txt", names.join("\n").as_bytes());
        for words in [
            &["build", "n.txt", "-o", "plain.book"][..],
            &["build", "n.txt", "-o", "columns.book", "--columns"],
            &["convert", "columns.book", "-o", "back.book"],
        ] {
            assert_eq!(folder.run(words).status, 0);
        }
        assert_eq!(folder.read("back.book"), folder.read("plain.book"));
        let questions: Vec<String> = names.iter().cloned().chain([numbers.word(4)]).collect();
        let lines: String = ["exact", "place", "range", "nearest", "width"]
            .iter()
            .flat_map(|kind| questions.iter().map(move |text| format!("{kind} {text}\n")))
            .collect();
        let commands: [&[&str]; 6] = [
            &["list", "BOOK", "--long"],
            &["ask", "BOOK", "--tsv", "--looked"],
            &["ask", "BOOK"],
            &["tree", "BOOK", "--limit", "999"],
            &["tree", "BOOK", "--dot", "-"],
            &["tree", "BOOK", "--svg", "-"],
        ];
        for words in commands {
            let [plain, columns] = ["plain.book", "columns.book"].map(|book| {
                let mut words = words.to_vec();
                words[1] = book;
                folder.run_with(&words, lines.as_bytes())
            });
            assert_eq!(plain.status, 0, "{}", plain.err);
            assert_eq!(columns.bytes, plain.bytes, "{words:?}");
            assert_eq!(columns.err, plain.err, "{words:?}");
        }
    }
}
