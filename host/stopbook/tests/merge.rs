//! `stopbook merge` from end to end.

mod common;

use common::{Folder, Numbers, EXAMPLE};
use std::collections::BTreeSet;

/// A folder with two texts.
fn with_two(first: &[u8], second: &[u8]) -> Folder {
    let folder = Folder::with("a.txt", first);
    folder.write("b.txt", second);
    folder
}

/// What is said where the texts have so many names.
fn said(first: &str, second: &str, shared: &str, merged: &str) -> String {
    format!("stopbook: a.txt: {first}; b.txt: {second}; in both: {shared}; merged: {merged}\n")
}

#[test]
fn two_unsorted_texts_become_one_sorted_text() {
    let folder = with_two(
        b"\xEF\xBB\xBFMarket Square\r\n\nMar\r\n",
        b"Marina\nMar\nZoo",
    );
    let ran = folder.run(&["merge", "a.txt", "b.txt"]);
    assert_eq!(ran.status, 0);
    assert_eq!(ran.out(), "Mar\nMarina\nMarket Square\nZoo\n");
    assert_eq!(ran.err, said("2 names", "3 names", "1 name", "4 names"));
    for option in ["-o", "--output"] {
        let ran = folder.run(&["merge", "a.txt", option, "both.txt", "b.txt"]);
        assert_eq!((ran.status, ran.out()), (0, ""));
        assert_eq!(
            folder.read("both.txt"),
            b"Mar\nMarina\nMarket Square\nZoo\n"
        );
        assert_eq!(ran.err, said("2 names", "3 names", "1 name", "4 names"));
    }
}

#[test]
fn a_book_is_built_from_the_merged_text() {
    let folder = with_two(b"Market Square\nMar\n", b"Marina\nMar\n");
    let ran = folder.run(&["merge", "a.txt", "b.txt", "-o", "both.txt"]);
    assert_eq!(ran.status, 0);
    let ran = folder.run(&["build", "both.txt", "--block", "2"]);
    assert_eq!((ran.status, ran.err.as_str()), (0, ""));
    assert_eq!(folder.read("both.book"), EXAMPLE);
}

#[test]
fn one_text_may_come_from_standard_input() {
    let folder = Folder::with("a.txt", b"Mar\n");
    for words in [["merge", "-", "a.txt"], ["merge", "a.txt", "-"]] {
        let ran = folder.run_with(&words, b"Marina\nMar\n");
        assert_eq!((ran.status, ran.out()), (0, "Mar\nMarina\n"));
        assert!(ran.err.contains("standard input: 2 names"));
    }
}

#[test]
fn a_text_with_itself_or_with_none_is_that_text() {
    let folder = with_two(b"Marina\nMar\n", b"");
    let ran = folder.run(&["merge", "a.txt", "a.txt"]);
    assert_eq!((ran.status, ran.out()), (0, "Mar\nMarina\n"));
    assert!(ran.err.contains("in both: 2 names; merged: 2 names"));
    for words in [["merge", "a.txt", "b.txt"], ["merge", "b.txt", "a.txt"]] {
        let ran = folder.run(&words);
        assert_eq!((ran.status, ran.out()), (0, "Mar\nMarina\n"));
        // Which one has none is told: its export may have failed.
        assert!(ran.err.starts_with("stopbook: b.txt has no names\n"));
        assert!(ran.err.contains("in both: 0 names; merged: 2 names"));
    }
}

#[test]
fn two_texts_without_names_leave_the_old_text() {
    let folder = with_two(b"\n", b" \n");
    folder.write("good.txt", b"Mar\nZoo\n");
    let words = ["merge", "--trim", "a.txt", "b.txt", "-o", "good.txt"];
    let ran = folder.run(&words);
    ran.assert_fails(1, &[]);
    let sentence = "stopbook: neither a.txt nor b.txt has names, so nothing is written; \
                    if that is meant, give --empty\n";
    assert_eq!(ran.err, sentence);
    assert_eq!(folder.read("good.txt"), b"Mar\nZoo\n");
    // Without --trim the blank is a name.
    let ran = folder.run(&["merge", "a.txt", "b.txt"]);
    assert_eq!((ran.status, ran.out()), (0, " \n"));
    // Where it is asked for, an empty text is written.
    let ran = folder.run(&[&words[..], &["--empty"]].concat());
    assert_eq!((ran.status, ran.out()), (0, ""));
    assert_eq!(folder.read("good.txt"), b"");
    let empty = "stopbook: a.txt has no names\nstopbook: b.txt has no names\n";
    let counts = said("0 names", "0 names", "0 names", "0 names");
    assert_eq!(ran.err, empty.to_string() + &counts);
}

#[test]
fn doubles_are_dropped_and_told_of_each_text() {
    let folder = with_two(b"Mar\nMar\n", b"Zoo\n\nMar\nZoo\n");
    let ran = folder.run(&["merge", "a.txt", "b.txt"]);
    assert_eq!((ran.status, ran.out()), (0, "Mar\nZoo\n"));
    let expected = "stopbook: a.txt, line 2: Mar again, as in line 1; dropped\n\
                    stopbook: a.txt: 1 double dropped\n\
                    stopbook: b.txt, line 4: Zoo again, as in line 1; dropped\n\
                    stopbook: b.txt: 1 double dropped\n"
        .to_string();
    assert_eq!(
        ran.err,
        expected + &said("1 name", "2 names", "1 name", "2 names")
    );
}

#[test]
fn bad_lines_of_both_texts_are_named_and_nothing_is_written() {
    let folder = with_two(b"Mar\nCaf\xE9\n", &[b'x'; 201]);
    folder.write("sound.txt", b"Mar\n");
    let bad = "a.txt, line 2: not UTF-8 at byte 4 (E9)";
    let long = "b.txt, line 1: the name has 201 bytes, and 200 are the most";
    let cases: [([&str; 2], &[&str]); 3] = [
        (["a.txt", "b.txt"], &[bad, long, "a.txt: 1 bad line"]),
        (["a.txt", "sound.txt"], &[bad, "a.txt: 1 bad line"]),
        (["sound.txt", "b.txt"], &[long, "b.txt: 1 bad line"]),
    ];
    for ([first, second], told) in cases {
        let ran = folder.run(&["merge", first, second, "-o", "no.txt"]);
        ran.assert_fails(1, told);
        assert!(!folder.has("no.txt"));
    }
}

/// So many names of four digits, from this one on, a line for each.
fn digits(from: usize, count: usize) -> String {
    let lines = (from..from + count).map(|number| format!("{number:04}\n"));
    lines.collect()
}

#[test]
fn names_2000_are_merged_and_2001_refused() {
    let folder = with_two(digits(0, 1500).as_bytes(), digits(1000, 1000).as_bytes());
    let ran = folder.run(&["merge", "a.txt", "b.txt"]);
    assert_eq!((ran.status, ran.out()), (0, digits(0, 2000).as_str()));
    let expected = said("1,500 names", "1,000 names", "500 names", "2,000 names");
    assert_eq!(ran.err, expected);
    folder.write("b.txt", digits(1000, 1001).as_bytes());
    let ran = folder.run(&["merge", "a.txt", "b.txt", "-o", "no.txt"]);
    let sentence = "a.txt and b.txt together have 2,001 names, and 2,000 are the most: 1 too many";
    ran.assert_fails(1, &[sentence]);
    assert!(!folder.has("no.txt"));
}

#[test]
fn a_text_has_no_limit_of_its_own_but_the_merged_text_has() {
    let folder = with_two(digits(0, 5000).as_bytes(), b"0007\n");
    let ran = folder.run(&["merge", "a.txt", "b.txt"]);
    let sentence = "together have 5,000 names, and 2,000 are the most: 3,000 too many";
    ran.assert_fails(1, &[sentence]);
    folder
        .run(&["merge", "b.txt", "a.txt"])
        .assert_fails(1, &[sentence]);
}

#[test]
fn names_go_out_as_they_came_in() {
    // A tab, a carriage return of its own, a letter of two bytes.
    let folder = with_two("a\tb\nc\r\r\n".as_bytes(), "École\r\n".as_bytes());
    let ran = folder.run(&["merge", "--as-is", "a.txt", "b.txt", "-o", "both.txt"]);
    assert_eq!(ran.status, 0);
    assert_eq!(folder.read("both.txt"), "a\tb\nc\r\r\nÉcole\n".as_bytes());
    let ran = folder.run(&["merge", "--as-is", "both.txt", "both.txt"]);
    assert_eq!(ran.bytes, folder.read("both.txt"));
}

#[test]
fn neither_text_is_written_over() {
    let folder = with_two(b"Mar\n", b"Zoo\n");
    for output in ["a.txt", "./b.txt"] {
        let ran = folder.run(&["merge", "a.txt", "b.txt", "-o", output]);
        ran.assert_fails(2, &[".txt is read and would be written over"]);
    }
    assert_eq!(folder.read("a.txt"), b"Mar\n");
    assert_eq!(folder.read("b.txt"), b"Zoo\n");
}

#[test]
fn files_that_cannot_be_used_are_named() {
    let folder = Folder::with("a.txt", b"Mar\n");
    for words in [["merge", "gone", "a.txt"], ["merge", "a.txt", "gone"]] {
        folder.run(&words).assert_fails(2, &["gone cannot be read"]);
    }
    let ran = folder.run(&["merge", "a.txt", "a.txt", "-o", "no/such/folder"]);
    ran.assert_fails(2, &["no/such/folder cannot be written"]);
    folder.write("wide.txt", b"\xFF\xFEM\0a\0r\0\n\0");
    folder
        .run(&["merge", "a.txt", "wide.txt"])
        .assert_fails(1, &["wide.txt is UTF-16"]);
}

#[test]
fn random_texts_are_merged_as_sets_are_in_either_order() {
    let mut numbers = Numbers(17);
    for round in 0..20 {
        let (first, second) = (numbers.names(4 * round), numbers.names(3 * round));
        let folder = with_two(first.join("\n").as_bytes(), second.join("\n").as_bytes());
        let names: BTreeSet<&String> = first.iter().chain(&second).collect();
        let expected: String = names.iter().map(|name| format!("{name}\n")).collect();
        for [one, other] in [["a.txt", "b.txt"], ["b.txt", "a.txt"]] {
            // In the first round neither has names.
            let ran = folder.run(&["merge", one, other, "--empty"]);
            assert_eq!((ran.status, ran.out()), (0, expected.as_str()));
            let shared = first.len() + second.len() - names.len();
            assert!(ran.err.contains(&format!("in both: {shared} name")));
        }
    }
}
