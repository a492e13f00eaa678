//! Texts of names that are not clean: what is refused, what is told, and what
//! `--trim` and `--as-is` do about it.

mod common;

use common::{Folder, Ran};

/// The plain listing of a book.
fn names(folder: &Folder, book: &str) -> String {
    let ran = folder.run(&["list", book, "--plain"]);
    assert_eq!(ran.status, 0, "{}", ran.err);
    ran.out().to_string()
}

/// Builds a book of a text, with these options, and gives what was said of it and
/// the names in it.
fn built(text: &str, options: &[&str]) -> (String, String) {
    let folder = Folder::with("n.txt", text.as_bytes());
    let ran = folder.run(&[&["build", "n.txt"], options].concat());
    assert_eq!(ran.status, 0, "{}", ran.err);
    (ran.err, names(&folder, "n.book"))
}

/// What is said of these lines of `n.txt`.
fn said(lines: &[&str]) -> String {
    let note = |line: &&str| format!("stopbook: n.txt, line {line}\n");
    lines.iter().map(note).collect()
}

/// Builds a book of a text that is refused, and of which nothing is written.
fn refused(bytes: &[u8], options: &[&str]) -> Ran {
    let folder = Folder::with("n.txt", bytes);
    folder.write("n.book", b"the old book");
    let ran = folder.run(&[&["build", "n.txt"], options].concat());
    assert_eq!((ran.status, ran.out()), (1, ""), "{}", ran.err);
    assert_eq!(folder.read("n.book"), b"the old book");
    ran
}

#[test]
fn control_characters_are_refused_by_line_and_by_what_they_are() {
    let text = "Mar\nOld\tMill\n\nZoo\u{7F}\nÉ\u{85}\nMarina\r\n\u{1B}[0m\n";
    for options in [&[][..], &["--trim"], &["--fold"]] {
        let ran = refused(text.as_bytes(), options);
        let expected = said(&[
            "2: control character U+0009, a tab, at byte 4; take it out, or give --as-is",
            "4: control character U+007F, at byte 4; take it out, or give --as-is",
            "5: control character U+0085, at byte 3; take it out, or give --as-is",
            "7: control character U+001B, at byte 1; take it out, or give --as-is",
        ]);
        let last = "stopbook: n.txt: 4 bad lines, so nothing is written; mend them and try again\n";
        assert_eq!(ran.err, expected + last);
    }
}

#[test]
fn one_bad_line_is_one() {
    let ran = refused(b"Mar\nOld\tMill\n", &[]);
    let last = "stopbook: n.txt: 1 bad line, so nothing is written; mend it and try again\n";
    assert!(ran.err.ends_with(last), "{}", ran.err);
}

#[test]
fn every_control_character_is_refused_and_no_other() {
    for code in 1..=0xFF {
        let character = char::from_u32(code).expect("a character");
        let folder = Folder::with("n.txt", format!("a{character}b\n").as_bytes());
        let ran = folder.run(&["build", "n.txt"]);
        let is_control = code != 0x0A && (code <= 0x1F || (0x7F..=0x9F).contains(&code));
        assert_eq!(ran.status == 1, is_control, "{code:X} {}", ran.err);
        assert_eq!(ran.err.contains(&format!("U+{code:04X}")), is_control);
        assert_eq!(folder.has("n.book"), !is_control);
    }
}

#[test]
fn ten_lines_with_control_characters_are_told_and_the_rest_counted() {
    for (count, rest) in [
        (10, ""),
        (
            11,
            "stopbook: n.txt: and 1 more line with control characters\n",
        ),
        (
            1_500,
            "stopbook: n.txt: and 1,490 more lines with control characters\n",
        ),
    ] {
        let ran = refused("a\tb\tc\n".repeat(count).as_bytes(), &[]);
        assert_eq!(ran.err.matches("U+0009").count(), 10);
        assert!(ran.err.contains("n.txt, line 10: control character U+0009"));
        assert_eq!(ran.err.contains(" more line"), !rest.is_empty());
        assert!(ran.err.contains(rest), "{}", ran.err);
    }
}

#[test]
fn utf16_without_a_mark_is_refused() {
    let text = "Mar\nMarina\n".encode_utf16();
    let little: Vec<u8> = text.clone().flat_map(u16::to_le_bytes).collect();
    let big: Vec<u8> = text.flat_map(u16::to_be_bytes).collect();
    for bytes in [little, big] {
        let ran = refused(&bytes, &[]);
        let expected = "n.txt, line 1: control character U+0000, a zero, at byte ";
        assert!(ran.err.contains(expected), "{}", ran.err);
        assert!(ran.err.contains("if the file is UTF-16, save it as UTF-8"));
    }
}

#[test]
fn carriage_returns_alone_are_no_line_ends() {
    for text in ["Mar\rMarina\rZoo\r", "Mar\r", "Mar\nMarina\r\r\nZoo\n"] {
        let ran = refused(text.as_bytes(), &[]);
        let expected = "control character U+000D, a carriage return, at byte ";
        assert!(ran.err.contains(expected), "{}", ran.err);
        assert!(ran.err.contains("end lines with LF or CR LF"));
        assert_eq!(ran.err.matches("U+000D").count(), 1);
    }
    // With LF or CR LF at the end, or with no end at the last line, all is well.
    for text in ["Mar\nMarina\n", "Mar\r\nMarina\r\n", "Mar\r\nMarina"] {
        assert_eq!(
            built(text, &[]),
            (String::new(), "Mar\nMarina\n".to_string())
        );
    }
}

#[test]
fn blanks_at_the_ends_are_told_and_stay() {
    let text = " Zoo\nMar\u{A0}\n\u{2007}Old  Mill\u{202F}\n\u{3000}\n  \nPier\n";
    let (told, names) = built(text, &[]);
    let expected = said(&[
        "1: \" Zoo\" has blanks before it; --trim takes them off",
        "2: \"Mar\u{A0}\" has blanks behind it; --trim takes them off",
        "3: \"\u{2007}Old  Mill\u{202F}\" has blanks before and behind it; --trim takes them off",
        "4: \"\u{3000}\" is a name of blanks alone; --trim leaves it out",
        "5: \"  \" is a name of blanks alone; --trim leaves it out",
        "5: \"  \" looks like \"\u{3000}\" in line 4; they differ in blanks",
    ]);
    assert_eq!(told, expected);
    let expected = "  \n Zoo\nMar\u{A0}\nPier\n\u{2007}Old  Mill\u{202F}\n\u{3000}\n";
    assert_eq!(names, expected);
}

#[test]
fn trimming_takes_blanks_off_and_leaves_empty_lines_out() {
    let text = " Zoo\nMar\u{A0}\n\u{2007}Old  Mill\u{202F}\n\u{3000}\n  \nPier\n";
    let (told, names) = built(text, &["--trim"]);
    assert_eq!(
        (told.as_str(), names.as_str()),
        ("", "Mar\nOld  Mill\nPier\nZoo\n")
    );
    // Names that are the same then are doubles.
    let (told, names) = built("Mar\n  Mar\n\u{A0}Mar\n", &["--trim"]);
    let doubles = said(&[
        "2: Mar again, as in line 1; dropped",
        "3: Mar again, as in line 1; dropped",
    ]);
    assert_eq!(told, doubles + "stopbook: n.txt: 2 doubles dropped\n");
    assert_eq!(names, "Mar\n");
    // What is too long only by its blanks is no longer.
    let long = format!("{}   \n", "x".repeat(200));
    refused(long.as_bytes(), &[]);
    assert_eq!(built(&long, &["--trim"]).1, "x".repeat(200) + "\n");
}

#[test]
fn ten_of_each_kind_are_told_and_the_rest_counted() {
    let ends: String = (0..13).map(|number| format!("Stop {number} \n")).collect();
    let only: String = (1..=12).map(|count| " ".repeat(count) + "\n").collect();
    let small: String = (0..13).map(|number| format!("stop {number}\n")).collect();
    let (told, _) = built(&(ends + &only + &small), &[]);
    for (what, rest) in [
        (
            "has blanks behind it",
            "n.txt: and 3 more names with blanks at an end\n",
        ),
        (
            "is a name of blanks alone",
            "n.txt: and 2 more lines of blanks\n",
        ),
        ("looks like", "n.txt: and 14 more look-alikes\n"),
    ] {
        assert_eq!(told.matches(what).count(), 10, "{told}");
        assert!(told.contains(rest), "{told}");
    }
}

#[test]
fn names_that_look_alike_are_told_with_both_lines() {
    let text = "École\nOld Mill\nZoo\nE\u{301}cole\nOLD MILL\nOld\u{A0} Mill\nEcole\n";
    let (told, names) = built(text, &[]);
    let expected = said(&[
        "4: \"E\u{301}cole\" looks like \"École\" in line 1; they differ in how accents are composed",
        "5: \"OLD MILL\" looks like \"Old Mill\" in line 2; they differ in capitals",
        "6: \"Old\u{A0} Mill\" looks like \"Old Mill\" in line 2; they differ in blanks",
    ]);
    assert_eq!(told, expected);
    // All are stops, as they are.
    assert_eq!(names.lines().count(), 7);
    assert!(names.contains("E\u{301}cole\n") && names.contains("École\n"));
}

#[test]
fn doubles_are_no_look_alikes() {
    let text = "Mar\nMAR\nMar\nZoo\n";
    let (told, _) = built(text, &[]);
    let plain = said(&["3: Mar again, as in line 1; dropped"])
        + "stopbook: n.txt: 1 double dropped\n"
        + &said(&["2: \"MAR\" looks like \"Mar\" in line 1; they differ in capitals"]);
    assert_eq!(told, plain);
    // In a folded book those of the same letters are doubles, and nothing else.
    let (told, names) = built(text, &["--fold"]);
    let folded = said(&[
        "2: MAR again, as Mar in line 1; dropped",
        "3: Mar again, as in line 1; dropped",
    ]);
    assert_eq!(told, folded + "stopbook: n.txt: 2 doubles dropped\n");
    assert_eq!(names, "Mar\nZoo\n");
    // Blanks and capitals with accents are not folded.
    let (told, _) = built("École\nécole\nMar\nmar \n", &["--fold"]);
    assert_eq!(told.matches("looks like").count(), 2, "{told}");
}

#[test]
fn as_they_are_all_lines_are_taken_without_a_word() {
    let text = "\tMar\nMar\n Mar\n  \nMAR\nÉ\nE\u{301}\nZoo\r\r\n\u{9F}";
    let folder = Folder::with("n.txt", text.as_bytes());
    let ran = folder.run(&["build", "n.txt", "--as-is"]);
    assert_eq!((ran.status, ran.err.as_str()), (0, ""));
    let ran = folder.run(&["check", "n.book"]);
    assert!(ran.out().contains("n.book is a plain book: 9 names"));
    for name in ["\tMar", " Mar", "  ", "E\u{301}", "Zoo\r", "\u{9F}"] {
        assert_eq!(folder.run(&["ask", "n.book", "exact", name]).status, 0);
    }
    // Doubles are told, and what no name can be is refused.
    let (told, _) = built("Mar\nMar\n", &["--as-is"]);
    assert!(told.contains("line 2: Mar again"));
    let ran = refused(b"caf\xE9\n", &["--as-is"]);
    assert!(ran.err.contains("line 1: not UTF-8"));
}

#[test]
fn trimming_and_taking_as_it_is_exclude_each_other() {
    let folder = Folder::with("n.txt", b"Mar\n");
    for words in [&["build", "n.txt"][..], &["merge", "n.txt", "n.txt"]] {
        let ran = folder.run(&[words, &["--trim", "--as-is", "-o", "no"]].concat());
        ran.assert_fails(2, &["give --trim or --as-is, not both"]);
        assert!(!folder.has("no"));
    }
}

#[test]
fn merged_texts_are_read_in_the_same_way() {
    let folder = Folder::with("a.txt", "École\n Mar\n".as_bytes());
    folder.write("b.txt", "Zoo\nE\u{301}cole\nMAR\n".as_bytes());
    let ran = folder.run(&["merge", "a.txt", "b.txt"]);
    assert_eq!((ran.status, ran.out().lines().count()), (0, 5));
    let expected =
        "stopbook: a.txt, line 2: \" Mar\" has blanks before it; --trim takes them off\n\
        stopbook: b.txt, line 2: \"E\u{301}cole\" looks like \"École\" in a.txt, line 1; \
        they differ in how accents are composed\n\
        stopbook: b.txt, line 3: \"MAR\" looks like \" Mar\" in a.txt, line 2; \
        they differ in blanks and capitals\n";
    assert!(ran.err.starts_with(expected), "{}", ran.err);
    let ran = folder.run(&["merge", "--trim", "a.txt", "b.txt"]);
    assert!(ran.out().starts_with("E\u{301}cole\nMAR\nMar\n"));
    let ran = folder.run(&["merge", "--as-is", "a.txt", "b.txt"]);
    assert!(ran
        .err
        .starts_with("stopbook: a.txt: 2 names; b.txt: 3 names"));
    // A control character in either text is refused.
    folder.write("tab.txt", b"Mar\tina\n");
    for words in [["tab.txt", "a.txt"], ["a.txt", "tab.txt"]] {
        let ran = folder.run(&[&["merge", "-o", "no"][..], &words].concat());
        ran.assert_fails(1, &["tab.txt, line 1: control character U+0009"]);
        assert!(!folder.has("no"));
    }
}

#[test]
fn the_names_of_the_sample_are_clean() {
    let sample = include_str!("../../../sample/stops.txt");
    assert_eq!(built(sample, &[]), (String::new(), sample.to_string()));
    assert_eq!(built(sample, &["--fold"]).0, "");
}
