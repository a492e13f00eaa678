//! `stopbook build` from end to end.

mod common;

use common::{Folder, EXAMPLE, NO_NAMES};

#[test]
fn the_book_of_document_01_is_built_from_unsorted_lines() {
    let text = b"\xEF\xBB\xBFMarket Square\r\n\nMar\r\nMarina";
    let folder = Folder::with("mar.txt", text);
    let ran = folder.run(&["build", "mar.txt", "--block", "2"]);
    assert_eq!((ran.status, ran.err.as_str()), (0, ""));
    assert_eq!(folder.read("mar.book"), EXAMPLE);
    // The plain list has 25 bytes, and so have the entries.
    let expected = "\
mar.book
  full   3 of 2,000 names, 93 of 65,535 bytes
  parts  blocks of 2 names; 4 nodes; entries 25 bytes, tables 68 bytes
  saved  0 of the plain list's 25 bytes (0 %); with its tables the book is 68 bytes longer
";
    assert_eq!(ran.out(), expected);
}

#[test]
fn with_larger_blocks_the_book_is_shorter() {
    let folder = Folder::with("mar.txt", b"Mar\nMarina\nMarket Square\n");
    let ran = folder.run(&["build", "mar.txt", "--block=4", "-o", "b"]);
    assert_eq!(ran.status, 0);
    assert_eq!(folder.read("b").len(), 88);
    // Without a word on it, blocks have 16.
    assert_eq!(folder.run(&["build", "mar.txt"]).status, 0);
    assert_eq!(folder.read("mar.book")[74..76], [16, 0]);
}

#[test]
fn how_full_the_book_is_is_said() {
    let sample = include_bytes!("../../../sample/stops.txt");
    let folder = Folder::with("stops.txt", sample);
    let ran = folder.run(&["build", "stops.txt"]);
    let length = folder.read("stops.book").len();
    let full = format!("  full   20 of 2,000 names, {length} of 65,535 bytes\n");
    assert!(ran.out().contains(&full), "{}", ran.out());
    // One of a thing is said so.
    let ran = folder.run_with(&["build", "-", "--block", "1", "-o", "one.book"], b"A\n");
    let expected = "\
one.book
  full   1 of 2,000 names, 33 of 65,535 bytes
  parts  blocks of 1 name; 1 node; entries 3 bytes, tables 30 bytes
  saved  nothing: entries have 1 byte more than the plain list's 2 bytes; \
with its tables the book is 31 bytes longer
";
    ran.assert(0, expected);
}

#[test]
fn standard_input_goes_to_standard_output() {
    let folder = Folder::new();
    let ran = folder.run_with(
        &["build", "-", "--block", "2"],
        b"Mar\nMarina\nMarket Square\n",
    );
    assert_eq!(ran.status, 0);
    assert_eq!(ran.bytes, EXAMPLE);
    assert!(ran.err.contains("93 of 65,535 bytes"));
}

/// Texts without names: of no bytes, of a byte order mark, of empty lines.
const WITHOUT_NAMES: [&[u8]; 5] = [
    b"",
    b"\n",
    b"\r\n\n\r\n",
    b"\xEF\xBB\xBF",
    b"\xEF\xBB\xBF\n",
];

#[test]
fn a_text_without_names_leaves_the_old_book() {
    let folder = Folder::with("good.book", EXAMPLE);
    let sentence = "stopbook: standard input has no names, so nothing is written; \
                    if that is meant, give --empty\n";
    for text in WITHOUT_NAMES {
        for option in [&[][..], &["--fold"], &["--trim"], &["--as-is"]] {
            let words = [&["build", "-", "-o", "good.book"], option].concat();
            let ran = folder.run_with(&words, text);
            ran.assert_fails(1, &[]);
            assert_eq!(ran.err, sentence);
            assert_eq!(folder.read("good.book"), EXAMPLE);
        }
        // Nothing is written to standard output either, nor to a new file.
        let ran = folder.run_with(&["build", "-"], text);
        assert_eq!((ran.status, &ran.bytes[..]), (1, &b""[..]));
        folder.write("none.txt", text);
        let ran = folder.run(&["build", "none.txt"]);
        ran.assert_fails(
            1,
            &["stopbook: none.txt has no names, so nothing is written"],
        );
        assert!(!folder.has("none.book"));
    }
}

#[test]
fn lines_of_blanks_are_no_names_once_they_are_trimmed() {
    let folder = Folder::with("good.book", EXAMPLE);
    let text = " \n\u{A0}\u{3000}\r\n\n".as_bytes();
    let ran = folder.run_with(&["build", "-", "--trim", "-o", "good.book"], text);
    ran.assert_fails(1, &["standard input has no names, so nothing is written"]);
    assert_eq!(folder.read("good.book"), EXAMPLE);
    // Without it each is a name, which is told.
    let ran = folder.run_with(&["build", "-", "-o", "blanks.book"], text);
    assert_eq!(ran.status, 0);
    assert_eq!(ran.err.matches("is a name of blanks alone").count(), 2);
}

#[test]
fn a_book_without_names_is_built_where_it_is_asked_for() {
    let folder = Folder::with("good.book", EXAMPLE);
    let words = ["build", "-", "--empty", "--block", "2", "-o", "good.book"];
    for text in WITHOUT_NAMES {
        let ran = folder.run_with(&words, text);
        assert_eq!((ran.status, ran.err.as_str()), (0, ""));
        assert!(ran
            .out()
            .contains("full   0 of 2,000 names, 16 of 65,535 bytes"));
        assert_eq!(folder.read("good.book"), NO_NAMES);
    }
    // Where there are names, it changes nothing; and bad lines are refused as ever.
    let ran = folder.run_with(&words, b"Mar\nMarina\nMarket Square\n");
    assert_eq!((ran.status, ran.err.as_str()), (0, ""));
    assert_eq!(folder.read("good.book"), EXAMPLE);
    let ran = folder.run_with(&words, b"Mar\tina\n");
    ran.assert_fails(1, &["1 bad line, so nothing is written"]);
    assert_eq!(folder.read("good.book"), EXAMPLE);
}

#[test]
fn doubles_are_dropped_and_told() {
    let folder = Folder::with("d.txt", b"Mar\nMarina\nMar\nMarket Square\n\nMarina\r\n");
    let ran = folder.run(&["build", "d.txt", "--block", "2"]);
    assert_eq!(ran.status, 0);
    assert_eq!(folder.read("d.book"), EXAMPLE);
    let expected = "stopbook: d.txt, line 3: Mar again, as in line 1; dropped\n\
                    stopbook: d.txt, line 6: Marina again, as in line 2; dropped\n\
                    stopbook: d.txt: 2 doubles dropped\n";
    assert_eq!(ran.err, expected);
}

#[test]
fn many_doubles_are_counted() {
    let folder = Folder::with("d.txt", "Mar\n".repeat(31).as_bytes());
    let ran = folder.run(&["build", "d.txt"]);
    assert_eq!(ran.status, 0);
    assert_eq!(ran.err.matches("again").count(), 20);
    assert!(ran.err.contains("and 10 more doubles"));
    assert!(ran.err.contains("30 doubles dropped"));
}

#[test]
fn bad_lines_are_named_and_nothing_is_written() {
    let mut text = b"Mar\nCaf\xE9\n\n".to_vec();
    text.extend([b'x'; 201]);
    text.extend(b"\nMarina\n");
    let folder = Folder::with("bad.txt", &text);
    let ran = folder.run(&["build", "bad.txt"]);
    ran.assert_fails(
        1,
        &[
            "bad.txt, line 2: not UTF-8 at byte 4 (E9)",
            "bad.txt, line 4: the name has 201 bytes, and 200 are the most",
            "2 bad lines",
        ],
    );
    assert!(!folder.has("bad.book"));
}

#[test]
fn a_name_of_200_bytes_is_built() {
    let folder = Folder::with("long.txt", &[b'x'; 200]);
    assert_eq!(folder.run(&["build", "long.txt"]).status, 0);
    // Entry 202, block table 2, one node 12, trailer 16.
    assert_eq!(folder.read("long.book").len(), 232);
}

/// So many names of four digits, a line for each.
fn digits(count: usize) -> String {
    (0..count).map(|number| format!("{number:04}\n")).collect()
}

#[test]
fn names_2000_are_built_and_2001_refused() {
    let folder = Folder::with("n.txt", digits(2_000).as_bytes());
    let ran = folder.run(&["build", "n.txt"]);
    assert_eq!(ran.status, 0);
    assert!(ran.out().contains("full   2,000 of 2,000 names, "));
    // 2,000 names of five bytes each; no number there is without its commas.
    assert!(ran.out().contains(" of the plain list's 10,000 bytes ("));
    let words = ran.out().split(|letter: char| !letter.is_ascii_digit());
    assert!(words.into_iter().all(|digits| digits.len() <= 3));
    // A double does not count.
    folder.write("n.txt", (digits(2_000) + "0007\n").as_bytes());
    assert_eq!(folder.run(&["build", "n.txt"]).status, 0);
    folder.write("more.txt", digits(2_001).as_bytes());
    let ran = folder.run(&["build", "more.txt"]);
    ran.assert_fails(
        1,
        &["more.txt has 2,001 names, and 2,000 are the most: 1 too many"],
    );
    assert!(!folder.has("more.book"));
}

/// 0 to 1999 spelled with 11 letters a and b.
fn binary() -> String {
    let spell = |number| {
        format!("{number:011b}\n")
            .replace('0', "a")
            .replace('1', "b")
    };
    (0..2_000).map(spell).collect()
}

#[test]
fn a_book_past_the_limit_says_by_how_much() {
    // By the format: 56,166 bytes with blocks of 64, 78,004 with blocks of 1.
    let folder = Folder::with("bin.txt", binary().as_bytes());
    assert_eq!(folder.run(&["build", "bin.txt", "--block", "64"]).status, 0);
    assert_eq!(folder.read("bin.book").len(), 56_166);
    let ran = folder.run(&["build", "bin.txt", "--block", "1", "-o", "no"]);
    ran.assert_fails(
        1,
        &[
            "78,004 bytes, and 65,535 are the most: 12,469 too many",
            "--block ",
        ],
    );
    assert!(!folder.has("no"));
    // The block size that it names does help.
    let (_, block) = ran
        .err
        .trim_end()
        .rsplit_once(' ')
        .expect("a block size is last");
    assert_eq!(
        folder.run(&["build", "bin.txt", "--block", block]).status,
        0
    );
}

/// So many names with their first letters all different, of so many bytes each;
/// some at the front have one more.
fn apart(count: usize, length: usize, longer: usize) -> Vec<u8> {
    let first = |number: usize| char::from_u32(0x100 + number as u32).expect("a letter");
    let mut text = String::new();
    for number in 0..count {
        let length = length + usize::from(number < longer);
        text.push(first(number));
        text.push_str(&"x".repeat(length - 2));
        text.push('\n');
    }
    text.into_bytes()
}

#[test]
fn a_book_of_65535_bytes_is_built_and_one_of_65536_refused() {
    // From U+0100 on a letter has two bytes, and 64 of them share the first:
    // 310 leaves, the root, and a fork for each 64. In blocks of 1 an entry has
    // two bytes and the name, and the block table two for each name.
    let count = 310;
    let forks = 1 + usize::div_ceil(count, 64);
    let letters = 65_535 - (16 + 12 * (count + forks) + 2 * count + 2 * count);
    let (length, longer) = (letters / count, letters % count);
    let folder = Folder::with("full.txt", &apart(count, length, longer));
    let ran = folder.run(&["build", "full.txt", "--block", "1"]);
    assert_eq!(ran.status, 0, "{}", ran.err);
    assert_eq!(folder.read("full.book").len(), 65_535);
    folder.write("over.txt", &apart(count, length, longer + 1));
    let ran = folder.run(&["build", "over.txt", "--block", "1"]);
    ran.assert_fails(1, &["65,536 bytes, and 65,535 are the most: 1 too many"]);
}

#[test]
fn block_sizes_are_1_to_64() {
    let folder = Folder::with("mar.txt", b"Mar\n");
    for block in ["1", "64"] {
        assert_eq!(
            folder.run(&["build", "mar.txt", "--block", block]).status,
            0
        );
    }
    for block in ["0", "65", "x", "-1", ""] {
        let ran = folder.run(&["build", "mar.txt", "--block", block]);
        ran.assert_fails(2, &["--block takes", "stopbook build --help"]);
    }
}

#[test]
fn the_names_are_never_written_over() {
    let folder = Folder::with("mar.txt", b"Mar\n");
    for output in ["mar.txt", "./mar.txt"] {
        let ran = folder.run(&["build", "mar.txt", "-o", output]);
        ran.assert_fails(2, &["mar.txt is read and would be written over"]);
    }
    assert_eq!(folder.read("mar.txt"), b"Mar\n");
}

#[test]
fn files_that_cannot_be_used_are_named() {
    let folder = Folder::with("mar.txt", b"Mar\n");
    folder
        .run(&["build", "gone.txt"])
        .assert_fails(2, &["gone.txt cannot be read"]);
    let ran = folder.run(&["build", "mar.txt", "-o", "no/such/folder"]);
    ran.assert_fails(2, &["no/such/folder cannot be written"]);
    folder
        .run(&["build", "."])
        .assert_fails(2, &[". cannot be read"]);
    folder.write("wide.txt", b"\xFF\xFEM\0a\0r\0\n\0");
    folder
        .run(&["build", "wide.txt"])
        .assert_fails(1, &["wide.txt is UTF-16"]);
}
