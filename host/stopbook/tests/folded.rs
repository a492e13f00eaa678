//! Folded books from end to end: built, checked, listed, asked, drawn, and not
//! salvaged.

mod common;

use common::{Folder, Numbers};

/// Names as several offices spell them, in no order.
const TEXT: &[u8] = b"MARKET Square\nZoo\nmar\n[Depot]\nMarina\nabbey\n";

/// A folder with the folded book of these names, in blocks of 4.
fn with_book() -> Folder {
    let folder = Folder::with("n.txt", TEXT);
    let ran = folder.run(&["build", "n.txt", "--fold", "--block", "4", "-o", "f.book"]);
    assert_eq!((ran.status, ran.err.as_str()), (0, ""));
    folder
}

#[test]
fn the_folded_book_has_its_mark_and_counts_of_bytes() {
    let folder = Folder::with("m.txt", b"marina\nMAR\n");
    let ran = folder.run(&["build", "m.txt", "--fold", "--block", "2"]);
    assert_eq!((ran.status, ran.err.as_str()), (0, ""));
    let full = "full   2 of 2,000 names, 67 of 65,535 bytes\n";
    let parts = "parts  blocks of 2 names, folded; 3 nodes; entries 13 bytes, tables 54 bytes\n";
    assert!(ran.out().contains(full), "{}", ran.out());
    assert!(ran.out().contains(parts), "{}", ran.out());
    let book = folder.read("m.book");
    assert!(book.starts_with(b"\x00\x03MAR\x00\x06marina\x00\x00"));
    assert!(book.ends_with(b"\x02\x00\x02\x00\x0D\x00\x0F\x00\x03\x00\x43\x00NBF2"));
}

#[test]
fn names_are_listed_in_the_order_of_letters_as_they_are_spelt() {
    let folder = with_book();
    let expected = "\
names 6 block 4 nodes 8 bytes 165
position  block  shared  length  name
       0      0       0       7  [Depot]
       1      0       0       5  abbey
       2      0       0       3  mar
       3      0       0       6  Marina
       4      1       0      13  MARKET Square
       5      1       0       3  Zoo
";
    folder
        .run(&["list", "--long", "f.book"])
        .assert(0, expected);
}

#[test]
fn a_check_says_the_kind() {
    let folder = with_book();
    let ran = folder.run(&["check", "f.book"]);
    ran.assert(
        0,
        "f.book is a folded book: 6 names in blocks of 4, 8 nodes, 165 bytes\n",
    );
}

#[test]
fn names_equal_once_folded_are_doubles_and_both_spellings_are_told() {
    let folder = Folder::with("d.txt", b"Mar\nMarina\nMAR\nmar\nMarina\nZOO\n");
    let ran = folder.run(&["build", "d.txt", "--fold"]);
    assert_eq!(ran.status, 0);
    let expected = "stopbook: d.txt, line 3: MAR again, as Mar in line 1; dropped\n\
                    stopbook: d.txt, line 4: mar again, as Mar in line 1; dropped\n\
                    stopbook: d.txt, line 5: Marina again, as in line 2; dropped\n\
                    stopbook: d.txt: 3 doubles dropped\n";
    assert_eq!(ran.err, expected);
    // The first is kept.
    let ran = folder.run(&["list", "d.book", "--plain"]);
    ran.assert(0, "Mar\nMarina\nZOO\n");
    // A plain book has them all.
    let ran = folder.run(&["build", "d.txt", "-o", "plain.book"]);
    assert_eq!((ran.status, ran.err.matches("again").count()), (0, 1));
    let ran = folder.run(&["list", "plain.book", "--plain"]);
    ran.assert(0, "MAR\nMar\nMarina\nZOO\nmar\n");
}

#[test]
fn capitals_with_accents_are_names_of_their_own() {
    let folder = Folder::with("e.txt", "École\nécole\n".as_bytes());
    let ran = folder.run(&["build", "e.txt", "--fold"]);
    let told = "stopbook: e.txt, line 2: \"école\" looks like \"École\" in line 1; \
                they differ in capitals\n";
    assert_eq!((ran.status, ran.err.as_str()), (0, told));
    let ran = folder.run(&["ask", "e.book", "exact", "ÉCOLE"]);
    ran.assert(0, "ÉCOLE is stop 0, spelt École\n");
}

#[test]
fn questions_find_stops_in_any_case() {
    let folder = with_book();
    for (kind, question, status, answer) in [
        ("exact", "Marina", 0, "Marina is stop 3\n"),
        ("exact", "marina", 0, "marina is stop 3, spelt Marina\n"),
        (
            "exact",
            "market square",
            0,
            "market square is stop 4, spelt MARKET Square\n",
        ),
        (
            "exact",
            "MARIN",
            1,
            "MARIN is no stop; it would stand between mar and Marina\n",
        ),
        (
            "place",
            "MARK",
            0,
            "MARK would stand at 4, between Marina and MARKET Square\n",
        ),
        (
            "range",
            "MAR",
            0,
            "3 names begin with MAR\n  2 mar\n  3 Marina\n  4 MARKET Square\n",
        ),
        (
            "nearest",
            "markt",
            0,
            "nearest to markt is [MARK]ET Square, stop 4; 4 bytes lit\n",
        ),
        (
            "width",
            "m",
            0,
            "the longest name that begins with m has 13 bytes\n",
        ),
    ] {
        let ran = folder.run(&["ask", "f.book", kind, question]);
        ran.assert(status, answer);
    }
    let ran = folder.run_with(&["ask", "f.book"], b"exact MAR\nrange ZO\n");
    ran.assert(
        0,
        "line 1: MAR is stop 2, spelt mar\nline 2: 1 name begins with ZO\n  5 Zoo\n",
    );
}

#[test]
fn the_tree_has_small_letters_and_the_names_as_they_are_spelt() {
    let folder = Folder::with("m.txt", b"mar\nMarina\nMARKET Square\n");
    assert_eq!(folder.run(&["build", "m.txt", "--fold"]).status, 0);
    let expected = "\
names 3 block 16 nodes 4 bytes 93
\"mar\"  node 0, depth 3, width 13, names 0 to 2
├─ end  node 1, depth 4, width 3, name 0 mar
├─ \"ina\" end  node 2, depth 7, width 6, name 1 Marina
└─ \"ket square\" end  node 3, depth 14, width 13, name 2 MARKET Square
";
    folder.run(&["tree", "m.book"]).assert(0, expected);
    let ran = folder.run(&["tree", "m.book", "--dot", "-"]);
    assert!(ran.out().contains("all begin with mar"), "{}", ran.out());
}

#[test]
fn a_folded_card_is_not_salvaged_and_that_is_said() {
    let folder = with_book();
    let ran = folder.run(&["salvage", "f.book", "-o", "left.txt"]);
    ran.assert_fails(
        1,
        &["f.book cannot be salvaged: it is marked as a folded book, and only plain ones can be"],
    );
    assert!(!folder.has("left.txt"));
    // A damaged one is not sent there.
    let mut worn = folder.read("f.book");
    worn[0] = 9;
    folder.write("worn.book", &worn);
    let ran = folder.run(&["check", "worn.book"]);
    let why = "its parts do not fit together, so it was damaged; build it again from its names";
    ran.assert(1, &format!("worn.book is no book: {why}\n"));
}

#[test]
fn a_merged_text_makes_a_folded_book() {
    let folder = Folder::with("a.txt", b"MAR\nabbey\n");
    folder.write("b.txt", b"mar\nZoo\n");
    let ran = folder.run(&["merge", "a.txt", "b.txt", "-o", "both.txt"]);
    assert_eq!(ran.status, 0);
    assert_eq!(folder.read("both.txt"), b"MAR\nZoo\nabbey\nmar\n");
    let ran = folder.run(&["build", "both.txt", "--fold"]);
    assert_eq!(ran.status, 0);
    assert!(ran.err.contains("line 4: mar again, as MAR in line 1"));
    let ran = folder.run(&["list", "both.book", "--plain"]);
    ran.assert(0, "abbey\nMAR\nZoo\n");
}

#[test]
fn a_book_past_the_limit_says_by_how_much() {
    // 1,300 names of 11 letters, each in the other case than the one before: they
    // share no byte, so no block size helps, and 30 letters more are too many.
    let name = |number: usize| {
        let name = format!("{number:011b}").replace('0', "a").replace('1', "b");
        match number % 2 {
            0 => name + &"x".repeat(30),
            _ => name.to_uppercase() + &"X".repeat(30),
        }
    };
    let text: String = (0..1_300).map(|number| name(number) + "\n").collect();
    let folder = Folder::with("n.txt", text.as_bytes());
    let ran = folder.run(&["build", "n.txt", "--fold"]);
    // Entries 43 bytes each, 82 blocks, 2,599 nodes, trailer.
    let length = 1_300 * 43 + 82 * 2 + 2_599 * 12 + 16;
    assert_eq!(length, 87_268);
    ran.assert_fails(
        1,
        &["87,268 bytes, and 65,535 are the most", "take names out"],
    );
}

#[test]
fn random_questions_get_what_the_plain_list_in_small_letters_says() {
    let mut numbers = Numbers(77);
    let mut word = || {
        let word = numbers.word(5);
        match numbers.below(3) {
            0 => word.to_ascii_uppercase(),
            _ => word,
        }
    };
    let folder = Folder::new();
    for _ in 0..8 {
        let names: Vec<String> = (0..30).map(|_| word()).collect();
        let questions: Vec<String> = (0..30).map(|_| word()).collect();
        folder.write("n.txt", names.join("\n").as_bytes());
        assert_eq!(folder.run(&["build", "n.txt", "--fold"]).status, 0);
        let small = |text: &String| text.to_ascii_lowercase();
        let mut sorted: Vec<String> = names.iter().map(small).collect();
        sorted.sort();
        sorted.dedup();
        let listed = folder.run(&["list", "n.book", "--plain"]);
        let listed: Vec<String> = listed.out().lines().map(str::to_ascii_lowercase).collect();
        assert_eq!(listed, sorted);
        let lines: String = questions
            .iter()
            .map(|text| format!("exact {text}\n"))
            .collect();
        let ran = folder.run_with(&["ask", "n.book"], lines.as_bytes());
        let lines = questions.iter().zip(ran.out().lines()).enumerate();
        for (index, (question, line)) in lines {
            let expected = match sorted.binary_search(&small(question)) {
                Ok(position) => format!("{question} is stop {position}"),
                Err(_) => format!("{question} is no stop"),
            };
            let expected = format!("line {}: {expected}", index + 1);
            assert!(line.starts_with(&expected), "{line}\n{expected}");
        }
    }
}
