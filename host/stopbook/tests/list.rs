//! `stopbook list` and `stopbook check` from end to end.

mod common;

use common::{shared, Folder, Numbers, EXAMPLE, NO_NAMES};

#[test]
fn the_listing_is_that_of_document_01() {
    let folder = Folder::with("mar.book", EXAMPLE);
    let expected = "\
names 3 block 2 nodes 4 bytes 93
position  block  shared  length  name
       0      0       0       3  Mar
       1      0       3       6  Marina
       2      1       0      13  Market Square
";
    folder
        .run(&["list", "--long", "mar.book"])
        .assert(0, expected);
    let ran = folder.run_with(&["list", "-", "--long"], EXAMPLE);
    ran.assert(0, expected);
}

#[test]
fn without_an_option_the_names_are_listed_alone() {
    let folder = Folder::with("mar.book", EXAMPLE);
    let expected = "Mar\nMarina\nMarket Square\n";
    folder.run(&["list", "mar.book"]).assert(0, expected);
    folder.run_with(&["list", "-"], EXAMPLE).assert(0, expected);
    let ran = folder.run(&["list", "mar.book", "--plain"]);
    ran.assert(0, expected);
    let ran = folder.run(&["list", "mar.book", "--plain", "--long"]);
    ran.assert_fails(2, &["give --long or --plain, not both"]);
}

#[test]
fn large_numbers_have_commas_and_may_be_given_with_them() {
    let names: String = (0..2_000).map(|number| format!("{number:04}\n")).collect();
    let folder = Folder::with("n.txt", names.as_bytes());
    assert_eq!(folder.run(&["build", "n.txt"]).status, 0);
    for from in ["1999", "1,999"] {
        let ran = folder.run(&["list", "n.book", "--long", "--from", from]);
        let mut lines = ran.out().lines();
        let head = lines.next().expect("there is a first line");
        assert!(head.starts_with("names 2,000 block 16 nodes 2,223 bytes "));
        assert_eq!(lines.last(), Some("   1,999    124       3       4  1999"));
    }
    let ran = folder.run(&["list", "n.book", "--from", "2000"]);
    let past = "n.book has 2,000 names, at 0 to 1,999; --from 2,000 is past them";
    ran.assert_fails(1, &[past]);
    let ran = folder.run(&["list", "n.book", "--from", "19,99"]);
    ran.assert_fails(2, &["--from takes a number, not 19,99"]);
}

#[test]
fn a_part_can_be_listed() {
    let folder = Folder::with("mar.book", EXAMPLE);
    let ran = folder.run(&["list", "mar.book", "--long", "--from", "1", "--count", "1"]);
    let expected = "\
names 3 block 2 nodes 4 bytes 93
position  block  shared  length  name
       1      0       3       6  Marina
";
    ran.assert(0, expected);
    let ran = folder.run(&["list", "mar.book", "--from", "1", "--count", "1"]);
    ran.assert(0, "Marina\n");
    let ran = folder.run(&["list", "--plain", "mar.book", "--from=2", "--count=99"]);
    ran.assert(0, "Market Square\n");
    folder
        .run(&["list", "--plain", "mar.book", "--count", "0"])
        .assert(0, "");
    let ran = folder.run(&["list", "mar.book", "--from", "3"]);
    ran.assert_fails(
        1,
        &["mar.book has 3 names, at 0 to 2; --from 3 is past them"],
    );
    let most = usize::MAX.to_string();
    let ran = folder.run(&[
        "list", "--plain", "mar.book", "--from", "1", "--count", &most,
    ]);
    ran.assert(0, "Marina\nMarket Square\n");
}

#[test]
fn a_book_without_names_is_listed() {
    let folder = Folder::with("none.book", NO_NAMES);
    let expected = "names 0 block 2 nodes 0 bytes 16\nposition  block  shared  length  name\n";
    folder
        .run(&["list", "--long", "none.book"])
        .assert(0, expected);
    folder.run(&["list", "none.book"]).assert(0, "");
    folder.run(&["list", "--plain", "none.book"]).assert(0, "");
    let ran = folder.run(&["list", "none.book", "--from", "0"]);
    ran.assert_fails(1, &["none.book has no names"]);
}

#[test]
fn bytes_that_are_no_text_are_escaped() {
    // The example with another letter: Mar, Mar\n.., and an entry of raw bytes.
    let mut book = EXAMPLE.to_vec();
    book[8] = b'\n';
    book[9] = 0xFF;
    let folder = Folder::with("odd.book", &book);
    let ran = folder.run(&["list", "odd.book", "--long", "--from", "1", "--count", "1"]);
    assert!(ran
        .out()
        .ends_with("\n       1      0       3       6  Mari\\0A\\FF\n"));
    let ran = folder.run(&["list", "odd.book", "--plain"]);
    assert_eq!(ran.out(), "Mar\nMari\\0A\\FF\nMarket Square\n");
    assert!(ran
        .err
        .contains("odd.book: 1 name with bytes that are no line of text"));
}

#[test]
fn the_numbers_of_random_books_are_those_of_the_plain_list() {
    let mut numbers = Numbers(7);
    for round in 0..20 {
        let names = numbers.names(5 * round);
        let block = 1 + numbers.below(64);
        let folder = Folder::with("n.txt", names.join("\n").as_bytes());
        // In the first round there are no names.
        let build = |text| folder.run(&["build", text, "--empty", "--block", &block.to_string()]);
        let ran = build("n.txt");
        assert_eq!(ran.status, 0, "{}", ran.err);
        let ran = folder.run(&["list", "--long", "n.book"]);
        let mut lines = ran.out().lines();
        let head = lines.next().expect("there is a first line");
        assert_eq!(lines.next(), Some("position  block  shared  length  name"));
        let (count, bytes) = (names.len(), folder.read("n.book").len());
        assert!(
            head.starts_with(&format!("names {count} block {block} nodes ")),
            "{head}"
        );
        let head = head.replace(',', "");
        assert!(head.ends_with(&format!(" bytes {bytes}")), "{head}");
        for (position, name) in names.iter().enumerate() {
            let stored = match position % block {
                0 => 0,
                _ => shared(&names[position - 1], name),
            };
            let (number, length) = (position / block, name.len());
            let numbers = format!("{position:>8}  {number:>5}  {stored:>6}  {length:>6}");
            assert_eq!(lines.next(), Some(format!("{numbers}  {name}").as_str()));
        }
        assert_eq!(lines.next(), None);
        // The plain list builds the same book.
        let plain = folder.run(&["list", "n.book"]);
        folder.write("again.txt", &plain.bytes);
        build("again.txt");
        assert_eq!(folder.read("again.book"), folder.read("n.book"));
    }
}

#[test]
fn a_check_says_what_the_book_has() {
    let folder = Folder::with("mar.book", EXAMPLE);
    let ran = folder.run(&["check", "mar.book"]);
    ran.assert(
        0,
        "mar.book is a plain book: 3 names in blocks of 2, 4 nodes, 93 bytes\n",
    );
    let ran = folder.run_with(&["check", "-"], NO_NAMES);
    ran.assert(
        0,
        "standard input is a plain book: 0 names in blocks of 2, 0 nodes, 16 bytes\n",
    );
}

#[test]
fn what_is_no_book_is_refused_by_every_command() {
    let folder = Folder::new();
    let mut changed = EXAMPLE.to_vec();
    changed[30] = 1;
    let mut old = EXAMPLE.to_vec();
    old[92] = b'1';
    let long = vec![0; 100_000];
    let cases: [(&[u8], &str); 8] = [
        (b"", "it has 0 bytes"),
        (b"M", "it has 1 byte, and a book has 16 or more"),
        (b"Mar\nMarina\nMarket Square\n", "mark"),
        (&EXAMPLE[1..], "tells of 93 bytes, and it has 92"),
        (&EXAMPLE[..92], "mark"),
        (&old, "it was built before nodes had widths"),
        (&changed, "damaged"),
        (&long, "more than 65,535 bytes"),
    ];
    for (bytes, why) in cases {
        folder.write("no.book", bytes);
        let ran = folder.run(&["check", "no.book"]);
        assert_eq!((ran.status, ran.err.as_str()), (1, ""));
        assert!(ran.out().starts_with("no.book is no book: "));
        assert!(ran.out().contains(why), "{}", ran.out());
        for words in [
            &["list", "no.book"][..],
            &["ask", "no.book", "exact", "Mar"],
            &["ask", "no.book"],
            &["tree", "no.book", "--svg", "no.svg"],
        ] {
            folder
                .run(words)
                .assert_fails(1, &["no.book is no book: ", why]);
        }
        assert!(!folder.has("no.svg"));
    }
}

#[test]
fn a_changed_byte_never_makes_a_command_fail_badly() {
    let folder = Folder::new();
    let mut numbers = Numbers(11);
    for at in 0..EXAMPLE.len() {
        let mut book = EXAMPLE.to_vec();
        book[at] = numbers.below(256) as u8;
        folder.write("b", &book);
        for words in [
            &["check", "b"][..],
            &["list", "b"],
            &["list", "--long", "b"],
            &["tree", "b"],
        ] {
            let ran = folder.run(words);
            assert!(ran.status == 0 || ran.status == 1, "{at} {ran:?}");
            assert!(!ran.err.contains("panicked"), "{at} {ran:?}");
        }
    }
}
