//! Document 01, "A book in full", what it says of the two programs.

mod common;

use common::{built, mar_names, names, names_for_book_length, BOOK_BY_2, EMPTY_BOOK, MAR_LIST};
use model::{book_check, book_of, listing, make_book, write_list, BookKind};

/// The listing as text, for comparing.
fn listed(book: &[u8]) -> String {
    String::from_utf8(listing(book)).expect("a listing is plain text")
}

/// The building program's line on standard error, as text.
fn error_line(list: &[u8]) -> String {
    let line = make_book(list).expect_err("this list is refused");
    String::from_utf8(line).expect("the line is plain text")
}

/// 326 names of 200 bytes and one of 9, in records exactly 65,536 bytes. They
/// differ in their last two bytes only, so their book is short.
fn list_of_65536_bytes() -> Vec<u8> {
    let mut names = Vec::new();
    for number in 0..326usize {
        let mut name = vec![b'x'; 200];
        name[198] = (number / 200) as u8;
        name[199] = (number % 200) as u8;
        names.push(name);
    }
    names.push(vec![b'y'; 9]);
    write_list(&names)
}

// The listing program

#[test]
fn lines_tell_position_block_stored_count_full_length_and_name() {
    let list = names(&["Bar", "Bark", "Mar", "Marina", "Market Square"]);
    // bytes: entries 5 + 3 + 5 + 8 + 12, block table 4, nodes 96, trailer 16;
    // nodes: the root, one for Bar with two leaves, one for Mar with three
    let expected = "names 5 block 3 nodes 8 bytes 149\n\
                    0 0 0 3 Bar\n\
                    1 0 3 4 Bark\n\
                    2 0 0 3 Mar\n\
                    3 1 0 6 Marina\n\
                    4 1 3 13 Market Square\n";
    assert_eq!(listed(&built(&list, 3)), expected);
}

#[test]
fn no_book_is_the_line_refused_2() {
    assert_eq!(listed(b""), "refused 2\n");
    assert_eq!(listed(&BOOK_BY_2[..92]), "refused 2\n");
    assert_eq!(listed(&vec![0; 70_000]), "refused 2\n");
}

#[test]
fn the_listing_of_a_book_without_names_is_one_line_with_k_as_given() {
    assert_eq!(listed(&EMPTY_BOOK), "names 0 block 2 nodes 0 bytes 16\n");
    let book = built(&[], 64);
    assert_eq!(listed(&book), "names 0 block 64 nodes 0 bytes 16\n");
}

#[test]
fn bytes_32_to_126_print_as_they_are_but_backslash_and_others_as_hex() {
    let list = [0, 31, 32, 92, 126, 127, 255].map(|byte| vec![byte]);
    // entries 21, block table 2, a root and seven leaves 96, trailer 16
    let expected = "names 7 block 16 nodes 8 bytes 135\n\
                    0 0 0 1 \\00\n\
                    1 0 0 1 \\1F\n\
                    2 0 0 1  \n\
                    3 0 0 1 \\5C\n\
                    4 0 0 1 ~\n\
                    5 0 0 1 \\7F\n\
                    6 0 0 1 \\FF\n";
    assert_eq!(listed(&built(&list, 16)), expected);
}

#[test]
fn every_byte_has_one_print() {
    let list: Vec<Vec<u8>> = (0..=255).map(|byte| vec![b'[', byte, b']']).collect();
    let text = listed(&built(&list, 1));
    let lines: Vec<&str> = text.lines().skip(1).collect();
    assert_eq!(lines.len(), 256);
    for (byte, line) in lines.iter().enumerate() {
        let as_it_is = (32..=126).contains(&byte) && byte != 92;
        let shown = if as_it_is {
            char::from(byte as u8).to_string()
        } else {
            format!("\\{byte:02X}")
        };
        assert_eq!(*line, format!("{byte} {byte} 0 3 [{shown}]"));
    }
}

#[test]
fn an_escape_does_not_count_in_the_length() {
    let book = built(&[b"a\\b\n".to_vec()], 1);
    assert_eq!(
        listed(&book),
        "names 1 block 1 nodes 1 bytes 36\n0 0 0 4 a\\5Cb\\0A\n"
    );
}

// The building program

#[test]
fn the_building_program_writes_the_book_with_k_16() {
    let book = make_book(MAR_LIST).expect("a good list");
    assert_eq!(book, book_of(BookKind::Plain, 16, &mar_names()));
    // One block, as in the book with k = 4; only k differs.
    let mut expected = common::BOOK_BY_4;
    expected[88 - 14] = 16;
    assert_eq!(book, expected);
}

#[test]
fn the_building_program_takes_empty_input() {
    let expected = [0, 0, 16, 0, 0, 0, 0, 0, 0, 0, 16, 0, 0x4E, 0x42, 0x4B, 0x32];
    assert_eq!(make_book(b""), Ok(expected.to_vec()));
}

#[test]
fn what_was_built_lists() {
    let book = make_book(MAR_LIST).expect("a good list");
    let expected = "names 3 block 16 nodes 4 bytes 88\n\
                    0 0 0 3 Mar\n\
                    1 0 3 6 Marina\n\
                    2 0 3 13 Market Square\n";
    assert_eq!(listed(&book), expected);
}

#[test]
fn refusals_5_6_and_7_print_their_record() {
    assert_eq!(error_line(b"\x03Mar\0"), "refused 5 1\n");
    assert_eq!(error_line(b"\x06"), "refused 5 0\n");
    assert_eq!(error_line(b"\x03Mar\x06Marina\x03Mar"), "refused 6 2\n");
    let many = write_list(&common::many_names(2001));
    assert_eq!(error_line(&many), "refused 7 2000\n");
}

#[test]
fn refusal_9_prints_record_0() {
    let list = write_list(&names_for_book_length(65_536, 16));
    assert!(list.len() <= 65_536);
    assert_eq!(error_line(&list), "refused 9 0\n");
}

#[test]
fn the_building_program_writes_a_book_of_65535_bytes() {
    let list = write_list(&names_for_book_length(65_535, 16));
    let book = make_book(&list).expect("a good list");
    assert_eq!(book.len(), 65_535);
    assert_eq!(book_check(&book), common::yes(320, 16));
}

#[test]
fn input_of_65536_bytes_is_read() {
    let list = list_of_65536_bytes();
    assert_eq!(list.len(), 65_536);
    let book = make_book(&list).expect("a good list");
    assert_eq!(book_check(&book), common::yes(327, 16));
    // Also a bad list of that length gets its own refusal.
    assert_eq!(error_line(&vec![0; 65_536]), "refused 5 0\n");
}

#[test]
fn input_of_65537_bytes_is_too_long_whatever_it_holds() {
    let mut list = list_of_65536_bytes();
    list.push(0);
    assert_eq!(error_line(&list), "input too long\n");
    assert_eq!(error_line(&vec![0; 65_537]), "input too long\n");
    assert_eq!(error_line(&vec![255; 200_000]), "input too long\n");
}
