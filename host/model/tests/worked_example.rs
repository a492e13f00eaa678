//! Document 01, "A book in full" and "Checked on that book", with the sizes and
//! the fifth kind of question that document 02 gives them.

mod common;

use common::answers::{book_exact, book_nearest, book_place, book_range, book_width};
use common::{built, mar_names, yes, BOOK_BY_2, BOOK_BY_4, EMPTY_BOOK, FILLING, MAR_LIST};
use model::{book_build, book_check, book_of, book_read, listing, open, BookKind, Rule};

// A book in full

#[test]
fn block_size_2_gives_the_bytes() {
    assert_eq!(built(&mar_names(), 2), BOOK_BY_2);
    assert_eq!(book_of(BookKind::Plain, 2, &mar_names()), BOOK_BY_2);
}

#[test]
fn block_size_4_gives_the_bytes() {
    assert_eq!(built(&mar_names(), 4), BOOK_BY_4);
    assert_eq!(book_of(BookKind::Plain, 4, &mar_names()), BOOK_BY_4);
}

#[test]
fn building_gives_the_length_of_the_book() {
    let mut room = [0; 93];
    assert_eq!(book_build(MAR_LIST, 2, &mut room), yes(93, 0));
    assert_eq!(room, BOOK_BY_2);
    assert_eq!(book_build(MAR_LIST, 4, &mut room), yes(88, 0));
    assert_eq!(room[..88], BOOK_BY_4);
    assert_eq!(
        room[88..],
        BOOK_BY_2[88..],
        "room past the book is untouched"
    );
}

#[test]
fn the_parts_have_the_lengths_that_the_document_counts() {
    assert_eq!(model::layout::entries(2, &mar_names()).len(), 25);
    assert_eq!(
        model::layout::block_table(2, &mar_names()),
        [0x00, 0x00, 0x0A, 0x00]
    );
    assert_eq!(
        model::layout::node_table(BookKind::Plain, &mar_names()).len(),
        48
    );
    assert_eq!(model::layout::node_count(Rule::Plain, &mar_names()), 4);
}

#[test]
fn checking_the_two_books_gives_n_and_k() {
    assert_eq!(book_check(&BOOK_BY_2), yes(3, 2));
    assert_eq!(book_check(&BOOK_BY_4), yes(3, 4));
    assert_eq!(open(&BOOK_BY_2), Some((BookKind::Plain, 2, mar_names())));
    assert_eq!(open(&BOOK_BY_4), Some((BookKind::Plain, 4, mar_names())));
}

#[test]
fn reading_back_gives_each_name_and_its_length() {
    for book in [&BOOK_BY_2[..], &BOOK_BY_4[..]] {
        for (position, name) in mar_names().iter().enumerate() {
            let mut room = [FILLING; 20];
            let answer = book_read(book, position, &mut room);
            assert_eq!(answer, yes(name.len(), 0));
            assert_eq!(&room[..name.len()], name.as_slice());
            assert!(room[name.len()..].iter().all(|&byte| byte == FILLING));
        }
    }
}

#[test]
fn the_listing_of_blocks_of_2() {
    let expected = "names 3 block 2 nodes 4 bytes 93\n\
                    0 0 0 3 Mar\n\
                    1 0 3 6 Marina\n\
                    2 1 0 13 Market Square\n";
    assert_eq!(listing(&BOOK_BY_2), expected.as_bytes());
}

#[test]
fn the_listing_of_blocks_of_4() {
    let expected = "names 3 block 4 nodes 4 bytes 88\n\
                    0 0 0 3 Mar\n\
                    1 0 3 6 Marina\n\
                    2 0 3 13 Market Square\n";
    assert_eq!(listing(&BOOK_BY_4), expected.as_bytes());
}

#[test]
fn no_names_give_the_trailer_alone_with_k_as_given() {
    assert_eq!(built(&[], 2), EMPTY_BOOK);
    assert_eq!(book_check(&EMPTY_BOOK), yes(0, 2));
}

// Checked on that book: twelve rows, asked of both books, since the block size
// is no part of any answer.

fn for_both_books(ask: fn(&[u8], &[u8]) -> model::Answer, question: &str, expected: [usize; 2]) {
    for book in [&BOOK_BY_2[..], &BOOK_BY_4[..]] {
        let answer = ask(book, question.as_bytes());
        assert_eq!(answer, yes(expected[0], expected[1]), "{question}");
    }
}

#[test]
fn row_01_exact_marina() {
    for_both_books(book_exact, "Marina", [1, 1]);
}

#[test]
fn row_02_exact_marin() {
    for_both_books(book_exact, "Marin", [0, 0]);
}

#[test]
fn row_03_place_of_the_empty_question() {
    for_both_books(book_place, "", [0, 0]);
}

#[test]
fn row_04_place_mark() {
    for_both_books(book_place, "Mark", [2, 0]);
}

#[test]
fn row_05_place_maxim() {
    for_both_books(book_place, "Maxim", [3, 0]);
}

#[test]
fn row_06_range_mar() {
    for_both_books(book_range, "Mar", [0, 3]);
}

#[test]
fn row_07_range_mark() {
    for_both_books(book_range, "Mark", [2, 1]);
}

#[test]
fn row_08_range_mas() {
    for_both_books(book_range, "Mas", [3, 0]);
}

#[test]
fn row_09_nearest_mango() {
    for_both_books(book_nearest, "Mango", [0, 2]);
}

#[test]
fn row_10_nearest_maxim() {
    for_both_books(book_nearest, "Maxim", [1, 2]);
}

#[test]
fn row_11_nearest_zoo() {
    for_both_books(book_nearest, "Zoo", [0, 0]);
}

#[test]
fn row_12_nearest_m() {
    for_both_books(book_nearest, "M", [0, 1]);
}

// Width on the same book: document 02 gives no rows, but what it counts.

#[test]
fn width_of_each_range_is_its_longest_name() {
    for_both_books(book_width, "", [13, 0]);
    for_both_books(book_width, "Mar", [13, 0]);
    for_both_books(book_width, "Mari", [6, 0]);
    for_both_books(book_width, "Marina", [6, 0]);
    for_both_books(book_width, "Market Square", [13, 0]);
}

#[test]
fn width_of_an_empty_range_is_0() {
    for_both_books(book_width, "Mas", [0, 0]);
    for_both_books(book_width, "Maxim", [0, 0]);
    for_both_books(book_width, "Zoo", [0, 0]);
}
