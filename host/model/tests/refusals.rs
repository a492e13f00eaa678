//! Document 01, "Numbers given back when a call says no": each refusal of the
//! calls that take one question or none, their order, and what a refused call
//! leaves behind. Refusals 11 and 12 stand in `batch.rs`; the finer points of
//! 5, 6 and 7 in `names_and_lists.rs`.

mod common;

use common::{
    assert_build_refused, built, many_names, mar_names, names_for_book_length, no, no_record,
    unlooked, yes, BOOK_BY_2, EMPTY_BOOK, FILLING, MAR_LIST, QUESTIONS,
};
use model::{book_build, book_check, book_nearest, book_read, book_width, write_list};

/// Bytes that are no book.
const NO_BOOK: &[u8] = b"no book";

/// Asserts that reading back is refused like this and leaves its room alone.
fn assert_read_refused(book: &[u8], position: usize, room_length: usize, code: usize) {
    let mut room = vec![FILLING; room_length];
    assert_eq!(book_read(book, position, &mut room), no(code));
    assert_eq!(room, vec![FILLING; room_length]);
}

/// A list of 340 names of 200 bytes: its book has more than 65,535 bytes.
fn too_long_list() -> Vec<u8> {
    let mut names = Vec::new();
    for first in 1..=2u8 {
        for second in 0..170u8 {
            let mut name = vec![b'x'; 200];
            name[0] = first;
            name[1] = second;
            names.push(name);
        }
    }
    write_list(&names)
}

// Each refusal

#[test]
fn refusal_1_for_a_question_of_201_bytes() {
    for ask in QUESTIONS {
        assert_eq!(ask(&BOOK_BY_2, &[b'M'; 201]), unlooked(no(1)));
        assert_eq!(ask(&BOOK_BY_2, &[b'M'; 70_000]), unlooked(no(1)));
        assert_eq!(ask(&BOOK_BY_2, &[b'M'; 200]).code, 0);
    }
}

#[test]
fn refusal_2_for_bytes_that_are_no_book() {
    for ask in QUESTIONS {
        assert_eq!(ask(NO_BOOK, b"Mar"), unlooked(no(2)));
    }
    assert_eq!(book_check(NO_BOOK), no(2));
    assert_eq!(book_check(b""), no(2));
    assert_read_refused(NO_BOOK, 0, 200, 2);
}

#[test]
fn refusal_3_for_a_position_at_or_above_n() {
    for position in [3, 4, 255, 256, 65_536, usize::MAX] {
        assert_read_refused(&BOOK_BY_2, position, 200, 3);
    }
    for position in [0, 1, usize::MAX] {
        assert_read_refused(&EMPTY_BOOK, position, 200, 3);
    }
}

#[test]
fn refusal_4_for_a_room_shorter_than_the_name() {
    for (position, name) in mar_names().iter().enumerate() {
        for room_length in 0..name.len() {
            assert_read_refused(&BOOK_BY_2, position, room_length, 4);
        }
        let mut room = vec![FILLING; name.len()];
        assert_eq!(
            book_read(&BOOK_BY_2, position, &mut room),
            yes(name.len(), 0)
        );
        assert_eq!(&room, name);
    }
}

#[test]
fn refusal_4_for_a_room_shorter_than_the_book() {
    for room_length in 0..93 {
        assert_build_refused(MAR_LIST, 2, room_length, no(4));
    }
    for room_length in 0..16 {
        assert_build_refused(b"", 2, room_length, no(4));
    }
}

#[test]
fn refusal_5_brings_the_record() {
    assert_build_refused(b"\0", 2, 100, no_record(5, 0));
    assert_build_refused(b"\x03Mar\xC9", 2, 100, no_record(5, 1));
    assert_build_refused(b"\x03Mar\x06Marina\x0D", 2, 100, no_record(5, 2));
}

#[test]
fn refusal_6_brings_the_record() {
    assert_build_refused(b"\x03Mar\x03Mar", 2, 100, no_record(6, 1));
    assert_build_refused(b"\x03Mar\x06Marina\x03Mar", 2, 100, no_record(6, 2));
}

#[test]
fn refusal_7_brings_the_record() {
    let list = write_list(&many_names(2001));
    assert_build_refused(&list, 64, 65_535, no_record(7, 2000));
}

#[test]
fn refusal_8_for_a_block_size_that_is_not_1_to_64() {
    for block in [0, 65, 66, 255, 256, 257, 65_536, 65_537, usize::MAX] {
        assert_build_refused(MAR_LIST, block, 100, no(8));
        assert_build_refused(b"", block, 100, no(8));
    }
}

#[test]
fn refusal_9_for_a_book_past_65535_bytes() {
    assert_build_refused(&too_long_list(), 1, 70_000, no(9));
}

#[test]
fn refusal_10_for_nearest_of_a_book_without_names() {
    assert_eq!(book_nearest(&EMPTY_BOOK, b""), unlooked(no(10)));
    assert_eq!(book_nearest(&EMPTY_BOOK, b"Mar"), unlooked(no(10)));
    // The others are answered, width too.
    assert_eq!(book_width(&EMPTY_BOOK, b""), unlooked(yes(0, 0)));
    assert_eq!(book_width(&EMPTY_BOOK, b"Mar"), unlooked(yes(0, 0)));
}

// Order. Build: 8; then record by record 5, 6, 7; then 9; then 4

#[test]
fn build_gives_8_before_5_6_and_7() {
    assert_build_refused(b"\0", 0, 100, no(8));
    assert_build_refused(b"\x03Mar\x03Mar", 65, 100, no(8));
    assert_build_refused(&write_list(&many_names(2001)), usize::MAX, 100, no(8));
}

#[test]
fn build_gives_8_before_9_and_4() {
    assert_build_refused(&too_long_list(), 0, 100, no(8));
    assert_build_refused(MAR_LIST, 0, 0, no(8));
}

#[test]
fn build_gives_5_before_6_in_one_record() {
    assert_build_refused(b"\x03Mar\x04Lar", 2, 100, no_record(5, 1));
}

#[test]
fn build_gives_5_and_6_before_7_in_one_record() {
    let good = write_list(&many_names(2000));
    let falling = [&good[..], &[1, 0]].concat();
    let cut = [&good[..], &[2, 200]].concat();
    assert_build_refused(&cut, 64, 65_535, no_record(5, 2000));
    assert_build_refused(&falling, 64, 65_535, no_record(6, 2000));
}

#[test]
fn build_gives_the_refusal_of_the_first_bad_record() {
    assert_build_refused(b"\x01b\x01a\0", 2, 100, no_record(6, 1));
    assert_build_refused(b"\x01b\0\x01a", 2, 100, no_record(5, 1));
}

#[test]
fn build_gives_5_6_and_7_before_9() {
    // Long before the bad record, the book would already be too long.
    let long = too_long_list();
    assert_build_refused(&[&long[..], &[0]].concat(), 1, 100, no_record(5, 340));
    assert_build_refused(&[&long[..], &[1, 0]].concat(), 1, 100, no_record(6, 340));
    let mut many = many_names(2001);
    for name in &mut many {
        name.extend([b'x'; 198]);
    }
    assert_build_refused(&write_list(&many), 64, 100, no_record(7, 2000));
}

#[test]
fn build_gives_5_6_and_7_before_4() {
    assert_build_refused(b"\0", 2, 0, no_record(5, 0));
    assert_build_refused(b"\x03Mar\x03Mar", 2, 0, no_record(6, 1));
    assert_build_refused(&write_list(&many_names(2001)), 2, 0, no_record(7, 2000));
}

#[test]
fn build_gives_9_before_4_whatever_the_room() {
    for room_length in [0, 16, 65_535, 65_536, 70_000] {
        assert_build_refused(&too_long_list(), 1, room_length, no(9));
    }
}

#[test]
fn build_gives_4_only_for_a_book_within_65535_bytes() {
    let list = write_list(&names_for_book_length(65_535, 1));
    assert_build_refused(&list, 1, 65_534, no(4));
    let list = write_list(&names_for_book_length(65_536, 1));
    assert_build_refused(&list, 1, 65_534, no(9));
}

// Order. Read back: 2, 3, 4

#[test]
fn read_gives_2_before_3_and_4() {
    assert_read_refused(NO_BOOK, usize::MAX, 200, 2);
    assert_read_refused(NO_BOOK, 0, 0, 2);
    assert_read_refused(NO_BOOK, usize::MAX, 0, 2);
}

#[test]
fn read_gives_3_before_4() {
    assert_read_refused(&BOOK_BY_2, 3, 0, 3);
    assert_read_refused(&EMPTY_BOOK, 0, 0, 3);
}

// Order. Single question: 2, 1, 10

#[test]
fn a_question_gets_2_before_1() {
    for ask in QUESTIONS {
        assert_eq!(ask(NO_BOOK, &[b'M'; 201]), unlooked(no(2)));
    }
}

#[test]
fn a_question_gets_1_before_10() {
    for ask in QUESTIONS {
        assert_eq!(ask(&EMPTY_BOOK, &[b'M'; 201]), unlooked(no(1)));
    }
    assert_eq!(book_nearest(&EMPTY_BOOK, &[b'M'; 200]), unlooked(no(10)));
}

#[test]
fn a_question_gets_2_before_10() {
    // The trailer of a book without names, but k = 0.
    let mut bytes = EMPTY_BOOK;
    bytes[2] = 0;
    assert_eq!(book_nearest(&bytes, b"Mar"), unlooked(no(2)));
}

// Accepted calls

#[test]
fn a_build_leaves_the_room_past_the_book_untouched() {
    for room_length in [93, 94, 100, 70_000] {
        let mut room = vec![FILLING; room_length];
        assert_eq!(book_build(MAR_LIST, 2, &mut room), yes(93, 0));
        assert_eq!(room[..93], BOOK_BY_2);
        assert!(room[93..].iter().all(|&byte| byte == FILLING));
    }
}

#[test]
fn reading_back_leaves_the_room_past_the_name_untouched() {
    let mut room = [FILLING; 300];
    assert_eq!(book_read(&BOOK_BY_2, 1, &mut room), yes(6, 0));
    assert_eq!(&room[..6], b"Marina");
    assert_eq!(room[6..], [FILLING; 294]);
}

#[test]
fn a_name_is_read_whole_whatever_the_room_held_before() {
    // Marina is stored as 03 03 ina; its front must not come from the room.
    let mut room = *b"Someone else's name";
    assert_eq!(book_read(&BOOK_BY_2, 1, &mut room), yes(6, 0));
    assert_eq!(&room, b"Marinae else's name");
}

#[test]
fn calls_give_the_same_again() {
    let book = built(&mar_names(), 3);
    for ask in QUESTIONS {
        assert_eq!(ask(&book, b"Mark"), ask(&book, b"Mark"));
    }
    assert_eq!(book_check(&book), book_check(&book));
}
