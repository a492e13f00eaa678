//! Document 01, "Edges to run": each pair of values on both sides of a limit,
//! with the sizes and the kind that document 02 brings.

mod common;

use common::answers::{book_exact, book_nearest, book_place, book_range, book_width};
use common::{
    assert_build_refused, built, many_names, names_for_book_length, no, no_record, yes, BOOK_BY_2,
    EMPTY_BOOK, FILLING, MAR_LIST,
};
use model::{
    book_batch, book_build, book_check, book_of, book_read, read_list, write_list, Answer,
    BookKind, Row, Rule,
};

#[test]
fn a_name_of_200_bytes_is_built_read_and_found() {
    let name = vec![b'n'; 200];
    let book = built(std::slice::from_ref(&name), 1);
    // entry 202, block table 2, one node 12, trailer 16
    assert_eq!(book.len(), 232);
    assert_eq!(book_check(&book), yes(1, 1));
    let mut room = [FILLING; 201];
    assert_eq!(book_read(&book, 0, &mut room), yes(200, 0));
    assert_eq!(&room[..200], name.as_slice());
    assert_eq!(room[200], FILLING);
    assert_eq!(book_exact(&book, &name), yes(0, 1));
    assert_eq!(book_width(&book, &name), yes(200, 0));
}

#[test]
fn a_name_of_201_bytes_is_refused_with_5() {
    let list = write_list(&[vec![b'm'], vec![b'n'; 201]]);
    assert_build_refused(&list, 1, 1000, no_record(5, 1));
    assert_build_refused(&list[2..], 1, 1000, no_record(5, 0));
}

#[test]
fn a_question_of_200_bytes_is_answered() {
    let list = vec![vec![b'q'; 199], vec![b'q'; 200]];
    let book = built(&list, 2);
    let question = [b'q'; 200];
    assert_eq!(book_exact(&book, &question), yes(1, 1));
    assert_eq!(book_place(&book, &question), yes(1, 0));
    assert_eq!(book_range(&book, &question), yes(1, 1));
    assert_eq!(book_nearest(&book, &question), yes(1, 200));
    assert_eq!(book_width(&book, &question), yes(200, 0));
}

#[test]
fn a_question_of_201_bytes_is_refused_with_1() {
    let book = built(&[vec![b'q'; 200]], 2);
    let question = [b'q'; 201];
    assert_eq!(book_exact(&book, &question), no(1));
    assert_eq!(book_place(&book, &question), no(1));
    assert_eq!(book_range(&book, &question), no(1));
    assert_eq!(book_nearest(&book, &question), no(1));
    assert_eq!(book_width(&book, &question), no(1));
}

#[test]
fn a_book_of_2000_names_is_built_and_its_last_name_is_found() {
    let list = many_names(2000);
    let book = built(&list, 64);
    assert_eq!(book_check(&book), yes(2000, 64));
    let mut room = [FILLING; 2];
    assert_eq!(book_read(&book, 1999, &mut room), yes(2, 0));
    assert_eq!(room, [7, 249]);
    assert_eq!(book_read(&book, 2000, &mut room), no(3));
    assert_eq!(book_exact(&book, &[7, 249]), yes(1999, 1));
    assert_eq!(book_place(&book, &[8]), yes(2000, 0));
    assert_eq!(book_range(&book, &[7]), yes(1750, 250));
    assert_eq!(book_range(&book, b""), yes(0, 2000));
    assert_eq!(book_nearest(&book, &[7, 250]), yes(1750, 1));
    assert_eq!(book_width(&book, b""), yes(2, 0));
}

#[test]
fn a_list_of_2001_names_is_refused_with_7() {
    let list = write_list(&many_names(2001));
    assert_build_refused(&list, 64, 65_535, no_record(7, 2000));
}

#[test]
fn block_sizes_0_and_65_are_refused_with_8() {
    assert_build_refused(MAR_LIST, 0, 200, no(8));
    assert_build_refused(MAR_LIST, 65, 200, no(8));
    assert_build_refused(b"", 0, 200, no(8));
    assert_build_refused(b"", 65, 200, no(8));
}

#[test]
fn block_sizes_1_and_64_are_built() {
    let list = many_names(130);
    for (block, blocks) in [(1, 130), (64, 3)] {
        let book = built(&list, block);
        assert_eq!(book_check(&book), yes(130, block));
        // 131 nodes; a block's first entry has 4 bytes, every other 3, as all
        // names begin with the same byte
        let entries = 130 * 3 + blocks;
        assert_eq!(book.len(), entries + 2 * blocks + 131 * 12 + 16);
    }
}

#[test]
fn a_room_one_byte_short_is_refused_with_4() {
    assert_build_refused(MAR_LIST, 2, 92, no(4));
}

#[test]
fn a_room_of_just_its_length_holds_the_book() {
    let mut room = [FILLING; 93];
    assert_eq!(book_build(MAR_LIST, 2, &mut room), yes(93, 0));
    assert_eq!(room, BOOK_BY_2);
}

#[test]
fn a_book_of_65535_bytes_is_built_checked_and_read() {
    // How these lists come to their length stands at names_for_book_length.
    for block in [1, 16] {
        let list = names_for_book_length(65_535, block);
        let mut room = vec![FILLING; 65_535];
        let answer = book_build(&write_list(&list), block, &mut room);
        assert_eq!(answer, yes(65_535, 0));
        assert_eq!(book_check(&room), yes(320, block));
        let mut name = [FILLING; 200];
        assert_eq!(book_read(&room, 0, &mut name), yes(200, 0));
        assert_eq!(&name, list[0].as_slice());
    }
}

#[test]
fn a_book_of_65536_bytes_is_refused_with_9() {
    for block in [1, 16] {
        let list = names_for_book_length(65_536, block);
        assert_eq!(book_of(BookKind::Plain, block, &list).len(), 65_536);
        for room_length in [0, 65_535, 65_536, 70_000] {
            assert_build_refused(&write_list(&list), block, room_length, no(9));
        }
    }
}

#[test]
fn a_batch_of_64_rows_is_answered() {
    let row = Row {
        kind: 1,
        start: 0,
        length: 6,
    };
    let mut answers = [Answer::default(); 64];
    let answer = book_batch(&BOOK_BY_2, b"Marina", &[row; 64], &mut answers);
    assert_eq!(answer, yes(64, 0));
    assert_eq!(answers, [yes(1, 1); 64]);
}

#[test]
fn a_batch_of_65_rows_is_refused_with_12() {
    let row = Row {
        kind: 1,
        start: 0,
        length: 6,
    };
    let mut answers = [Answer::default(); 65];
    let answer = book_batch(&BOOK_BY_2, b"Marina", &[row; 65], &mut answers);
    assert_eq!(answer, no(12));
    assert_eq!(answers, [Answer::default(); 65]);
}

#[test]
fn a_row_of_kind_5_is_answered_and_one_of_kind_6_is_refused_with_11() {
    let rows = [5, 6].map(|kind| Row {
        kind,
        start: 0,
        length: 4,
    });
    let mut answers = [Answer::default(); 2];
    let answer = book_batch(&BOOK_BY_2, b"Mari", &rows, &mut answers);
    assert_eq!(answer, yes(2, 0));
    assert_eq!(answers, [yes(6, 0), no(11)]);
}

#[test]
fn equal_neighbours_are_refused_with_6() {
    assert_build_refused(b"\x03Mar\x03Mar", 2, 200, no_record(6, 1));
    assert_eq!(read_list(Rule::Plain, b"\x01a\x01b\x01b\x01c"), Err((6, 2)));
}

#[test]
fn the_empty_list_gives_the_book_of_16_bytes() {
    let mut room = [FILLING; 17];
    assert_eq!(book_build(b"", 2, &mut room), yes(16, 0));
    assert_eq!(room[..16], EMPTY_BOOK);
    assert_eq!(room[16], FILLING);
    assert_eq!(book_check(&EMPTY_BOOK), yes(0, 2));
    assert_eq!(book_read(&EMPTY_BOOK, 0, &mut room), no(3));
    assert_eq!(book_width(&EMPTY_BOOK, b""), yes(0, 0));
}
