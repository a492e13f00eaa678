//! Folded books through the linked archive, on bytes that are written out by hand:
//! document 02, change request 7.

use proved::{
    book_batch, book_build, book_build_folded, book_check, book_exact, book_nearest, book_place,
    book_range, book_read, book_salvage, book_width, Answer, Counted, Kept, Row,
};

/// The folded book of MAR and marina with blocks of 2. As bytes the two share
/// nothing, so marina's count is 0; as symbols they share three, and there their
/// nodes part, by the end symbol and by 106, the symbol of i.
const MAR_MARINA: &[u8; 67] = b"\x00\x03MAR\x00\x06marina\
    \x00\x00\
    \x00\x00\x03\x00\x00\x00\x02\x00\x03\x00\x06\x00\
    \x00\x00\x04\x00\x00\x00\x01\x00\x01\x00\x03\x00\
    \x6A\x00\x07\x00\x01\x00\x01\x00\x01\x00\x06\x00\
    \x02\x00\x02\x00\x0D\x00\x0F\x00\x03\x00\x43\x00NBF2";

/// The list of both.
const LIST: &[u8] = b"\x03MAR\x06marina";

/// An answer.
fn answer(code: usize, first: usize, second: usize) -> Answer {
    Answer {
        code,
        first,
        second,
    }
}

/// What an accepted question gives: its answer, and how far it looked.
fn looked([first, second]: [usize; 2], visits: usize, entries: usize) -> Counted {
    Counted {
        code: 0,
        first,
        second,
        visits,
        entries,
    }
}

/// The book with the mark of the plain ones.
fn with_plain_mark() -> [u8; 67] {
    let mut book = *MAR_MARINA;
    book[63..].copy_from_slice(b"NBK2");
    book
}

#[test]
fn counts_go_by_bytes_and_nodes_by_symbols() {
    let mut room = [0xAA; 70];
    assert_eq!(book_build_folded(LIST, 2, &mut room), answer(0, 67, 0));
    assert_eq!(&room[..67], MAR_MARINA);
    assert_eq!(room[67..], [0xAA; 3]);
}

#[test]
fn the_book_is_checked_and_read_as_it_was_spelt() {
    assert_eq!(book_check(MAR_MARINA), answer(0, 2, 2));
    let mut room = [0xAA; 8];
    assert_eq!(book_read(MAR_MARINA, 0, &mut room), answer(0, 3, 0));
    assert_eq!(&room[..3], b"MAR");
    assert_eq!(book_read(MAR_MARINA, 1, &mut room), answer(0, 6, 0));
    assert_eq!(&room, b"marina\xAA\xAA");
}

#[test]
fn questions_find_any_case() {
    // Two visits where a leaf is reached, one at the root alone; one entry for MAR,
    // and two for marina behind it.
    for (question, expected) in [
        (&b"mar"[..], looked([0, 1], 2, 1)),
        (b"MARINA", looked([1, 1], 2, 2)),
        (b"Marin", looked([0, 0], 2, 2)),
    ] {
        assert_eq!(book_exact(MAR_MARINA, question), expected);
    }
    assert_eq!(book_place(MAR_MARINA, b"MARI"), looked([1, 0], 2, 2));
    assert_eq!(book_range(MAR_MARINA, b"mAR"), looked([0, 2], 2, 1));
    assert_eq!(book_range(MAR_MARINA, b"["), looked([0, 0], 1, 1));
    assert_eq!(book_width(MAR_MARINA, b"M"), looked([6, 0], 1, 1));
    assert_eq!(book_nearest(MAR_MARINA, b"MARINE"), looked([1, 5], 2, 2));
    assert_eq!(book_nearest(MAR_MARINA, b"mango"), looked([0, 2], 1, 1));
}

#[test]
fn a_batch_does_so_too() {
    let row = |kind, start, length| Row {
        kind,
        start,
        length,
    };
    let rows = [row(1, 0, 6), row(3, 0, 3), row(4, 0, 5), row(5, 0, 4)];
    let mut answers = [answer(9, 9, 9); 4];
    let batch = book_batch(MAR_MARINA, b"MARINA", &rows, &mut answers);
    assert_eq!(batch, answer(0, 4, 0));
    let expected = [(1, 1), (0, 2), (1, 5), (6, 0)];
    assert_eq!(answers, expected.map(|(one, other)| answer(0, one, other)));
}

#[test]
fn a_refused_build_leaves_the_room_as_it_was() {
    let mut room = [0xAA; 66];
    assert_eq!(book_build_folded(LIST, 2, &mut room), answer(4, 0, 0));
    assert_eq!(book_build_folded(LIST, 65, &mut room), answer(8, 0, 0));
    let equal = b"\x01a\x03Mar\x03mAR";
    assert_eq!(book_build_folded(equal, 2, &mut room), answer(6, 2, 0));
    let falling = b"\x03Zoo\x05abbey";
    assert_eq!(book_build_folded(falling, 2, &mut room), answer(6, 1, 0));
    assert_eq!(room, [0xAA; 66]);
    // for a plain book it rises
    assert_eq!(book_build(falling, 2, &mut [0; 99]).code, 0);
}

#[test]
fn under_the_plain_mark_it_is_no_book() {
    let book = with_plain_mark();
    assert_eq!(book_check(&book), answer(2, 0, 0));
    let refused = Counted {
        code: 2,
        ..Counted::default()
    };
    assert_eq!(book_exact(&book, b"mar"), refused);
}

#[test]
fn salvage_takes_the_plain_mark_alone() {
    let (mut room, mut report) = ([0xAA; 20], [Kept { kept: 7, names: 7 }]);
    let salvaged = book_salvage(MAR_MARINA, &mut room, &mut report);
    assert_eq!(salvaged, answer(13, 0, 0));
    assert_eq!((room, report), ([0xAA; 20], [Kept { kept: 7, names: 7 }]));
    let salvaged = book_salvage(&with_plain_mark(), &mut room, &mut report);
    assert_eq!(salvaged, answer(0, 11, 0));
    assert_eq!(&room[..11], LIST);
    assert_eq!(report, [Kept { kept: 1, names: 2 }]);
}
