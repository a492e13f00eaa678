//! Document 02, change request 10: books whose node table stands as six columns, and
//! the two calls that turn a plain book into one and back. Sentence by sentence, on
//! books that are written out by hand.

mod common;

use common::{
    all_strings, built, built_as, many_names, mar_names, marked_as, names, names_for_book_length,
    no, yes, Random, BOOK_BY_2, BOOK_BY_4, EMPTY_BOOK, FILLING, MAR_LIST, QUESTIONS, UNSET,
};
use model::layout::node_table;
use model::{
    announce_clip, announce_route, book_batch, book_check, book_from_columns, book_of, book_read,
    book_salvage, book_to_columns, build_kind, listing, open, Answer, BookKind, Kept, Row,
};

/// The 24 numbers of the example's node table: six columns of four.
#[rustfmt::skip]
const COLUMNS: [u8; 48] = [
    // symbols 0, 0, 106, 108
    0x00, 0x00, 0x00, 0x00, 0x6A, 0x00, 0x6C, 0x00,
    // depths 3, 4, 7, 14
    0x03, 0x00, 0x04, 0x00, 0x07, 0x00, 0x0E, 0x00,
    // first names 0, 0, 1, 2
    0x00, 0x00, 0x00, 0x00, 0x01, 0x00, 0x02, 0x00,
    // numbers of names 3, 1, 1, 1
    0x03, 0x00, 0x01, 0x00, 0x01, 0x00, 0x01, 0x00,
    // numbers of nodes 4, 1, 1, 1
    0x04, 0x00, 0x01, 0x00, 0x01, 0x00, 0x01, 0x00,
    // greatest lengths 13, 3, 6, 13
    0x0D, 0x00, 0x03, 0x00, 0x06, 0x00, 0x0D, 0x00,
];

/// The column book of Mar, Marina, Market Square with k = 2: all is as in the full
/// book but for the node table and the mark.
#[rustfmt::skip]
fn columns_by_2() -> [u8; 93] {
    let entries_and_blocks = [
        // entries: 00 03 Mar, 03 03 ina, 00 0D Market Square
        0x00, 0x03, 0x4D, 0x61, 0x72,
        0x03, 0x03, 0x69, 0x6E, 0x61,
        0x00, 0x0D, 0x4D, 0x61, 0x72, 0x6B, 0x65, 0x74, 0x20, 0x53, 0x71, 0x75, 0x61, 0x72, 0x65,
        // block table
        0x00, 0x00, 0x0A, 0x00,
    ];
    let trailer = [
        // n 3, k 2, block table at 25, node table at 29, m 4, length 93
        0x03, 0x00, 0x02, 0x00, 0x19, 0x00, 0x1D, 0x00, 0x04, 0x00, 0x5D, 0x00,
        0x4E, 0x42, 0x43, 0x32,
    ];
    let bytes = [&entries_and_blocks[..], &COLUMNS, &trailer].concat();
    bytes.try_into().unwrap()
}

/// The same names with k = 4: one block.
#[rustfmt::skip]
fn columns_by_4() -> [u8; 88] {
    let entries_and_blocks = [
        // entries: 00 03 Mar, 03 03 ina, 03 0A ket Square
        0x00, 0x03, 0x4D, 0x61, 0x72,
        0x03, 0x03, 0x69, 0x6E, 0x61,
        0x03, 0x0A, 0x6B, 0x65, 0x74, 0x20, 0x53, 0x71, 0x75, 0x61, 0x72, 0x65,
        // block table
        0x00, 0x00,
    ];
    let trailer = [
        // n 3, k 4, block table at 22, node table at 24, m 4, length 88
        0x03, 0x00, 0x04, 0x00, 0x16, 0x00, 0x18, 0x00, 0x04, 0x00, 0x58, 0x00,
        0x4E, 0x42, 0x43, 0x32,
    ];
    let bytes = [&entries_and_blocks[..], &COLUMNS, &trailer].concat();
    bytes.try_into().unwrap()
}

/// A call that converts.
type Convert = fn(&[u8], &mut [u8]) -> Answer;

/// Converts into a room that is large enough for any book, asserts that the room
/// past the book is untouched, and gives the book.
fn converted(convert: Convert, book: &[u8]) -> Vec<u8> {
    let mut room = vec![FILLING; 65_600];
    let answer = convert(book, &mut room);
    assert_eq!(answer, yes(book.len(), 0));
    assert!(room[book.len()..].iter().all(|&byte| byte == FILLING));
    room.truncate(book.len());
    room
}

/// Asserts that a conversion is refused like this and leaves its room as it was.
fn assert_refused(convert: Convert, book: &[u8], room_length: usize, code: usize) {
    let mut room = vec![FILLING; room_length];
    assert_eq!(convert(book, &mut room), no(code));
    assert_eq!(room, vec![FILLING; room_length]);
}

/// Lists of several shapes, each with a block size.
fn some_lists() -> Vec<(Vec<Vec<u8>>, usize)> {
    let chain = |length: usize| (1..=length).map(|at| vec![b'a'; at]).collect();
    let mut random = Random::from_seed(1);
    let mut grown: Vec<Vec<u8>> = (0..40)
        .map(|_| random.string(b"\0aMr\xC3\xA9\xFF", 1, 9))
        .collect();
    grown.sort();
    grown.dedup();
    vec![
        (vec![], 1),
        (vec![], 64),
        (names(&["Mar"]), 2),
        (names(&["Mar", "Marina"]), 1),
        (mar_names(), 1),
        (mar_names(), 2),
        (mar_names(), 4),
        (names(&["Café", "Cafés", "Köln"]), 2),
        (chain(200), 16),
        (many_names(300), 7),
        (grown, 5),
    ]
}

// "A column book, mark 4E 42 43 32, for the plain symbol rule only, stores the node
// table as six columns in the order of the fields."

#[test]
fn the_example_s_nodes_are_six_columns_of_four() {
    assert_eq!(node_table(BookKind::Columns, &mar_names()), COLUMNS);
}

#[test]
fn both_example_books_as_columns_byte_by_byte() {
    let book = |block| book_of(BookKind::Columns, block, &mar_names());
    assert_eq!(book(2), columns_by_2());
    assert_eq!(book(4), columns_by_4());
    assert_eq!(converted(book_to_columns, &BOOK_BY_2), columns_by_2());
    assert_eq!(converted(book_to_columns, &BOOK_BY_4), columns_by_4());
    assert_eq!(converted(book_from_columns, &columns_by_2()), BOOK_BY_2);
    assert_eq!(converted(book_from_columns, &columns_by_4()), BOOK_BY_4);
}

#[test]
fn all_but_the_node_table_and_the_mark_is_as_in_the_full_book() {
    assert_eq!(columns_by_2()[..29], BOOK_BY_2[..29]);
    assert_eq!(columns_by_2()[77..89], BOOK_BY_2[77..89]);
    assert_ne!(columns_by_2()[29..77], BOOK_BY_2[29..77]);
    for (list, block) in some_lists() {
        let [plain, columns] =
            [BookKind::Plain, BookKind::Columns].map(|kind| built_as(kind, &list, block));
        let trailer = plain.len() - 16;
        let start = usize::from(plain[trailer + 6]) + 256 * usize::from(plain[trailer + 7]);
        assert_eq!(columns.len(), plain.len());
        assert_eq!(columns[..start], plain[..start]);
        assert_eq!(columns[trailer..trailer + 12], plain[trailer..trailer + 12]);
        assert_eq!(columns[trailer + 12..], [0x4E, 0x42, 0x43, 0x32]);
    }
}

#[test]
fn field_j_of_node_v_stands_at_place_j_m_plus_v() {
    for (list, _) in some_lists() {
        let [rows, columns] =
            [BookKind::Plain, BookKind::Columns].map(|kind| node_table(kind, &list));
        let nodes = rows.len() / 12;
        for node in 0..nodes {
            for field in 0..6 {
                let row = 2 * (6 * node + field);
                let column = 2 * (field * nodes + node);
                assert_eq!(columns[column..column + 2], rows[row..row + 2]);
            }
        }
    }
}

#[test]
fn capitals_keep_their_own_symbols() {
    let list = names(&["MAR", "mar"]);
    let book = built_as(BookKind::Columns, &list, 2);
    assert_eq!(book_check(&book), yes(2, 2));
    assert_eq!(model::book_exact(&book, b"Mar").answer(), yes(0, 0));
    assert_eq!(model::book_exact(&book, b"mar").answer(), yes(1, 1));
}

#[test]
fn no_names_give_the_trailer_alone_and_only_the_mark_differs() {
    for block in 1..=64 {
        let (mut plain, mut columns) = (EMPTY_BOOK, EMPTY_BOOK);
        plain[2] = block;
        columns[2] = block;
        columns[14] = 0x43;
        let block = usize::from(block);
        assert_eq!(built(&[], block), plain);
        assert_eq!(built_as(BookKind::Columns, &[], block), columns);
        assert_eq!(converted(book_to_columns, &plain), columns);
        assert_eq!(converted(book_from_columns, &columns), plain);
        assert_eq!(book_check(&columns), yes(0, block));
        assert_eq!(model::book_exact(&columns, b"Mar").answer(), yes(0, 0));
        assert_eq!(model::book_nearest(&columns, b"Mar").answer(), no(10));
    }
}

/// The plain book of the name A with k = 1, as FORMAT writes it out.
#[rustfmt::skip]
const BOOK_OF_A: [u8; 33] = [
    // entry and block table
    0x00, 0x01, 0x41, 0x00, 0x00,
    // the root: (0,2,0,1,1,1)
    0x00, 0x00, 0x02, 0x00, 0x00, 0x00, 0x01, 0x00, 0x01, 0x00, 0x01, 0x00,
    // n 1, k 1, block table at 3, node table at 5, m 1, length 33
    0x01, 0x00, 0x01, 0x00, 0x03, 0x00, 0x05, 0x00, 0x01, 0x00, 0x21, 0x00,
    0x4E, 0x42, 0x4B, 0x32,
];

#[test]
fn of_one_name_rows_and_columns_coincide_but_for_the_mark() {
    for block in 1..=64 {
        let (mut plain, mut columns) = (BOOK_OF_A, BOOK_OF_A);
        plain[19] = block;
        columns[19] = block;
        columns[31] = 0x43;
        let (names, block) = (names(&["A"]), usize::from(block));
        assert_eq!(built(&names, block), plain);
        assert_eq!(built_as(BookKind::Columns, &names, block), columns);
        assert_eq!(converted(book_to_columns, &plain), columns);
        assert_eq!(converted(book_from_columns, &columns), plain);
        assert_eq!(book_check(&columns), yes(1, block));
        assert_eq!(model::book_exact(&columns, b"A").answer(), yes(0, 1));
    }
    let longest = vec![vec![b'n'; 200]];
    let columns = marked_as(BookKind::Columns, &built(&longest, 2));
    assert_eq!(built_as(BookKind::Columns, &longest, 2), columns);
    assert_eq!(book_check(&columns), yes(1, 2));
}

// "Conversion both ways gives the bytes that building would give."

#[test]
fn conversion_gives_the_bytes_that_building_gives_and_back_the_same_book() {
    for (list, block) in some_lists() {
        let plain = built(&list, block);
        let columns = built_as(BookKind::Columns, &list, block);
        assert_eq!(converted(book_to_columns, &plain), columns);
        assert_eq!(converted(book_from_columns, &columns), plain);
    }
}

/// Asserts that the books of these names become each other, that the column book is
/// checked, and that it answers what the plain list says of some names: each is found
/// where it stands, and is a range of those that begin so.
fn assert_converted_and_asked(list: &[Vec<u8>], block: usize) -> Vec<u8> {
    let plain = built(list, block);
    let columns = converted(book_to_columns, &plain);
    assert_eq!(columns, built_as(BookKind::Columns, list, block));
    assert_eq!(converted(book_from_columns, &columns), plain);
    assert_eq!(book_check(&columns), yes(list.len(), block));
    let last = list.len() - 1;
    for position in [0, 1, last / 2, last - 1, last] {
        let name = &list[position];
        let mut room = [FILLING; 200];
        let read = book_read(&columns, position, &mut room);
        assert_eq!((read, &room[..name.len()]), (yes(name.len(), 0), &name[..]));
        let exact = model::book_exact(&columns, name).answer();
        assert_eq!(exact, yes(position, 1));
        let begins = |front: &[u8]| list.iter().filter(|name| name.starts_with(front)).count();
        for length in [1, name.len() - 1] {
            let range = model::book_range(&columns, &name[..length]).answer();
            let first = list.partition_point(|one| one[..] < name[..length]);
            assert_eq!(range, yes(first, begins(&name[..length])));
        }
        let more = [&name[..name.len() - 1], &[255]].concat();
        for question in [&name[..], &name[..1], &more] {
            for ask in QUESTIONS {
                assert_eq!(ask(&columns, question), ask(&plain, question));
            }
        }
    }
    columns
}

#[test]
fn a_book_of_65_535_bytes_is_converted_both_ways() {
    for block in [1, 16] {
        let list = names_for_book_length(65_535, block);
        let columns = assert_converted_and_asked(&list, block);
        assert_eq!((list.len(), columns.len()), (320, 65_535));
    }
}

#[test]
fn as_many_nodes_as_there_can_be_are_converted_both_ways() {
    // The numbers from 0 to 1999 in eleven letters a and b: every fork has two
    // children, so m is 2n - 1. FORMAT has the length.
    let letter = |number: usize, place: usize| b"ab"[number >> (10 - place) & 1];
    let list: Vec<Vec<u8>> = (0..2000)
        .map(|number| (0..11).map(|place| letter(number, place)).collect())
        .collect();
    let columns = assert_converted_and_asked(&list, 64);
    let trailer = columns.len() - 16;
    let nodes = usize::from(columns[trailer + 8]) + 256 * usize::from(columns[trailer + 9]);
    assert_eq!((columns.len(), nodes), (56_166, 3_999));
}

#[test]
fn two_thousand_names_are_converted_both_ways() {
    assert_converted_and_asked(&many_names(2000), 64);
    // One more makes no book of either kind.
    for kind in [BookKind::Plain, BookKind::Columns] {
        let more = book_of(kind, 64, &many_names(2001));
        assert_eq!(book_check(&more), no(2));
        assert_refused(book_to_columns, &more, more.len(), 2);
        assert_refused(book_from_columns, &more, more.len(), 2);
    }
}

#[test]
fn the_room_past_the_book_is_untouched() {
    for (convert, book, expected) in [
        (book_to_columns as Convert, BOOK_BY_2, columns_by_2()),
        (book_from_columns, columns_by_2(), BOOK_BY_2),
    ] {
        for more in [0, 1, 7, 200] {
            let mut room = vec![FILLING; 93 + more];
            assert_eq!(convert(&book, &mut room), yes(93, 0));
            assert_eq!(room[..93], expected);
            assert_eq!(room[93..], vec![FILLING; more]);
        }
    }
}

// "Every question gives the same answer and the same counts on both."

#[test]
fn every_question_gives_the_same_answer_and_the_same_counts_on_both() {
    for (list, block) in some_lists() {
        let plain = built(&list, block);
        let columns = converted(book_to_columns, &plain);
        let mut questions = all_strings(b"aMr\xC3", 2);
        questions.extend([vec![b'a'; 200], vec![b'a'; 201], b"Market Squares".to_vec()]);
        for name in list.iter().step_by(1 + list.len() / 8) {
            questions.extend([name.clone(), [&name[..], b"x"].concat()]);
            questions.push(name[..name.len() - 1].to_vec());
        }
        for question in questions {
            for ask in QUESTIONS {
                assert_eq!(ask(&columns, &question), ask(&plain, &question));
            }
        }
    }
}

#[test]
fn every_row_of_a_batch_gives_the_same_answer_on_both() {
    let buffer = b"MarinaMarkMaxim";
    let mut rows = Vec::new();
    for (start, length) in [(0, 3), (0, 6), (6, 4), (10, 5), (3, 0), (12, 4)] {
        rows.extend((0..=6).map(|kind| Row {
            kind,
            start,
            length,
        }));
    }
    for (list, block) in some_lists() {
        let plain = built(&list, block);
        let columns = converted(book_to_columns, &plain);
        let answers = [plain, columns].map(|book| {
            let mut answers = vec![UNSET; rows.len()];
            let batch = book_batch(&book, buffer, &rows, &mut answers);
            assert_eq!(batch, yes(rows.len(), 0));
            answers
        });
        assert_eq!(answers[0], answers[1]);
    }
}

#[test]
fn check_read_and_listing_serve_column_books() {
    for (list, block) in some_lists() {
        let plain = built(&list, block);
        let columns = converted(book_to_columns, &plain);
        assert_eq!(book_check(&columns), yes(list.len(), block));
        let kind = BookKind::Columns;
        assert_eq!(open(&columns), Some((kind, block, list.clone())));
        assert_eq!(listing(&columns), listing(&plain));
        for (position, name) in list.iter().enumerate() {
            let mut room = [FILLING; 201];
            let answer = book_read(&columns, position, &mut room);
            assert_eq!(answer, yes(name.len(), 0));
            assert_eq!(&room[..name.len()], name.as_slice());
            assert!(room[name.len()..].iter().all(|&byte| byte == FILLING));
        }
        assert_eq!(book_read(&columns, list.len(), &mut [0; 200]), no(3));
    }
}

// "Demand 3 holds for each kind, its books taken among themselves: names, block size
// and mark give one book."

#[test]
fn under_the_other_mark_a_book_of_several_names_is_none() {
    for other in [BookKind::Plain, BookKind::Folded] {
        assert_eq!(book_check(&marked_as(other, &columns_by_2())), no(2));
        assert_eq!(book_check(&marked_as(other, &columns_by_4())), no(2));
    }
    let columns = BookKind::Columns;
    assert_eq!(book_check(&marked_as(columns, &BOOK_BY_2)), no(2));
    assert_eq!(book_check(&marked_as(columns, &BOOK_BY_4)), no(2));
    let folded = built_as(BookKind::Folded, &mar_names(), 2);
    assert_eq!(book_check(&marked_as(columns, &folded)), no(2));
}

#[test]
fn a_folded_table_as_columns_is_no_book() {
    // MAR and MARINA part in a capital, which has the symbol of i in a folded book.
    let list = names(&["MAR", "MARINA"]);
    let [folded, mut columns] =
        [BookKind::Folded, BookKind::Columns].map(|kind| built_as(kind, &list, 2));
    let start = folded.len() - 16 - 36;
    assert_eq!(columns[start..start + 6], [0, 0, 0, 0, 74, 0]);
    assert_eq!(folded[start + 24..start + 26], [106, 0]);
    columns[start + 4] = 106;
    assert_eq!(book_check(&columns), no(2));
}

#[test]
fn each_number_of_the_columns_off_by_one_is_refused() {
    for sound in [columns_by_2().to_vec(), columns_by_4().to_vec()] {
        let start = sound.len() - 16 - 48;
        for number in 0..24 {
            for step in [1, u16::MAX] {
                let mut book = sound.clone();
                let at = start + 2 * number;
                let changed = u16::from_le_bytes([book[at], book[at + 1]]).wrapping_add(step);
                book[at..at + 2].copy_from_slice(&changed.to_le_bytes());
                assert_eq!(book_check(&book), no(2), "{number}");
                assert_refused(book_from_columns, &book, 100, 2);
            }
        }
    }
}

#[test]
fn columns_in_another_order_are_refused() {
    let sound = columns_by_2();
    for one in 0..6 {
        for other in 0..one {
            let mut book = sound;
            for byte in 0..8 {
                book.swap(29 + 8 * one + byte, 29 + 8 * other + byte);
            }
            assert_eq!(book_check(&book), no(2), "{one} {other}");
        }
    }
}

#[test]
fn every_changed_byte_is_refused_or_makes_another_sound_book() {
    let sound = columns_by_2();
    let mut bytes = sound;
    let mut accepted = [0; 93];
    for at in 0..93 {
        for change in 1..=255 {
            bytes[at] = sound[at] ^ change;
            accepted[at] += usize::from(book_check(&bytes).code == 0);
        }
        bytes[at] = sound[at];
    }
    // The letters behind those that the nodes show may be any; the mark may not.
    let mut expected = [0; 93];
    expected[8..10].fill(255);
    expected[16..25].fill(255);
    assert_eq!(accepted, expected);
}

// "Refusals: conversion gives 2, also for a folded book, then 4."

#[test]
fn a_room_of_just_the_length_is_enough_and_one_byte_less_is_4() {
    let calls: [(Convert, [&[u8]; 3]); 2] = [
        (book_to_columns, [&BOOK_BY_2, &BOOK_BY_4, &EMPTY_BOOK]),
        (
            book_from_columns,
            [
                &columns_by_2(),
                &columns_by_4(),
                &built_as(BookKind::Columns, &[], 2),
            ],
        ),
    ];
    for (convert, books) in calls {
        for book in books {
            let length = book.len();
            assert_eq!(convert(book, &mut vec![0; length]), yes(length, 0));
            assert_refused(convert, book, length - 1, 4);
            assert_refused(convert, book, 0, 4);
        }
    }
}

#[test]
fn to_columns_takes_only_a_plain_book() {
    for list in [vec![], names(&["Mar"]), mar_names()] {
        for kind in [BookKind::Folded, BookKind::Columns] {
            let book = built_as(kind, &list, 2);
            assert_eq!(book_check(&book).code, 0);
            assert_refused(book_to_columns, &book, book.len(), 2);
        }
    }
}

#[test]
fn from_columns_takes_only_a_column_book() {
    for list in [vec![], names(&["Mar"]), mar_names()] {
        for kind in BookKind::FULL {
            let book = built_as(kind, &list, 2);
            assert_eq!(book_check(&book).code, 0);
            assert_refused(book_from_columns, &book, book.len(), 2);
        }
    }
}

#[test]
fn bytes_that_are_no_book_are_2() {
    let swapped = marked_as(BookKind::Columns, &BOOK_BY_2);
    let other = marked_as(BookKind::Plain, &columns_by_2());
    let wrong = [
        b"".to_vec(),
        MAR_LIST.to_vec(),
        BOOK_BY_2[1..].to_vec(),
        BOOK_BY_2[..92].to_vec(),
        columns_by_2()[1..].to_vec(),
        columns_by_2()[..92].to_vec(),
        [&columns_by_2()[..], b"2"].concat(),
        swapped,
        other,
    ];
    for bytes in wrong {
        for convert in [book_to_columns, book_from_columns] {
            assert_refused(convert, &bytes, 100, 2);
        }
    }
}

#[test]
fn two_comes_before_four() {
    let spoilt = {
        let mut bytes = columns_by_2();
        bytes[29] = 1;
        bytes
    };
    for room in [0, 1, 92] {
        assert_refused(book_from_columns, &spoilt, room, 2);
        assert_refused(book_from_columns, &BOOK_BY_2, room, 2);
        assert_refused(book_to_columns, &columns_by_2(), room, 2);
        assert_refused(book_to_columns, b"", room, 2);
        let folded = built_as(BookKind::Folded, &mar_names(), 2);
        assert_refused(book_to_columns, &folded, room, 2);
        assert_refused(book_from_columns, &folded, room, 2);
    }
}

#[test]
fn a_list_too_long_for_a_plain_book_has_no_column_book_either() {
    // Both kinds of a list have one length, so no conversion can give 9.
    let list = names_for_book_length(65_536, 16);
    let mut room = vec![FILLING; 70_000];
    for kind in [BookKind::Plain, BookKind::Columns] {
        let records = model::write_list(&list);
        assert_eq!(build_kind(kind, &records, 16, &mut room), no(9));
        let bytes = book_of(kind, 16, &list);
        assert_eq!(bytes.len(), 65_536);
        assert_refused(book_to_columns, &bytes, 70_000, 2);
        assert_refused(book_from_columns, &bytes, 70_000, 2);
    }
}

// "CR 9 and CR 13 serve full books of either rule, conversion the kind it turns,
// salvage the plain full mark; a sound book of another kind gets 2 there, and 13 from
// salvage."

#[test]
fn the_announcer_answers_2_to_a_column_book() {
    for (list, block) in some_lists() {
        let book = built_as(BookKind::Columns, &list, block);
        let clips = vec![7; list.len()];
        assert_eq!(announce_clip(&book, &clips, b""), no(2));
        assert_eq!(announce_clip(&book, &[], &[b'a'; 201]), no(2));
        let mut room = [0xAAAA; 3];
        assert_eq!(announce_route(&book, &clips, &[], &mut room), no(2));
        assert_eq!(announce_route(&book, &clips, &[0; 121], &mut room), no(2));
        assert_eq!(room, [0xAAAA; 3]);
    }
}

#[test]
fn salvage_answers_13_to_a_column_book() {
    for (list, block) in some_lists() {
        let book = built_as(BookKind::Columns, &list, block);
        let unset = Kept { kept: 7, names: 7 };
        for rows in [0, list.len().div_ceil(block), 3] {
            let (mut room, mut report) = ([FILLING; 100], vec![unset; rows]);
            assert_eq!(book_salvage(&book, &mut room, &mut report), no(13));
            assert_eq!(room, [FILLING; 100]);
            assert!(report.iter().all(|row| *row == unset));
        }
    }
    // Under the plain mark its nodes are not looked at, and its names are kept.
    let worn = marked_as(BookKind::Plain, &columns_by_2());
    let (mut room, mut report) = ([0; 100], [Kept::default(); 2]);
    let salvaged = book_salvage(&worn, &mut room, &mut report);
    assert_eq!(salvaged, yes(MAR_LIST.len(), 0));
    assert_eq!(&room[..MAR_LIST.len()], MAR_LIST);
}
