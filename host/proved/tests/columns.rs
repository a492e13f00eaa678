//! Document 02's request 10, sentence by sentence, through the linked archive; and
//! the stored cases of it. The cases, what to do with them and what is expected stand
//! in `data`, written by `cargo run -p vectors -- SET FOLDER`. The largest books are
//! too long to be stored: the second program lays them out here, and its answers are
//! what is expected.
//!
//! All that is lent stands between a fence, which ends the test where it is touched,
//! and bytes that are watched: once with the fence before it, once behind it.

use fenced::{Fence, Fenced};
use model::{book_of, BookKind};
use proved::{
    announce_clip, announce_route, book_batch, book_build, book_build_folded, book_check,
    book_exact, book_from_columns, book_nearest, book_place, book_range, book_read, book_salvage,
    book_to_columns, book_width, Answer, Counted, Kept, Row,
};
use std::fmt::Debug;
use vectors::lists::{self, Names};
use vectors::questions::{extensions, misses};

/// Mar, Marina, Market Square as list records.
const LIST: &[u8] = b"\x03Mar\x06Marina\x0DMarket Square";

/// The plain book of these with blocks of 2: four nodes, six numbers each.
const PLAIN: &[u8; 93] = b"\x00\x03Mar\x03\x03ina\x00\x0DMarket Square\
    \x00\x00\x0A\x00\
    \x00\x00\x03\x00\x00\x00\x03\x00\x04\x00\x0D\x00\
    \x00\x00\x04\x00\x00\x00\x01\x00\x01\x00\x03\x00\
    \x6A\x00\x07\x00\x01\x00\x01\x00\x01\x00\x06\x00\
    \x6C\x00\x0E\x00\x02\x00\x01\x00\x01\x00\x0D\x00\
    \x03\x00\x02\x00\x19\x00\x1D\x00\x04\x00\x5D\x00NBK2";

/// The column book of these: six columns of four numbers.
const COLUMNS: &[u8; 93] = b"\x00\x03Mar\x03\x03ina\x00\x0DMarket Square\
    \x00\x00\x0A\x00\
    \x00\x00\x00\x00\x6A\x00\x6C\x00\
    \x03\x00\x04\x00\x07\x00\x0E\x00\
    \x00\x00\x00\x00\x01\x00\x02\x00\
    \x03\x00\x01\x00\x01\x00\x01\x00\
    \x04\x00\x01\x00\x01\x00\x01\x00\
    \x0D\x00\x03\x00\x06\x00\x0D\x00\
    \x03\x00\x02\x00\x19\x00\x1D\x00\x04\x00\x5D\x00NBC2";

/// The book with blocks of 4 as columns.
const COLUMNS_BY_4: &[u8; 88] = b"\x00\x03Mar\x03\x03ina\x03\x0Aket Square\
    \x00\x00\
    \x00\x00\x00\x00\x6A\x00\x6C\x00\
    \x03\x00\x04\x00\x07\x00\x0E\x00\
    \x00\x00\x00\x00\x01\x00\x02\x00\
    \x03\x00\x01\x00\x01\x00\x01\x00\
    \x04\x00\x01\x00\x01\x00\x01\x00\
    \x0D\x00\x03\x00\x06\x00\x0D\x00\
    \x03\x00\x04\x00\x16\x00\x18\x00\x04\x00\x58\x00NBC2";

/// The books without names.
const EMPTY: &[u8; 16] = b"\0\0\x02\0\0\0\0\0\0\0\x10\0NBK2";
const EMPTY_COLUMNS: &[u8; 16] = b"\0\0\x02\0\0\0\0\0\0\0\x10\0NBC2";

/// What a room holds before a call.
const UNSET: u8 = 0xAA;

/// How many items are watched beside what is lent.
const WATCHED: usize = 2;

/// A call that converts.
type Convert = fn(&[u8], &mut [u8]) -> Answer;

/// A call that asks a question.
type Ask = fn(&[u8], &[u8]) -> Counted;

/// The five questions, in the order of the kinds.
const QUESTIONS: [Ask; 5] = [book_exact, book_place, book_range, book_nearest, book_width];

/// An answer.
fn answer(code: usize, first: usize, second: usize) -> Answer {
    Answer {
        code,
        first,
        second,
    }
}

/// The list of these names, in the order given.
fn list<N: AsRef<[u8]>>(names: &[N]) -> Vec<u8> {
    let records = names.iter().map(|name| {
        let name = name.as_ref();
        let length = u8::try_from(name.len()).expect("a length is a byte");
        [&[length], name].concat()
    });
    records.collect::<Vec<_>>().concat()
}

/// The plain book of a list in blocks of so many.
fn built(list: &[u8], block: usize) -> Vec<u8> {
    let mut room = vec![0; 65_535];
    let built = book_build(list, block, &mut room);
    assert_eq!(built.code, 0);
    room.truncate(built.first);
    room
}

/// Lends a call a copy of these items, with a fence on one side and items that are
/// watched on the other: what it gives, and the copy afterwards.
fn between<T: Copy + PartialEq + Debug, R>(
    items: &[T],
    watched: T,
    fence: Fence,
    call: impl FnOnce(&mut [T]) -> R,
) -> (R, Vec<T>) {
    let beside = vec![watched; WATCHED];
    let (all, start) = match fence {
        Fence::Before => ([items, &beside].concat(), 0),
        Fence::Behind => ([&beside, items].concat(), WATCHED),
    };
    let mut lent = Fenced::of(&all, fence);
    let end = start + items.len();
    let given = call(&mut lent[start..end]);
    assert_eq!([&lent[..start], &lent[end..]].concat(), beside);
    (given, lent[start..end].to_vec())
}

/// What a call gives with the fence before all that is lent, which has to be what it
/// gives with the fence behind.
fn on_both_sides<R: PartialEq + Debug>(call: impl Fn(Fence) -> R) -> R {
    let [one, other] = [Fence::Before, Fence::Behind].map(call);
    assert_eq!(one, other);
    one
}

/// What a call that takes a book gives; the book is as it was.
fn with_book<R: PartialEq + Debug>(book: &[u8], call: impl Fn(&[u8], Fence) -> R) -> R {
    on_both_sides(|fence| {
        let (given, after) = between(book, b'N', fence, |lent| call(lent, fence));
        assert_eq!(after, book);
        given
    })
}

/// Converts into this room: the answer, and the room afterwards.
fn convert_into(convert: Convert, book: &[u8], room: &[u8]) -> (Answer, Vec<u8>) {
    with_book(book, |book, fence| {
        between(room, 0x5B, fence, |room| convert(book, room))
    })
}

/// The other book, out of a room that is longer than it by these bytes.
fn converted(convert: Convert, book: &[u8], more: usize) -> Vec<u8> {
    let length = book.len();
    let (given, mut room) = convert_into(convert, book, &vec![UNSET; length + more]);
    assert_eq!(given, answer(0, length, 0));
    assert_eq!(room[length..], vec![UNSET; more]);
    room.truncate(length);
    room
}

/// Asserts that a conversion is refused so, and that the room is as it was.
fn assert_refused(convert: Convert, book: &[u8], space: usize, code: usize) {
    let room = vec![UNSET; space];
    let expected = (answer(code, 0, 0), room.clone());
    assert_eq!(convert_into(convert, book, &room), expected);
}

/// The bytes with another mark.
fn marked(book: &[u8], mark: &[u8; 4]) -> Vec<u8> {
    [&book[..book.len() - 4], mark].concat()
}

/// The plain book's numbers moved to their columns, by the trailer's own start and
/// number of nodes.
fn moved(plain: &[u8]) -> Vec<u8> {
    let trailer = plain.len() - 16;
    let number = |at: usize| usize::from(plain[at]) + 256 * usize::from(plain[at + 1]);
    let (start, nodes) = (number(trailer + 6), number(trailer + 8));
    let mut columns = marked(plain, b"NBC2");
    for node in 0..nodes {
        for field in 0..6 {
            let from = start + 12 * node + 2 * field;
            let to = start + 2 * (field * nodes + node);
            columns[to..to + 2].copy_from_slice(&plain[from..from + 2]);
        }
    }
    columns
}

/// Plain books of several shapes.
fn some_books() -> Vec<Vec<u8>> {
    let chain: Vec<Vec<u8>> = (1..=200).map(|length| vec![b'a'; length]).collect();
    let pairs: Vec<[u8; 2]> = (0..2000u16).map(|at| (at * 7).to_be_bytes()).collect();
    let ends = [vec![0], vec![0; 200], vec![255], vec![255; 200]];
    vec![
        built(b"", 1),
        built(b"", 64),
        built(b"\x03Mar", 2),
        built(b"\x03MAR\x03mar", 2),
        built(LIST, 1),
        built(LIST, 2),
        built(LIST, 4),
        built(&list(&chain), 16),
        built(&list(&pairs), 64),
        built(&list(&ends), 3),
    ]
}

#[test]
fn both_example_books_are_turned_byte_by_byte() {
    for more in [0, 1, 300] {
        assert_eq!(converted(book_to_columns, PLAIN, more), COLUMNS);
        assert_eq!(converted(book_from_columns, COLUMNS, more), PLAIN);
        let by_4 = built(LIST, 4);
        assert_eq!(converted(book_to_columns, &by_4, more), COLUMNS_BY_4);
        assert_eq!(converted(book_from_columns, COLUMNS_BY_4, more), by_4);
    }
}

#[test]
fn without_names_only_the_mark_differs() {
    for block in 1..=64 {
        let [plain, columns] = [EMPTY, EMPTY_COLUMNS].map(|book| {
            let mut book = *book;
            book[2] = block;
            book
        });
        let block = usize::from(block);
        assert_eq!(built(b"", block), plain);
        assert_eq!(converted(book_to_columns, &plain, 1), columns);
        assert_eq!(converted(book_from_columns, &columns, 1), plain);
        assert_eq!(book_check(&columns), answer(0, 0, block));
    }
}

/// The books of the name A with blocks of 1, but for the mark: an entry, the start of
/// its block, a node, and the trailer's six numbers.
const OF_A: &[u8; 29] = b"\x00\x01A\x00\x00\
    \x00\x00\x02\x00\x00\x00\x01\x00\x01\x00\x01\x00\
    \x01\x00\x01\x00\x03\x00\x05\x00\x01\x00\x21\x00";

#[test]
fn of_one_name_rows_and_columns_coincide_but_for_the_mark() {
    for block in 1..=64 {
        let mut numbers = *OF_A;
        numbers[19] = block;
        let [plain, columns] = [b"NBK2", b"NBC2"].map(|mark| [&numbers[..], mark].concat());
        let block = usize::from(block);
        assert_eq!(built(b"\x01A", block), plain);
        assert_eq!(converted(book_to_columns, &plain, 1), columns);
        assert_eq!(converted(book_from_columns, &columns, 1), plain);
        assert_eq!(book_check(&columns), answer(0, 1, block));
    }
    let plain = built(&list(&[[b'n'; 200]]), 2);
    let columns = marked(&plain, b"NBC2");
    assert_eq!(converted(book_to_columns, &plain, 1), columns);
    assert_eq!(converted(book_from_columns, &columns, 1), plain);
    assert_eq!(book_check(&columns), answer(0, 1, 2));
}

#[test]
fn to_columns_and_back_is_the_same_book() {
    for plain in some_books() {
        let columns = converted(book_to_columns, &plain, 3);
        assert_eq!(columns, moved(&plain));
        assert_eq!(converted(book_from_columns, &columns, 3), plain);
    }
}

// The largest books

/// The answer's numbers as the second program gives them.
fn told(given: model::Answer) -> Answer {
    answer(given.code, given.first, given.second)
}

/// Those of a question.
fn counted(given: model::Counted) -> Counted {
    Counted {
        code: given.code,
        first: given.first,
        second: given.second,
        visits: given.visits,
        entries: given.entries,
    }
}

/// A call of the second program that asks a question.
type Expect = fn(&[u8], &[u8]) -> model::Counted;

/// Its five questions, in the order of the kinds.
const EXPECTED: [Expect; 5] = [
    model::book_exact,
    model::book_place,
    model::book_range,
    model::book_nearest,
    model::book_width,
];

/// Turns the books that the second program lays out of these names both ways, and
/// holds the column book's check, readings, questions and a batch of them to the
/// second program. Gives the column book.
fn hold_large(names: &Names, block: usize) -> Vec<u8> {
    let [plain, columns] =
        [BookKind::Plain, BookKind::Columns].map(|kind| book_of(kind, block, names));
    assert_eq!(built(&list(names), block), plain);
    assert_eq!(converted(book_to_columns, &plain, 0), columns);
    assert_eq!(converted(book_from_columns, &columns, 0), plain);
    let calls: [Convert; 2] = [book_to_columns, book_from_columns];
    for (book, [takes, other]) in [(&plain, calls), (&columns, [calls[1], calls[0]])] {
        assert_refused(takes, book, book.len() - 1, 4);
        assert_refused(other, book, book.len(), 2);
    }
    let checked = with_book(&columns, |book, _| book_check(book));
    assert_eq!(checked, told(model::book_check(&columns)));
    assert_eq!(checked, answer(0, names.len(), block));

    let last = names.len() - 1;
    let positions = [0, block - 1, block, last / 2, last];
    for position in positions {
        let name = &names[position];
        let (given, room) = with_book(&columns, |book, fence| {
            let room = [UNSET; 200];
            between(&room, 0x5B, fence, |room| book_read(book, position, room))
        });
        assert_eq!(given, answer(0, name.len(), 0));
        assert_eq!(&room[..name.len()], &name[..]);
        assert!(room[name.len()..].iter().all(|&byte| byte == UNSET));
    }
    let past = book_read(&columns, last + 1, &mut [UNSET; 200]);
    assert_eq!(past, answer(3, 0, 0));

    let mut questions = vec![vec![], vec![0], vec![255; 200]];
    for name in positions.map(|position| &names[position]) {
        questions.extend([name.clone(), name[..1].to_vec()]);
        let near = [extensions(name), misses(name)].concat();
        questions.extend(near.into_iter().filter(|near| near.len() <= 200));
    }
    hold_asked(&plain, &columns, &questions);
    columns
}

/// Holds each of these questions, in all five kinds, to the second program, which is
/// asked the plain book; then as many of them as a batch takes, each in one kind.
fn hold_asked(plain: &[u8], columns: &[u8], questions: &Names) {
    let mut buffer = Vec::new();
    let mut rows = Vec::new();
    let mut answers = Vec::new();
    for (number, question) in questions.iter().enumerate() {
        for (ask, expected) in QUESTIONS.iter().zip(EXPECTED) {
            let expected = counted(expected(plain, question));
            let given = with_book(columns, |book, _| ask(book, question));
            assert_eq!(given, expected, "{question:?}");
        }
        if number < 64 {
            let kind = number % 5;
            rows.push(Row {
                kind: kind + 1,
                start: buffer.len(),
                length: question.len(),
            });
            buffer.extend_from_slice(question);
            answers.push(QUESTIONS[kind](columns, question).answer());
        }
    }
    let unset = vec![answer(9, 9, 9); rows.len()];
    let (given, found) = with_book(columns, |book, fence| {
        between(&unset, answer(8, 8, 8), fence, |room| {
            book_batch(book, &buffer, &rows, room)
        })
    });
    assert_eq!((given, found), (answer(0, rows.len(), 0), answers));
}

/// Asserts that bytes are no book to any call that takes a column book.
fn assert_none(bytes: &[u8]) {
    for convert in [book_to_columns, book_from_columns] {
        assert_refused(convert, bytes, bytes.len(), 2);
    }
    let checked = with_book(bytes, |book, _| book_check(book));
    assert_eq!(checked, answer(2, 0, 0));
    for ask in QUESTIONS {
        let given = with_book(bytes, |book, _| ask(book, b"a"));
        assert_eq!([given.code, given.visits, given.entries], [2, 0, 0]);
    }
    assert_eq!(book_read(bytes, 0, &mut [0; 200]), answer(2, 0, 0));
    assert_eq!(book_batch(bytes, b"", &[], &mut []), answer(2, 0, 0));
}

#[test]
fn as_many_nodes_as_there_can_be_are_turned_both_ways() {
    // Eleven letters a or b: every fork has two children, so 2,000 names have 3,999
    // nodes.
    let columns = hold_large(&lists::binary(2000), 64);
    assert_eq!(columns.len(), 56_166);
    assert_eq!(columns[columns.len() - 8..][..2], 3999u16.to_le_bytes());
    assert_eq!(columns, moved(&built(&list(&lists::binary(2000)), 64)));
}

#[test]
fn two_thousand_names_are_turned_both_ways_and_one_more_is_none() {
    hold_large(&lists::pairs(2000), 64);
    assert_none(&book_of(BookKind::Columns, 64, &lists::pairs(2001)));
}

#[test]
fn a_book_of_65_535_bytes_is_turned_both_ways_and_one_more_is_none() {
    let with_length = |names: &Names, block, wanted| {
        lists::with_book_length(BookKind::Columns, names, block, wanted)
    };
    for (names, block) in [
        (lists::pairs(320), 16),
        (lists::binary(lists::MOST_BINARY), 1),
        // as many nodes as there can be, too
        (lists::binary(2000), 64),
    ] {
        let columns = hold_large(&with_length(&names, block, 65_535), block);
        assert_eq!(columns.len(), 65_535);
        assert_none(&[&[0], &columns[..]].concat());
        let more = book_of(
            BookKind::Columns,
            block,
            &with_length(&names, block, 65_536),
        );
        assert_eq!(more.len(), 65_536);
        assert_none(&more);
    }
}

#[test]
fn every_question_gives_the_same_answer_and_the_same_counts_on_both() {
    let mut questions: Vec<Vec<u8>> = (0..=255).map(|byte| vec![byte]).collect();
    let others = [
        "", "Mar", "Marin", "Mark", "Maxim", "Zoo", "aaaa", "MAR", "mar",
    ];
    questions.extend(others.map(|text| text.as_bytes().to_vec()));
    questions.extend([vec![b'a'; 200], vec![b'a'; 201], vec![0; 200]]);
    for plain in some_books() {
        let columns = moved(&plain);
        for question in &questions {
            for ask in QUESTIONS {
                let [one, other] = [&plain, &columns].map(|book| ask(book, question));
                assert_eq!(one, other, "{question:?}");
            }
        }
    }
}

#[test]
fn check_and_read_serve_column_books() {
    for plain in some_books() {
        let columns = moved(&plain);
        let checked = book_check(&plain);
        assert_eq!((checked.code, book_check(&columns)), (0, checked));
        for position in (0..=checked.first).step_by(1 + checked.first / 50) {
            let [one, other] = [&plain, &columns].map(|book| {
                let mut room = [UNSET; 200];
                (book_read(book, position, &mut room), room)
            });
            assert_eq!(one, other);
        }
    }
}

#[test]
fn a_room_of_just_the_length_is_enough_and_one_byte_less_is_4() {
    for (convert, book) in [
        (book_to_columns as Convert, &PLAIN[..]),
        (book_to_columns, EMPTY),
        (book_from_columns, COLUMNS),
        (book_from_columns, COLUMNS_BY_4),
        (book_from_columns, EMPTY_COLUMNS),
    ] {
        converted(convert, book, 0);
        for space in [0, 1, book.len() - 1] {
            assert_refused(convert, book, space, 4);
        }
    }
}

#[test]
fn each_call_turns_only_the_one_kind_and_2_comes_before_4() {
    let mut folded = [0; 93];
    assert_eq!(book_build_folded(LIST, 2, &mut folded), answer(0, 93, 0));
    let empty_folded = marked(EMPTY, b"NBF2");
    for book in [&folded[..], &empty_folded] {
        assert_eq!(book_check(book).code, 0);
        for space in [0, 92, 93, 200] {
            assert_refused(book_to_columns, book, space, 2);
            assert_refused(book_from_columns, book, space, 2);
        }
    }
    for space in [0, 92, 93, 200] {
        assert_refused(book_to_columns, COLUMNS, space, 2);
        assert_refused(book_to_columns, EMPTY_COLUMNS, space, 2);
        assert_refused(book_from_columns, PLAIN, space, 2);
        assert_refused(book_from_columns, EMPTY, space, 2);
        for bytes in [&b""[..], LIST, &PLAIN[1..], &COLUMNS[1..], &COLUMNS[..92]] {
            assert_refused(book_to_columns, bytes, space, 2);
            assert_refused(book_from_columns, bytes, space, 2);
        }
    }
}

#[test]
fn under_the_other_mark_it_is_no_book() {
    for book in [
        marked(PLAIN, b"NBC2"),
        marked(COLUMNS, b"NBK2"),
        marked(COLUMNS, b"NBF2"),
        marked(COLUMNS, b"NBC1"),
    ] {
        assert_eq!(book_check(&book), answer(2, 0, 0));
        assert_eq!(book_exact(&book, b"Mar").code, 2);
        assert_refused(book_to_columns, &book, 93, 2);
        assert_refused(book_from_columns, &book, 93, 2);
    }
}

#[test]
fn each_number_of_the_columns_off_by_one_is_refused() {
    for number in 0..24 {
        for step in [1, u16::MAX] {
            let mut book = COLUMNS.to_vec();
            let at = 29 + 2 * number;
            let changed = u16::from_le_bytes([book[at], book[at + 1]]).wrapping_add(step);
            book[at..at + 2].copy_from_slice(&changed.to_le_bytes());
            assert_eq!(with_book(&book, |book, _| book_check(book)).code, 2);
            assert_refused(book_from_columns, &book, 93, 2);
        }
    }
}

#[test]
fn the_announcer_answers_2_and_salvage_13_to_a_column_book() {
    for plain in some_books() {
        let columns = moved(&plain);
        let checked = book_check(&columns);
        let clips = vec![7; checked.first];
        let text = announce_clip(&columns, &clips, b"Mar");
        assert_eq!(text, answer(2, 0, 0));
        let mut room = [0xAAAA; 3];
        let route = announce_route(&columns, &clips, &[], &mut room);
        assert_eq!((route, room), (answer(2, 0, 0), [0xAAAA; 3]));
        let unset = Kept { kept: 7, names: 7 };
        let mut report = vec![unset; checked.first.div_ceil(checked.second)];
        let mut room = [UNSET; 50];
        let salvaged = book_salvage(&columns, &mut room, &mut report);
        assert_eq!((salvaged, room), (answer(13, 0, 0), [UNSET; 50]));
        assert!(report.iter().all(|row| *row == unset));
    }
}

// The stored cases

/// Takes a number of so many bytes off the front of the file, low byte first.
fn number(file: &mut &[u8], bytes: usize) -> usize {
    let bytes = part(file, bytes).iter().rev();
    bytes.fold(0, |number, &byte| 256 * number + usize::from(byte))
}

/// Takes so many bytes off the front of the file.
fn part<'file>(file: &mut &'file [u8], bytes: usize) -> &'file [u8] {
    let (front, rest) = file.split_at(bytes);
    *file = rest;
    front
}

/// The checksum of numbers, as the vectors have it: both halves of Adler-32.
fn checksum(numbers: impl IntoIterator<Item = usize>) -> [usize; 2] {
    let (mut first, mut second) = (1, 0);
    for number in numbers {
        first = (first + number % 65_521) % 65_521;
        second = (second + first) % 65_521;
    }
    [first, second]
}

/// The numbers of a call with a room: its answer, the checksum of what it wrote, and
/// that of the whole room.
fn outcome((answer, room): (Answer, Vec<u8>)) -> Vec<usize> {
    let sum = |bytes: &[u8]| checksum(bytes.iter().map(|&byte| usize::from(byte)));
    let written = if answer.code == 0 { answer.first } else { 0 };
    let numbers = [answer.code, answer.first, answer.second];
    [&numbers[..], &sum(&room[..written]), &sum(&room)].concat()
}

/// A room of this length as it is before the call.
fn filled(length: usize) -> Vec<u8> {
    (0..length).map(|at| (at % 251) as u8).collect()
}

/// Runs the cases of a file, at least so many: each begins with the length of its book
/// and numbers of so many bytes. In most files one that has no book goes on with that
/// of the case before, `again`. Asserts that each gives the numbers that are expected.
fn run<'file>(
    mut file: &'file [u8],
    expected: &str,
    least: usize,
    fronts: &[usize],
    again: bool,
    case: impl Fn(&'file [u8], &[usize], &mut &'file [u8]) -> Vec<usize>,
) {
    let mut expected = expected.lines();
    let (mut book, mut cases): (&[u8], _) = (&[], 0);
    while !file.is_empty() {
        let length = number(&mut file, 4);
        let front: Vec<usize> = fronts
            .iter()
            .map(|&bytes| number(&mut file, bytes))
            .collect();
        if length > 0 || !again {
            book = part(&mut file, length);
        }
        let mut line = vec![cases];
        line.extend(case(book, &front, &mut file));
        let line: Vec<String> = line.iter().map(usize::to_string).collect();
        assert_eq!(Some(&line.join(" ")[..]), expected.next());
        cases += 1;
    }
    assert_eq!(expected.next(), None);
    assert!(cases >= least, "{cases}");
}

#[test]
fn the_stored_conversions_give_what_the_second_program_gives() {
    let file = include_bytes!("data/convert.cases");
    let expected = include_str!("data/convert.expected");
    run(file, expected, 500, &[4], true, |book, front, _| {
        let calls = [book_to_columns, book_from_columns];
        let outcomes = calls.map(|convert| outcome(convert_into(convert, book, &filled(front[0]))));
        outcomes.concat()
    });
}

#[test]
fn the_stored_checks_give_what_the_second_program_gives() {
    let file = include_bytes!("data/columns_check.cases");
    let expected = include_str!("data/columns_check.expected");
    run(file, expected, 1300, &[], false, |book, _, _| {
        let answer = with_book(book, |book, _| book_check(book));
        vec![answer.code, answer.first, answer.second]
    });
}

#[test]
fn the_stored_readings_give_what_the_second_program_gives() {
    let file = include_bytes!("data/columns_read.cases");
    let expected = include_str!("data/columns_read.expected");
    run(file, expected, 300, &[8, 4], true, |book, front, _| {
        let room = filled(front[1]);
        outcome(with_book(book, |book, fence| {
            between(&room, 0x5B, fence, |room| book_read(book, front[0], room))
        }))
    });
}

#[test]
fn the_stored_questions_give_what_the_second_program_gives() {
    let file = include_bytes!("data/columns_ask.cases");
    let expected = include_str!("data/columns_ask.expected");
    run(file, expected, 800, &[4], true, |book, front, file| {
        let question = part(file, front[0]);
        let answers = QUESTIONS.map(|ask| {
            let (given, _) = with_book(book, |book, fence| {
                between(question, b'M', fence, |question| ask(book, question))
            });
            [
                given.code,
                given.first,
                given.second,
                given.visits,
                given.entries,
            ]
        });
        answers.concat()
    });
}

#[test]
fn the_stored_batches_give_what_the_second_program_gives() {
    let file = include_bytes!("data/columns_batch.cases");
    let expected = include_str!("data/columns_batch.expected");
    run(file, expected, 200, &[4; 3], true, |book, front, file| {
        let questions = part(file, front[0]);
        let rows = (0..front[1]).map(|_| {
            let [kind, start, length] = [8; 3].map(|bytes| number(file, bytes));
            Row {
                kind,
                start,
                length,
            }
        });
        let rows: Vec<Row> = rows.collect();
        let mut answers: Vec<Answer> = (0..65)
            .map(|row| answer(100 + row, 200 + row, 300 + row))
            .collect();
        let lent = answers[..front[2]].to_vec();
        let (given, after) = with_book(book, |book, fence| {
            between(&lent, answer(9, 9, 9), fence, |answers| {
                book_batch(book, questions, &rows, answers)
            })
        });
        answers[..front[2]].copy_from_slice(&after);
        let numbers = answers
            .iter()
            .flat_map(|row| [row.code, row.first, row.second]);
        let mut line = vec![given.code, given.first, given.second];
        line.extend(checksum(numbers));
        line
    });
}
