//! Every refusal: given by the calls that have it, in their order, with nothing
//! changed.

use mistrogu::{
    build, build_folded, check, clip, exact, from_columns, heads, judge, merge, nearest, place,
    range, read, route, to_columns, width, Batch, Kind, Refusal, Refused, RouteRefused, Spoken,
    Which, MOST_STOPS,
};

const LIST: &[u8] = b"\x03Mar\x06Marina\x0DMarket Square";
const LONG: [u8; 201] = [b'M'; 201];

/// The book of this list, in blocks of 2.
fn book_of(list: &[u8]) -> Vec<u8> {
    let mut room = vec![0; mistrogu::LONGEST_BOOK];
    let length = build(list, 2, &mut room).unwrap();
    room.truncate(length);
    room
}

/// A list of so many names: 0001, 0002 and so on.
fn numbered(names: usize) -> Vec<u8> {
    (1..=names)
        .flat_map(|number| format!("\x04{number:04}").into_bytes())
        .collect()
}

/// A refusal of this record of this list.
fn refused_of(refusal: Refusal, record: usize, list: Which) -> Refused {
    Refused {
        refusal,
        record,
        list,
    }
}

/// Asserts that a build is refused so, and leaves the room as it was.
fn build_refused(list: &[u8], block: usize, room: usize, refusal: Refusal, record: usize) {
    let mut room = vec![0xAA; room];
    let refused = build(list, block, &mut room).unwrap_err();
    assert_eq!(refused, refused_of(refusal, record, Which::Only));
    assert!(room.iter().all(|&byte| byte == 0xAA));
}

#[test]
fn a_build_is_refused_with_8_first() {
    for block in [0, 65, usize::MAX] {
        build_refused(LIST, block, 100, Refusal::BadBlockSize, 0);
        build_refused(b"\0", block, 0, Refusal::BadBlockSize, 0);
    }
    for block in [1, 64] {
        assert!(build(LIST, block, &mut [0; 100]).is_ok());
    }
}

#[test]
fn a_build_is_refused_with_5_and_the_record() {
    build_refused(b"\0", 2, 100, Refusal::BadRecord, 0);
    build_refused(b"\x01a\x02b", 2, 100, Refusal::BadRecord, 1);
    let mut list = vec![200];
    list.extend_from_slice(&LONG[..200]);
    assert!(build(&list, 2, &mut [0; 300]).is_ok());
    list[0] = 201;
    list.push(b'M');
    build_refused(&list, 2, 300, Refusal::BadRecord, 0);
}

#[test]
fn a_build_is_refused_with_6_and_the_record() {
    build_refused(b"\x01a\x01c\x01b", 2, 100, Refusal::NotAbove, 2);
    build_refused(b"\x01a\x01a\0", 2, 100, Refusal::NotAbove, 1);
}

#[test]
fn a_build_is_refused_with_7_and_the_record() {
    let mut list = numbered(2001);
    build_refused(&list, 2, 0, Refusal::TooManyNames, 2000);
    list.truncate(5 * 2000);
    let checked = check(&book_of(&list)).unwrap();
    assert_eq!(checked.names, mistrogu::MOST_NAMES);
}

#[test]
fn a_build_is_refused_with_9_then_4() {
    let long: Vec<u8> = (0..=255)
        .flat_map(|first| (0..2).map(move |second| (first, second)))
        .flat_map(|(first, second)| {
            let mut record = vec![200, first, second];
            record.resize(201, b'x');
            record
        })
        .collect();
    build_refused(&long, 2, 0, Refusal::BookTooLong, 0);
    build_refused(LIST, 2, 92, Refusal::RoomTooShort, 0);
    assert_eq!(build(LIST, 2, &mut [0; 93]), Ok(93));
}

#[test]
fn a_check_is_refused_with_2() {
    let book = book_of(LIST);
    let refused = Err(Refusal::NoBook);
    assert_eq!(check(&[]), refused);
    assert_eq!(check(&book[1..]), refused);
    let mut spoilt = book.clone();
    spoilt[30] = 1;
    assert_eq!(check(&spoilt), refused);
    let mut old = book.clone();
    old[92] = b'1';
    assert_eq!(check(&old), refused, "the old mark");
    let mut longer = book;
    longer.push(0);
    assert_eq!(check(&longer), refused);
}

#[test]
fn a_reading_is_refused_with_2_then_3_then_4() {
    let book = book_of(LIST);
    let mut room = [0xAA; 12];
    assert_eq!(read(&[], 3, &mut room), Err(Refusal::NoBook));
    for position in [3, usize::MAX] {
        let refused = Err(Refusal::NoSuchPosition);
        assert_eq!(read(&book, position, &mut room), refused);
        assert_eq!(read(&book, position, &mut []), refused);
    }
    assert_eq!(read(&book, 2, &mut room), Err(Refusal::RoomTooShort));
    assert_eq!(room, [0xAA; 12]);
}

#[test]
fn a_question_is_refused_with_2_then_1_then_10() {
    let (book, no_names) = (book_of(LIST), book_of(&[]));

    let refused = Refusal::NoBook;
    assert_eq!(exact(&book[1..], &LONG), Err(refused));
    assert_eq!(place(&book[1..], &LONG), Err(refused));
    assert_eq!(range(&book[1..], &LONG), Err(refused));
    assert_eq!(nearest(&book[1..], &LONG), Err(refused));
    assert_eq!(width(&book[1..], &LONG), Err(refused));

    let refused = Refusal::QuestionTooLong;
    for book in [&book, &no_names] {
        assert_eq!(exact(book, &LONG), Err(refused));
        assert_eq!(place(book, &LONG), Err(refused));
        assert_eq!(range(book, &LONG), Err(refused));
        assert_eq!(nearest(book, &LONG), Err(refused));
        assert_eq!(width(book, &LONG), Err(refused));
    }
    assert_eq!(exact(&book, &LONG[1..]), Ok(None));

    assert_eq!(nearest(&no_names, b"Mar"), Err(Refusal::NoNames));
    assert_eq!(exact(&no_names, b"Mar"), Ok(None));
    assert_eq!(width(&no_names, b"Mar"), Ok(0));
}

/// A call that converts a book.
type Convert = for<'room> fn(&[u8], &'room mut [u8]) -> Result<&'room [u8], Refusal>;

/// Asserts that a conversion is refused so, and leaves the room as it was.
fn conversion_refused(convert: Convert, book: &[u8], room: usize, refusal: Refusal) {
    let mut room = vec![0xAA; room];
    assert_eq!(convert(book, &mut room), Err(refusal));
    assert!(room.iter().all(|&byte| byte == 0xAA));
}

#[test]
fn a_conversion_is_refused_with_2_then_4() {
    let plain = book_of(LIST);
    let mut columns = [0; 93];
    to_columns(&plain, &mut columns).unwrap();
    let mut folded = [0; 200];
    let length = build_folded(b"\x03mar\x06marina", 2, &mut folded).unwrap();
    let folded = &folded[..length];

    let calls: [(Convert, &[u8], &[u8]); 2] = [
        (to_columns, &plain, &columns),
        (from_columns, &columns, &plain),
    ];
    for (convert, taken, other) in calls {
        let mut longer = taken.to_vec();
        longer.push(0);
        for room in [0, 92, 93, 200] {
            for none in [other, folded, &[], &taken[1..], &longer] {
                conversion_refused(convert, none, room, Refusal::NoBook);
            }
        }
        for room in [0, 92] {
            conversion_refused(convert, taken, room, Refusal::RoomTooShort);
        }
        let mut room = [0xAA; 94];
        assert_eq!(convert(taken, &mut room), Ok(other));
        assert_eq!(room[93], 0xAA);
        assert_eq!(convert(taken, &mut room[..93]), Ok(other));
    }
}

/// Asserts that a batch of so many questions to these bytes is refused so.
fn batch_refused(book: &[u8], questions: usize, refusal: Refusal) {
    let mut batch = Batch::<65>::new();
    for _ in 0..questions {
        batch.push(Kind::Exact, 0..0).unwrap();
    }
    assert_eq!(batch.ask(book, &[]).map(|_| ()), Err(refusal));
}

#[test]
fn a_batch_is_refused_with_12_then_2() {
    batch_refused(&book_of(LIST), 65, Refusal::BadBatch);
    batch_refused(&[], 65, Refusal::BadBatch);
    batch_refused(&[], 64, Refusal::NoBook);
    batch_refused(&[], 0, Refusal::NoBook);
}

#[test]
fn a_question_past_the_places_is_refused_with_12_and_the_others_stay() {
    let mut batch = Batch::<1>::new();
    assert_eq!(batch.push(Kind::Exact, 0..3), Ok(()));
    assert_eq!(batch.push(Kind::Exact, 0..3), Err(Refusal::BadBatch));
    assert_eq!(batch.len(), 1);
    let mut none = Batch::<0>::new();
    assert_eq!(none.push(Kind::Exact, 0..3), Err(Refusal::BadBatch));
}

#[test]
fn a_row_is_refused_with_11_then_1_then_10_and_the_others_go_on() {
    let no_names = book_of(&[]);
    let cases = [
        (Kind::Nearest, 0..202, Err(11)),
        (Kind::Exact, 202..202, Err(11)),
        (Kind::Exact, usize::MAX - 1..usize::MAX, Err(11)),
        (Kind::Exact, 1..usize::MAX, Err(11)),
        (Kind::Nearest, 0..201, Err(1)),
        (Kind::Exact, 0..201, Err(1)),
        (Kind::Nearest, 0..200, Err(10)),
        (Kind::Nearest, 201..201, Err(10)),
        (Kind::Exact, 0..200, Ok(())),
        (Kind::Range, 201..201, Ok(())),
        (Kind::Width, 0..201, Err(1)),
        (Kind::Width, 0..200, Ok(())),
    ];
    let mut batch = Batch::<12>::new();
    for (kind, span, _) in &cases {
        batch.push(*kind, span.clone()).unwrap();
    }
    let replies = batch.ask(&no_names, &LONG).unwrap();
    for ((kind, span, expected), reply) in cases.into_iter().zip(replies) {
        let replied = reply.map(|_| ()).map_err(Refusal::number);
        assert_eq!(replied, expected, "{kind:?}, {span:?}");
    }
}

#[test]
fn a_text_is_refused_with_2_then_16_then_1() {
    let (book, no_names) = (book_of(LIST), book_of(&[]));
    for clips in [&[1; 3][..], &[1; 2]] {
        assert_eq!(clip(&book[1..], clips, &LONG), Err(Refusal::NoBook));
    }
    for (book, clips) in [(&book, &[1; 2][..]), (&book, &[1; 4]), (&no_names, &[1])] {
        assert_eq!(clip(book, clips, &LONG), Err(Refusal::BadClipTable));
        assert_eq!(clip(book, clips, b"Mar"), Err(Refusal::BadClipTable));
    }
    for (book, clips) in [(&book, &[1; 3][..]), (&no_names, &[])] {
        assert_eq!(clip(book, clips, &LONG), Err(Refusal::QuestionTooLong));
        assert_eq!(clip(book, clips, &LONG[1..]), Ok(Spoken::Names(0)));
    }
}

/// Asserts that a route is refused so, and leaves the room as it was.
fn route_refused(
    book: &[u8],
    clips: &[u16],
    positions: &[usize],
    room: usize,
    why: (Refusal, usize),
) {
    let mut room = vec![0xAAAA; room];
    let (refusal, place) = why;
    let refused = RouteRefused { refusal, place };
    assert_eq!(route(book, clips, positions, &mut room), Err(refused));
    assert!(room.iter().all(|&clip| clip == 0xAAAA));
}

#[test]
fn a_route_is_refused_with_2_then_16_then_12_then_3_then_4() {
    let book = book_of(LIST);
    let (clips, many) = (&[1; 3], &[9; MOST_STOPS + 1]);
    for room in [0, 1, MOST_STOPS + 1] {
        for clips in [&clips[..], &clips[1..]] {
            route_refused(&book[1..], clips, many, room, (Refusal::NoBook, 0));
        }
        route_refused(&book, &clips[1..], many, room, (Refusal::BadClipTable, 0));
        route_refused(&book, &[1; 4], &[9], room, (Refusal::BadClipTable, 0));
        route_refused(&book, clips, many, room, (Refusal::BadBatch, 0));
        let positions = &mut [0; MOST_STOPS];
        positions[7..].fill(3);
        route_refused(&book, clips, positions, room, (Refusal::NoSuchPosition, 7));
    }
    route_refused(&book, clips, &[0; 2], 1, (Refusal::RoomTooShort, 0));
    assert_eq!(route(&book, clips, &[0; 2], &mut [0; 2]), Ok(&[1; 2][..]));
    assert_eq!(route(&book, clips, &[], &mut []), Ok(&[][..]));
}

#[test]
fn a_place_is_told_just_where_it_is_known() {
    for refusal in Refusal::ALL {
        let refused = RouteRefused { refusal, place: 7 };
        let told = match refusal {
            Refusal::NoSuchPosition => "place 7 of the route: ",
            _ => "",
        };
        let sentence = format!("{told}{}", refusal.sentence());
        assert_eq!(refused.to_string(), sentence);
        assert_eq!(Refusal::from(refused), refusal);
    }
}

/// Asserts that a merge is refused so, and leaves the room as it was.
fn merge_refused(first: &[u8], second: &[u8], room: usize, refused: Refused) {
    let mut room = vec![0xAA; room];
    assert_eq!(merge(first, second, &mut room), Err(refused));
    assert!(room.iter().all(|&byte| byte == 0xAA));
}

#[test]
fn two_lists_are_refused_with_5_and_6_of_the_first_then_of_the_second() {
    let (bad, falling) = (b"\x01a\0".as_slice(), b"\x01a\x01c\x01b".as_slice());
    let cases = [
        (bad, falling, Refusal::BadRecord, 1, Which::First),
        (falling, bad, Refusal::NotAbove, 2, Which::First),
        (LIST, bad, Refusal::BadRecord, 1, Which::Second),
        (LIST, falling, Refusal::NotAbove, 2, Which::Second),
        (&numbered(2001), bad, Refusal::BadRecord, 1, Which::Second),
    ];
    for (first, second, refusal, record, list) in cases {
        let refused = refused_of(refusal, record, list);
        merge_refused(first, second, 0, refused);
        merge_refused(first, second, 300, refused);
        assert_eq!(judge(first, second), Err(refused));
        assert_eq!(heads(first, second).unwrap_err(), refused);
    }
}

#[test]
fn a_merge_is_then_refused_with_7_then_4() {
    let many = numbered(2001);
    let refused = refused_of(Refusal::TooManyNames, 2000, Which::Merged);
    merge_refused(&many, &[], 0, refused);
    merge_refused(&many, &many, 30_000, refused);
    merge_refused(&numbered(2000), LIST, 30_000, refused);
    assert_eq!(judge(&many, &many), Ok(()));

    let refused = refused_of(Refusal::RoomTooShort, 0, Which::Merged);
    merge_refused(LIST, LIST, LIST.len() - 1, refused);
    merge_refused(&[], LIST, 0, refused);
    assert_eq!(merge(LIST, LIST, &mut [0; 25]), Ok(25));
}

#[test]
fn refusals_have_the_numbers_1_to_13_and_16() {
    for (refusal, number) in Refusal::ALL.into_iter().zip((1..=13).chain([16])) {
        assert_eq!(refusal.number(), number);
        assert_eq!(Refusal::from_number(number), Some(refusal));
        assert_eq!(refusal.to_string(), refusal.sentence());
    }
    for number in [0, 14, 15, 17, usize::MAX] {
        assert_eq!(Refusal::from_number(number), None);
    }
}

#[test]
fn a_record_is_told_just_where_it_is_known() {
    for refusal in Refusal::ALL {
        let known = (5..=7).contains(&refusal.number());
        for (list, told) in [
            (Which::Only, "record 7: "),
            (Which::First, "first list, record 7: "),
            (Which::Second, "second list, record 7: "),
        ] {
            let refused = refused_of(refusal, 7, list);
            let told = if known { told } else { "" };
            let sentence = format!("{told}{}", refusal.sentence());
            assert_eq!(refused.to_string(), sentence);
            assert_eq!(Refusal::from(refused), refusal);
        }
    }
}

#[test]
fn the_merged_list_is_told_of_where_it_is_refused() {
    let refused = refused_of(Refusal::TooManyNames, 2000, Which::Merged);
    let sentence = "the merged list would have over 2,000 names";
    assert_eq!(refused.to_string(), sentence);
    let refused = refused_of(Refusal::RoomTooShort, 0, Which::Merged);
    assert_eq!(refused.to_string(), Refusal::RoomTooShort.sentence());
}
