//! Document 01's book through the typed calls, one by one and in a batch.

use mistrogu::{
    build, check, exact, nearest, place, range, read, width, Batch, BookKind, Checked, Kind, List,
    Nearest, Refusal, Reply,
};

const STOPS: [&str; 3] = ["Mar", "Marina", "Market Square"];

/// Document 01's book, of 93 bytes.
fn book() -> Vec<u8> {
    let mut lent = [0; 100];
    let mut list = List::new(&mut lent);
    for stop in STOPS {
        list.push(stop.as_bytes()).unwrap();
    }
    let mut room = vec![0; 100];
    let length = build(list.records(), 2, &mut room).unwrap();
    room.truncate(length);
    room
}

/// The book without names.
fn no_names() -> Vec<u8> {
    let mut room = vec![0; 16];
    assert_eq!(build(&[], 64, &mut room), Ok(16));
    room
}

/// Document 01's twelve questions, some of document 02's kind, and what they get.
fn asked() -> [(&'static str, Reply); 16] {
    let near = |position, lit| Reply::Nearest(Nearest { position, lit });
    [
        ("Marina", Reply::Exact(Some(1))),
        ("Marin", Reply::Exact(None)),
        ("", Reply::Place(0)),
        ("Mark", Reply::Place(2)),
        ("Maxim", Reply::Place(3)),
        ("Mar", Reply::Range(0..3)),
        ("Mark", Reply::Range(2..3)),
        ("Mas", Reply::Range(3..3)),
        ("Mango", near(0, 2)),
        ("Maxim", near(1, 2)),
        ("Zoo", near(0, 0)),
        ("M", near(0, 1)),
        ("", Reply::Width(13)),
        ("Mar", Reply::Width(13)),
        ("Mari", Reply::Width(6)),
        ("Mas", Reply::Width(0)),
    ]
}

/// Asks by the call of this kind.
fn ask(kind: Kind, book: &[u8], question: &[u8]) -> Result<Reply, Refusal> {
    match kind {
        Kind::Exact => exact(book, question).map(Reply::Exact),
        Kind::Place => place(book, question).map(Reply::Place),
        Kind::Range => range(book, question).map(Reply::Range),
        Kind::Nearest => nearest(book, question).map(Reply::Nearest),
        Kind::Width => width(book, question).map(Reply::Width),
    }
}

#[test]
fn the_book_is_checked_and_its_names_are_read() {
    let book = book();
    assert_eq!(book.len(), 93);
    let checked = check(&book).unwrap();
    let expected = Checked {
        names: 3,
        block: 2,
        kind: BookKind::Plain,
    };
    assert_eq!(checked, expected);
    for (position, stop) in STOPS.iter().enumerate() {
        let mut room = [0xAA; 20];
        assert_eq!(read(&book, position, &mut room), Ok(stop.as_bytes()));
        assert!(room[stop.len()..].iter().all(|&byte| byte == 0xAA));
    }
}

#[test]
fn the_book_without_names_has_16_bytes() {
    let book = no_names();
    let checked = Checked {
        names: 0,
        block: 64,
        kind: BookKind::Plain,
    };
    assert_eq!(check(&book), Ok(checked));
    assert_eq!(exact(&book, b"Mar"), Ok(None));
    assert_eq!(place(&book, b"Mar"), Ok(0));
    assert_eq!(range(&book, b""), Ok(0..0));
    assert_eq!(width(&book, b""), Ok(0));
}

#[test]
fn the_questions_are_answered_alone_and_in_a_batch() {
    let book = book();
    let mut questions = Vec::new();
    let mut batch = Batch::<16>::new();
    for (question, expected) in asked() {
        let kind = expected.kind();
        assert_eq!(
            ask(kind, &book, question.as_bytes()),
            Ok(expected),
            "{question}"
        );
        let start = questions.len();
        questions.extend_from_slice(question.as_bytes());
        batch.push(kind, start..questions.len()).unwrap();
    }
    let replies = batch.ask(&book, &questions).unwrap();
    assert_eq!(replies.len(), 16);
    for (reply, (question, expected)) in replies.zip(asked()) {
        assert_eq!(reply, Ok(expected), "{question}");
    }
}

#[test]
fn the_longest_name_counts_wherever_it_stands_and_only_in_its_range() {
    for list in [
        &b"\x05Maaaa\x02Mb\x03Mcc\x06Nooooo"[..],
        b"\x02Ma\x05Mbbbb\x03Mcc\x06Nooooo",
        b"\x02Ma\x03Mbb\x05Mcccc\x06Nooooo",
    ] {
        let mut room = [0; 150];
        let length = build(list, 2, &mut room).unwrap();
        let book = &room[..length];
        assert_eq!(width(book, b"M"), Ok(5));
        assert_eq!(width(book, b""), Ok(6));
        assert_eq!(width(book, b"Md"), Ok(0));
    }
}

#[test]
fn no_half_letter_of_a_question_is_lit() {
    let mut room = [0; 150];
    let length = build("\x05Café\x0BCafétéria".as_bytes(), 2, &mut room).unwrap();
    let book = &room[..length];
    for (question, position, lit) in [
        (&b"Cafe"[..], 0, 3),
        ("Cafè".as_bytes(), 0, 3),
        ("Cafés".as_bytes(), 0, 5),
        ("Cafétés".as_bytes(), 1, 8),
        ("Cafétè".as_bytes(), 1, 6),
        (b"Caf\xC3", 0, 4),
        (b"\xA9", 0, 0),
        (b"", 0, 0),
    ] {
        let near = Nearest { position, lit };
        assert_eq!(nearest(book, question), Ok(near), "{question:?}");
        let mut batch = Batch::<1>::new();
        batch.push(Kind::Nearest, 0..question.len()).unwrap();
        let replies: Vec<_> = batch.ask(book, question).unwrap().collect();
        assert_eq!(replies, [Ok(Reply::Nearest(near))], "{question:?}");
    }
}

#[test]
fn a_batch_may_have_no_rows_and_64_rows() {
    let book = book();
    let mut batch: Batch = Batch::new();
    assert!(batch.is_empty());
    assert_eq!(batch.ask(&book, &[]).unwrap().next(), None);
    for _ in 0..64 {
        batch.push(Kind::Nearest, 0..1).unwrap();
    }
    assert_eq!(batch.len(), 64);
    assert_eq!(batch.push(Kind::Nearest, 0..1), Err(Refusal::BadBatch));
    let replies = batch.ask(&book, b"Marina").unwrap();
    assert_eq!(replies.len(), 64);
    for reply in replies {
        let near = Nearest {
            position: 0,
            lit: 1,
        };
        assert_eq!(reply, Ok(Reply::Nearest(near)));
    }
}

#[test]
fn a_batch_that_is_filled_again_has_the_new_kinds() {
    let book = book();
    let mut batch = Batch::<2>::default();
    for kinds in [[Kind::Range, Kind::Exact], [Kind::Exact, Kind::Width]] {
        batch.clear();
        for kind in kinds {
            batch.push(kind, 0..3).unwrap();
        }
        let replies = batch.ask(&book, b"Mar").unwrap();
        for (reply, kind) in replies.zip(kinds) {
            assert_eq!(reply, ask(kind, &book, b"Mar"));
            assert_eq!(reply.unwrap().kind(), kind);
        }
    }
}

#[test]
fn bytes_from_0_to_255_are_ordinary() {
    let mut room = [0; 150];
    let length = build(b"\x01\x00\x02\x00\x00\x01\xFF\x02\xFF\xFF", 16, &mut room).unwrap();
    let book = &room[..length];
    assert_eq!(range(book, b"\x00"), Ok(0..2));
    assert_eq!(range(book, b"\xFF"), Ok(2..4));
    assert_eq!(place(book, b"\xFF\xFF\xFF"), Ok(4));
    assert_eq!(width(book, b"\xFF"), Ok(2));
    assert_eq!(read(book, 1, &mut [0; 2]), Ok(&b"\x00\x00"[..]));
}

#[test]
fn kinds_have_the_numbers_1_to_5() {
    let kinds = [
        Kind::Exact,
        Kind::Place,
        Kind::Range,
        Kind::Nearest,
        Kind::Width,
    ];
    for (kind, number) in kinds.into_iter().zip(1..) {
        assert_eq!(kind.number(), number);
        assert_eq!(Kind::from_number(number), Some(kind));
    }
    assert_eq!(Kind::from_number(0), None);
    assert_eq!(Kind::from_number(6), None);
}

#[test]
fn a_list_holds_what_was_pushed() {
    let mut room = [0xAA; 12];
    let mut list = List::new(&mut room);
    assert_eq!(list.records(), b"");
    assert_eq!(list.push(b""), Err(Refusal::BadRecord));
    assert_eq!(list.push(&[b'M'; 201]), Err(Refusal::BadRecord));
    assert_eq!(list.push(&[b'M'; 200]), Err(Refusal::RoomTooShort));
    assert_eq!(list.push(b"Mar"), Ok(()));
    assert_eq!(list.push(b"Marinas!"), Err(Refusal::RoomTooShort));
    assert_eq!(list.push(b"Marinas"), Ok(()));
    assert_eq!(list.push(b"M"), Err(Refusal::RoomTooShort));
    assert_eq!(list.records(), b"\x03Mar\x07Marinas");

    let mut room = [0; 201];
    let mut list = List::new(&mut room);
    assert_eq!(list.push(&[0xFF; 200]), Ok(()));
    assert_eq!(list.records()[0], 200);
}
