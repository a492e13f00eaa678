//! The worked example through the linked archive, so that a wrong convention
//! or a wrong archive shows at once.

use proved::{
    book_batch, book_build, book_check, book_exact, book_nearest, book_place, book_range,
    book_read, book_width, Answer, Counted, Row,
};

const LIST: &[u8] = b"\x03Mar\x06Marina\x0DMarket Square";

/// An answer.
fn answer(code: usize, first: usize, second: usize) -> Answer {
    Answer {
        code,
        first,
        second,
    }
}

/// What an accepted question gives: its answer, and how far it looked.
fn looked([first, second]: [usize; 2], visits: usize, entries: usize) -> Counted {
    Counted {
        code: 0,
        first,
        second,
        visits,
        entries,
    }
}

/// A refused question, which has looked at nothing.
fn unlooked(code: usize) -> Counted {
    Counted {
        code,
        ..Counted::default()
    }
}

#[test]
fn the_book_of_document_01_is_built() {
    let mut room = [0xAA; 98];
    assert_eq!(book_build(LIST, 2, &mut room), answer(0, 93, 0));
    assert_eq!(&room[..15], b"\0\x03Mar\x03\x03ina\0\x0DMar");
    assert_eq!(
        &room[29..53],
        b"\0\0\x03\0\0\0\x03\0\x04\0\x0D\0\0\0\x04\0\0\0\x01\0\x01\0\x03\0"
    );
    assert_eq!(
        &room[77..93],
        b"\x03\0\x02\0\x19\0\x1D\0\x04\0\x5D\0\x4E\x42\x4B\x32"
    );
    assert_eq!(room[93..], [0xAA; 5]);
}

#[test]
fn a_refused_call_leaves_the_room_as_it_was() {
    let mut room = [0xAA; 92];
    assert_eq!(book_build(LIST, 2, &mut room), answer(4, 0, 0));
    assert_eq!(book_build(LIST, 65, &mut room), answer(8, 0, 0));
    assert_eq!(book_build(b"\x01b\x01a", 2, &mut room), answer(6, 1, 0));
    assert_eq!(room, [0xAA; 92]);
}

/// The book of 93 bytes.
fn book() -> [u8; 93] {
    let mut room = [0; 93];
    assert_eq!(book_build(LIST, 2, &mut room), answer(0, 93, 0));
    room
}

/// The book of 88 bytes: the same names, in one block.
fn book_by_4() -> [u8; 88] {
    let mut room = [0; 88];
    assert_eq!(book_build(LIST, 4, &mut room), answer(0, 88, 0));
    room
}

#[test]
fn the_book_of_document_01_is_checked() {
    assert_eq!(book_check(&book()), answer(0, 3, 2));
    let mut spoilt = book();
    spoilt[30] = 1;
    assert_eq!(book_check(&spoilt), answer(2, 0, 0));
    assert_eq!(book_check(&book()[1..]), answer(2, 0, 0));
    assert_eq!(book_check(&[]), answer(2, 0, 0));
}

#[test]
fn a_wrong_width_and_the_old_mark_are_refused() {
    // The root's sixth field, that of Mar's leaf, and the last byte of the mark.
    for (at, wrong) in [(39, 3), (39, 12), (39, 14), (51, 2), (51, 4), (92, b'1')] {
        let mut spoilt = book();
        spoilt[at] = wrong;
        assert_eq!(book_check(&spoilt), answer(2, 0, 0), "{wrong} at {at}");
        assert_eq!(book_width(&spoilt, b"Mar"), unlooked(2));
    }
}

#[test]
fn each_name_of_the_book_of_document_01_is_read_back() {
    for (position, name) in ["Mar", "Marina", "Market Square"].iter().enumerate() {
        let mut room = [0xAA; 20];
        let read = book_read(&book(), position, &mut room);
        assert_eq!(read, answer(0, name.len(), 0));
        assert_eq!(&room[..name.len()], name.as_bytes());
        assert!(room[name.len()..].iter().all(|&byte| byte == 0xAA));
    }
}

#[test]
fn a_refused_reading_leaves_the_room_as_it_was() {
    let mut room = [0xAA; 12];
    assert_eq!(book_read(&[], 0, &mut room), answer(2, 0, 0));
    assert_eq!(book_read(&book(), 3, &mut room), answer(3, 0, 0));
    assert_eq!(book_read(&book(), usize::MAX, &mut room), answer(3, 0, 0));
    assert_eq!(book_read(&book(), 2, &mut room), answer(4, 0, 0));
    assert_eq!(room, [0xAA; 12]);
}

/// A call that asks a question.
type Ask = fn(&[u8], &[u8]) -> Counted;

/// All of them, in the order of the kinds.
const ASKS: [Ask; 5] = [book_exact, book_place, book_range, book_nearest, book_width];

#[test]
fn the_twelve_rows_of_document_01_are_answered_and_tell_how_far_they_looked() {
    // the answer, then the visits, and the entries in blocks of 2 and of 4
    type Asked = (Ask, &'static str, [usize; 2], usize, [usize; 2]);
    let rows: [Asked; 12] = [
        (book_exact, "Marina", [1, 1], 2, [2, 2]),
        (book_exact, "Marin", [0, 0], 2, [2, 2]),
        (book_place, "", [0, 0], 1, [1, 1]),
        (book_place, "Mark", [2, 0], 2, [1, 3]),
        (book_place, "Maxim", [3, 0], 2, [2, 2]),
        (book_range, "Mar", [0, 3], 2, [1, 1]),
        (book_range, "Mark", [2, 1], 2, [1, 3]),
        (book_range, "Mas", [3, 0], 2, [1, 1]),
        (book_nearest, "Mango", [0, 2], 1, [1, 1]),
        (book_nearest, "Maxim", [1, 2], 2, [2, 2]),
        (book_nearest, "Zoo", [0, 0], 2, [1, 1]),
        (book_nearest, "M", [0, 1], 1, [1, 1]),
    ];
    for (number, (ask, question, pair, visits, entries)) in rows.into_iter().enumerate() {
        for (book, entries) in [&book()[..], &book_by_4()].into_iter().zip(entries) {
            let answered = ask(book, question.as_bytes());
            assert_eq!(
                answered,
                looked(pair, visits, entries),
                "row {}",
                number + 1
            );
        }
    }
}

#[test]
fn the_width_of_a_range_is_its_longest_name() {
    // the width, then the visits, and the entries in blocks of 2 and of 4
    let rows = [
        ("", 13, 1, [1, 1]),
        ("Mar", 13, 2, [1, 1]),
        ("Mari", 6, 2, [2, 2]),
        ("Marina", 6, 2, [2, 2]),
        ("Market", 13, 2, [1, 3]),
        ("Mas", 0, 2, [1, 1]),
    ];
    for (question, width, visits, entries) in rows {
        for (book, entries) in [&book()[..], &book_by_4()].into_iter().zip(entries) {
            let answered = book_width(book, question.as_bytes());
            assert_eq!(answered, looked([width, 0], visits, entries), "{question}");
        }
    }
}

#[test]
fn all_kinds_look_equally_far_and_both_bounds_on_the_visits_are_met() {
    // a, ab, b: three names, and three visits for a question of one byte
    let mut book = [0; 16 + 5 * 12 + 2 + 3 + 3 + 3];
    let length = book.len();
    assert_eq!(
        book_build(b"\x01a\x02ab\x01b", 4, &mut book),
        answer(0, length, 0)
    );
    for (question, visits, entries) in [("a", 3, 1), ("ab", 3, 2), ("b", 2, 3), ("", 1, 1)] {
        for ask in ASKS {
            let given = ask(&book, question.as_bytes());
            assert_eq!(given.code, 0);
            assert_eq!(
                [given.visits, given.entries],
                [visits, entries],
                "{question}"
            );
        }
    }
}

#[test]
fn one_name_gives_one_visit_and_one_entry() {
    let mut book = [0; 16 + 12 + 2 + 5];
    let length = book.len();
    assert_eq!(book_build(b"\x03Mar", 64, &mut book), answer(0, length, 0));
    for (question, answers) in [
        ("Mar", [[0, 1], [0, 0], [0, 1], [0, 3], [3, 0]]),
        ("", [[0, 0], [0, 0], [0, 1], [0, 0], [3, 0]]),
        ("Zoo", [[0, 0], [1, 0], [1, 0], [0, 0], [0, 0]]),
    ] {
        let given = ASKS.map(|ask| ask(&book, question.as_bytes()));
        assert_eq!(given, answers.map(|pair| looked(pair, 1, 1)), "{question}");
    }
}

/// Questions to a book of Café, C3 A9 at its end, and how much of them is lit: they
/// part before é, inside it and behind it, or end inside it.
const LIT: [(&[u8], usize); 7] = [
    (b"Cafe", 3),
    (b"Caf\xC3\xA8", 3),
    (b"Caf\xC3\xA9s", 5),
    (b"Caf\xC3", 4),
    (b"Caf\xC3e", 4),
    (b"Caf\xC3\xA9\xA9", 3),
    (b"\xA9", 0),
];

#[test]
fn nearest_lights_no_half_letter_alone_and_in_a_batch() {
    let mut book = [0; 37];
    let list = b"\x05Caf\xC3\xA9";
    assert_eq!(book_build(list, 1, &mut book), answer(0, 37, 0));
    let mut start = 0;
    let rows = LIT.map(|(question, lit)| {
        assert_eq!(book_nearest(&book, question), looked([0, lit], 1, 1));
        start += question.len();
        row(4, start - question.len(), question.len())
    });
    let questions = LIT.map(|(question, _)| question).concat();
    let mut answers = [UNSET; 7];
    let answered = book_batch(&book, &questions, &rows, &mut answers);
    assert_eq!(answered, answer(0, 7, 0));
    assert_eq!(answers, LIT.map(|(_, lit)| answer(0, 0, lit)));
}

#[test]
fn a_question_is_refused_with_2_then_1_then_10() {
    let mut no_names = [0; 16];
    assert_eq!(book_build(&[], 2, &mut no_names), answer(0, 16, 0));
    let long = [b'M'; 201];
    for ask in ASKS {
        assert_eq!(ask(&book()[1..], &long), unlooked(2));
        assert_eq!(ask(&book(), &long), unlooked(1));
        assert_eq!(ask(&book(), &long[1..]).code, 0);
        assert_eq!(ask(&no_names, &long), unlooked(1));
    }
    // Without names nothing is looked at, whether the question is refused or not.
    let given = ASKS.map(|ask| ask(&no_names, b"Mar"));
    assert_eq!(given, [0, 0, 0, 10, 0].map(unlooked));
}

/// A row of a batch.
fn row(kind: usize, start: usize, length: usize) -> Row {
    Row {
        kind,
        start,
        length,
    }
}

/// What an answer row holds before a call.
const UNSET: Answer = Answer {
    code: 77,
    first: 78,
    second: 79,
};

#[test]
fn the_twelve_rows_of_document_01_are_answered_as_one_batch() {
    let questions = b"MarinaMarkMaximMangoMasZoo";
    let rows = [
        (row(1, 0, 6), 1, 1),  // Marina
        (row(1, 0, 5), 0, 0),  // Marin
        (row(2, 0, 0), 0, 0),  // the empty question
        (row(2, 6, 4), 2, 0),  // Mark
        (row(2, 10, 5), 3, 0), // Maxim
        (row(3, 0, 3), 0, 3),  // Mar
        (row(3, 6, 4), 2, 1),  // Mark
        (row(3, 20, 3), 3, 0), // Mas
        (row(4, 15, 5), 0, 2), // Mango
        (row(4, 10, 5), 1, 2), // Maxim
        (row(4, 23, 3), 0, 0), // Zoo
        (row(4, 0, 1), 0, 1),  // M
    ];
    let asked = rows.map(|(row, _, _)| row);
    let expected = rows.map(|(_, first, second)| answer(0, first, second));
    for book in [&book()[..], &book_by_4()] {
        let mut answers = [UNSET; 12];
        let answered = book_batch(book, questions, &asked, &mut answers);
        assert_eq!(answered, answer(0, 12, 0));
        assert_eq!(answers, expected);
    }
}

#[test]
fn a_refused_row_does_not_end_its_batch() {
    let rows = [
        row(1, 0, 3),
        row(6, 0, 3),
        row(3, 3, 1),
        row(3, usize::MAX, 4),
        row(2, 3, 0),
        row(5, 0, 3),
    ];
    let mut answers = [UNSET; 6];
    let answered = book_batch(&book(), b"Mar", &rows, &mut answers);
    assert_eq!(answered, answer(0, 6, 0));
    let refused = answer(11, 0, 0);
    let expected = [
        answer(0, 0, 1),
        refused,
        refused,
        refused,
        answer(0, 0, 0),
        answer(0, 13, 0),
    ];
    assert_eq!(answers, expected);
}

#[test]
fn a_row_of_no_kind_or_past_the_questions_is_refused_whatever_its_numbers() {
    let most = usize::MAX;
    let rows = [
        row(0, 0, 0),
        row(6, 0, 0),
        row(most, 0, 0),
        row(0, most, most),
        row(1, 4, 0),
        row(1, 0, 4),
        row(1, most, 1),
        row(1, 1, most),
        row(1, most, most),
        row(most, most, most),
    ];
    let mut answers = [UNSET; 10];
    let answered = book_batch(&book(), b"Mar", &rows, &mut answers);
    assert_eq!(answered, answer(0, 10, 0));
    assert_eq!(answers, [answer(11, 0, 0); 10]);
}

#[test]
fn a_refused_batch_leaves_the_answer_rows_as_they_were() {
    let mut answers = [UNSET; 65];
    let rows = [row(1, 0, 3); 65];
    let batches = [
        (65, 65, 12),
        (64, 65, 12),
        (0, 1, 12),
        (1, 0, 12),
        (64, 64, 2),
    ];
    for (asked, places, code) in batches {
        let places = &mut answers[..places];
        let answered = book_batch(&book()[1..], b"Mar", &rows[..asked], places);
        assert_eq!(answered, answer(code, 0, 0));
    }
    assert_eq!(answers, [UNSET; 65]);
}
