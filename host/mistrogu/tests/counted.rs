//! How far each question looked: the nodes on its way down, and the entries up to the
//! one name that was compared.

use mistrogu::counted::{self, Counted, Looked};
use mistrogu::{
    build, build_folded, exact, nearest, place, range, width, Kind, List, Refusal, Reply,
};

/// The list of these names.
fn list_of(names: &[&str]) -> Vec<u8> {
    let mut lent = [0; 2000];
    let mut list = List::new(&mut lent);
    for name in names {
        list.push(name.as_bytes()).unwrap();
    }
    list.records().to_vec()
}

/// The plain book of these names, in blocks of so many.
fn book_of(names: &[&str], block: usize) -> Vec<u8> {
    let mut room = vec![0; mistrogu::LONGEST_BOOK];
    let length = build(&list_of(names), block, &mut room).unwrap();
    room.truncate(length);
    room
}

/// Asks by the call of this kind that tells how far it looked.
fn ask(kind: Kind, book: &[u8], question: &[u8]) -> Result<Counted<Reply>, Refusal> {
    match kind {
        Kind::Exact => counted::exact(book, question).map(|got| got.map(Reply::Exact)),
        Kind::Place => counted::place(book, question).map(|got| got.map(Reply::Place)),
        Kind::Range => counted::range(book, question).map(|got| got.map(Reply::Range)),
        Kind::Nearest => counted::nearest(book, question).map(|got| got.map(Reply::Nearest)),
        Kind::Width => counted::width(book, question).map(|got| got.map(Reply::Width)),
    }
}

/// Asks by the call of this kind that gives its answer alone.
fn ask_alone(kind: Kind, book: &[u8], question: &[u8]) -> Result<Reply, Refusal> {
    match kind {
        Kind::Exact => exact(book, question).map(Reply::Exact),
        Kind::Place => place(book, question).map(Reply::Place),
        Kind::Range => range(book, question).map(Reply::Range),
        Kind::Nearest => nearest(book, question).map(Reply::Nearest),
        Kind::Width => width(book, question).map(Reply::Width),
    }
}

/// How far a question looked. All kinds look equally far, and answer as they do
/// where it is not told.
fn looked(book: &[u8], question: &str) -> Looked {
    let all = Kind::ALL.map(|kind| {
        let got = ask(kind, book, question.as_bytes()).unwrap();
        let alone = ask_alone(kind, book, question.as_bytes());
        assert_eq!(Ok(got.answer), alone, "{kind:?} {question}");
        got.looked
    });
    assert!(all.iter().all(|one| *one == all[0]), "{question}: {all:?}");
    all[0]
}

/// So many nodes and entries.
fn far(visits: usize, entries: usize) -> Looked {
    Looked { visits, entries }
}

#[test]
fn the_questions_of_document_01_look_so_far() {
    let book = book_of(&["Mar", "Marina", "Market Square"], 2);
    for (question, visits, entries) in [
        ("", 1, 1),
        ("M", 1, 1),
        ("Mango", 1, 1),
        ("Mar", 2, 1),
        ("Mas", 2, 1),
        ("Zoo", 2, 1),
        ("Marin", 2, 2),
        ("Marina", 2, 2),
        ("Maxim", 2, 2),
        ("Mark", 2, 1),
    ] {
        assert_eq!(looked(&book, question), far(visits, entries), "{question}");
    }
}

#[test]
fn both_bounds_of_the_visits_are_met_by_one_question() {
    let book = book_of(&["a", "ab", "b"], 2);
    assert_eq!(looked(&book, "a").visits, 3, "its length plus 2, and n");
    assert_eq!(looked(&book, "").visits, 1);
    assert_eq!(looked(&book, "b").visits, 2);
    assert_eq!(looked(&book, "abc").visits, 3);
}

#[test]
fn visits_are_within_both_bounds() {
    let names = ["a", "aa", "aaa", "aaaa", "aaab", "ab", "b", "ba", "bb"];
    let book = book_of(&names, 4);
    let mut greatest = 0;
    for question in names.into_iter().chain(["", "aaaaa", "aac", "c", "bab"]) {
        let Looked { visits, entries } = looked(&book, question);
        assert!((1..=names.len()).contains(&visits), "{question}");
        assert!(visits <= question.len() + 2, "{question}");
        let position = nearest(&book, question.as_bytes()).unwrap().position;
        assert_eq!(entries, position % 4 + 1, "{question}");
        greatest = greatest.max(visits);
    }
    assert_eq!(greatest, 5, "the root, a, aa, aaa and a leaf");
}

#[test]
fn one_name_is_one_node_and_one_entry() {
    let book = book_of(&["Mar"], 64);
    for question in ["", "M", "Mar", "Marina", "Zoo"] {
        assert_eq!(looked(&book, question), far(1, 1), "{question}");
    }
}

#[test]
fn entries_are_counted_from_the_first_of_the_block() {
    let names = ["a", "b", "c", "d", "e", "f", "g"];
    for block in [1, 2, 3, 7, 64] {
        let book = book_of(&names, block);
        for (position, name) in names.into_iter().enumerate() {
            assert_eq!(looked(&book, name), far(2, position % block + 1), "{name}");
        }
        assert_eq!(looked(&book, "z"), far(1, 1));
    }
}

#[test]
fn without_names_there_is_nothing_to_look_at() {
    let book = book_of(&[], 16);
    for kind in [Kind::Exact, Kind::Place, Kind::Range, Kind::Width] {
        for question in ["", "Mar"] {
            let got = ask(kind, &book, question.as_bytes()).unwrap();
            assert_eq!(got.looked, far(0, 0), "{kind:?} {question}");
        }
    }
}

#[test]
fn refusals_are_those_of_the_plain_functions() {
    let (book, none) = (book_of(&["Mar"], 16), book_of(&[], 16));
    for kind in Kind::ALL {
        for lent in [&book[1..], &book, &none] {
            for question in [&[b'M'; 201][..], b"Mar"] {
                let answer = ask(kind, lent, question).map(|got| got.answer);
                assert_eq!(answer, ask_alone(kind, lent, question));
            }
        }
    }
    let refused = |lent, question| counted::nearest(lent, question).unwrap_err();
    assert_eq!(refused(&book[1..], b"Mar"), Refusal::NoBook);
    assert_eq!(refused(&book, &[b'M'; 201]), Refusal::QuestionTooLong);
    assert_eq!(refused(&none, b"Mar"), Refusal::NoNames);
}

#[test]
fn a_folded_book_is_looked_at_by_letters() {
    let names = ["mar", "Marina", "MARKET Square"];
    let mut room = [0; 100];
    let length = build_folded(&list_of(&names), 4, &mut room).unwrap();
    let book = &room[..length];
    for (question, visits, entries) in [
        ("MAR", 2, 1),
        ("marina", 2, 2),
        ("MARINA", 2, 2),
        ("market", 2, 3),
        ("MAngo", 1, 1),
    ] {
        assert_eq!(looked(book, question), far(visits, entries), "{question}");
    }
}

#[test]
fn a_refused_question_gives_0_and_0() {
    let (book, none) = (book_of(&["Mar"], 16), book_of(&[], 16));
    let refused = |code| proved::Counted {
        code,
        ..Default::default()
    };
    let long = [b'M'; 201];
    for ask in [
        proved::book_exact,
        proved::book_place,
        proved::book_range,
        proved::book_nearest,
        proved::book_width,
    ] {
        assert_eq!(ask(&book[1..], b"Mar"), refused(2));
        assert_eq!(ask(&book, &long), refused(1));
        assert_eq!(ask(&none, &long), refused(1));
    }
    assert_eq!(proved::book_nearest(&none, b"Mar"), refused(10));
}
