//! Folded books through the typed calls: capitals and small letters are the same,
//! and spelling comes back unchanged.

use mistrogu::{
    build, build_folded, check, exact, nearest, place, range, read, salvage, width, Batch,
    BookKind, Checked, Kind, List, Nearest, Refusal, Reply, Report,
};

/// Names in the order of a folded book, in which neighbours share few bytes.
const STOPS: [&str; 3] = ["mar", "Marina", "MARKET Square"];

/// The list of these names.
fn list_of(names: &[&str]) -> Vec<u8> {
    let mut lent = [0; 200];
    let mut list = List::new(&mut lent);
    for name in names {
        list.push(name.as_bytes()).unwrap();
    }
    list.records().to_vec()
}

/// The folded book of the names, of 93 bytes.
fn book() -> Vec<u8> {
    let mut room = vec![0; 100];
    let length = build_folded(&list_of(&STOPS), 4, &mut room).unwrap();
    room.truncate(length);
    room
}

/// A book with another mark.
fn marked(kind: BookKind, book: &[u8]) -> Vec<u8> {
    [&book[..book.len() - 4], &kind.mark()].concat()
}

#[test]
fn the_book_is_checked_and_its_names_are_read_as_they_were_spelt() {
    let book = book();
    assert_eq!(book.len(), 93);
    let checked = Checked {
        names: 3,
        block: 4,
        kind: BookKind::Folded,
    };
    assert_eq!(check(&book), Ok(checked));
    let mut room = [0; 20];
    for (position, stop) in STOPS.iter().enumerate() {
        assert_eq!(read(&book, position, &mut room), Ok(stop.as_bytes()));
    }
}

#[test]
fn questions_find_names_in_any_case() {
    let book = book();
    assert_eq!(exact(&book, b"MARINA"), Ok(Some(1)));
    assert_eq!(exact(&book, b"marin"), Ok(None));
    assert_eq!(place(&book, b"MARK"), Ok(2));
    assert_eq!(range(&book, b"MaR"), Ok(0..3));
    assert_eq!(range(&book, b"MAS"), Ok(3..3));
    assert_eq!(width(&book, b"mARI"), Ok(6));
    let near = |position, lit| Ok(Nearest { position, lit });
    assert_eq!(nearest(&book, b"markt"), near(2, 4));
    assert_eq!(nearest(&book, b"MAXIM"), near(1, 2));
}

#[test]
fn a_batch_folds_as_single_questions_do() {
    let (book, buffer) = (book(), b"MARINAmarkt");
    let asked = [
        (Kind::Exact, 0..6, Reply::Exact(Some(1))),
        (Kind::Place, 6..11, Reply::Place(3)),
        (Kind::Range, 0..3, Reply::Range(0..3)),
        (
            Kind::Nearest,
            6..11,
            Reply::Nearest(Nearest {
                position: 2,
                lit: 4,
            }),
        ),
        (Kind::Width, 6..10, Reply::Width(13)),
    ];
    let mut batch = Batch::<5>::new();
    for (kind, span, _) in &asked {
        batch.push(*kind, span.clone()).unwrap();
    }
    let replies = batch.ask(&book, buffer).unwrap();
    for ((_, _, expected), reply) in asked.into_iter().zip(replies) {
        assert_eq!(reply, Ok(expected));
    }
}

#[test]
fn names_that_are_equal_once_folded_are_refused_with_their_record() {
    let mut room = [7; 200];
    for names in [["MAR", "mar"], ["mar", "MAR"], ["Mar", "Mar"]] {
        let refused = build_folded(&list_of(&names), 2, &mut room).unwrap_err();
        assert_eq!((refused.refusal, refused.record), (Refusal::NotAbove, 1));
    }
    assert_eq!(room, [7; 200]);
}

#[test]
fn a_list_may_rise_for_one_kind_and_not_for_the_other() {
    let mut room = [0; 200];
    let refusal = |built: Result<usize, mistrogu::Refused>| built.map_err(|no| no.refusal).err();
    let plain_only = list_of(&["Zoo", "abbey"]);
    assert_eq!(refusal(build(&plain_only, 2, &mut room)), None);
    let not_above = Some(Refusal::NotAbove);
    assert_eq!(refusal(build_folded(&plain_only, 2, &mut room)), not_above);
    let folded_only = list_of(&["abbey", "Zoo"]);
    assert_eq!(refusal(build(&folded_only, 2, &mut room)), not_above);
    assert_eq!(refusal(build_folded(&folded_only, 2, &mut room)), None);
}

#[test]
fn the_order_of_a_kind_is_that_of_its_lists() {
    let names = [
        "@", "A", "Z", "[", "`", "a", "z", "{", "a@", "B[", "MAR", "marina", "É", "é",
    ];
    for kind in BookKind::ALL {
        for (one, other) in names
            .iter()
            .flat_map(|one| names.map(|other| (*one, other)))
        {
            let list = list_of(&[one, other]);
            let mut room = [0; 200];
            let built = match kind {
                BookKind::Plain | BookKind::Columns => build(&list, 2, &mut room),
                BookKind::Folded => build_folded(&list, 2, &mut room),
            };
            let rises = kind.order(one.as_bytes(), other.as_bytes()).is_lt();
            assert_eq!(built.is_ok(), rises, "{kind:?} {one} {other}");
        }
    }
}

#[test]
fn small_letters_alone_make_books_that_differ_in_their_mark() {
    let list = list_of(&["mar", "marina", "market square"]);
    let (mut plain, mut folded) = ([0; 200], [0; 200]);
    let length = build(&list, 2, &mut plain).unwrap();
    assert_eq!(build_folded(&list, 2, &mut folded), Ok(length));
    let (plain, folded) = (&plain[..length], &folded[..length]);
    assert_eq!(marked(BookKind::Folded, plain), folded);
    assert_eq!(check(plain).unwrap().kind, BookKind::Plain);
    assert_eq!(check(folded).unwrap().kind, BookKind::Folded);
}

#[test]
fn under_the_other_mark_it_is_no_book_where_it_is_not_that_kind_s() {
    let swapped = marked(BookKind::Plain, &book());
    assert_eq!(check(&swapped), Err(Refusal::NoBook));
    assert_eq!(exact(&swapped, b"mar"), Err(Refusal::NoBook));
}

#[test]
fn a_folded_book_can_t_be_salvaged() {
    let (book, mut room, mut report) = (book(), [7; 100], Report::<1>::new());
    let salvaged = salvage(&book, &mut room, &mut report);
    assert_eq!(salvaged.err(), Some(Refusal::NoMap));
    assert_eq!(room, [7; 100]);
}
