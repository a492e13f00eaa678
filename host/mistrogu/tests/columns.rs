//! Column books through the typed calls: made of plain books and turned back, with the
//! same answers and the same counts.

use mistrogu::{
    build, check, counted, from_columns, read, salvage, to_columns, Batch, BookKind, Checked, Kind,
    List, Refusal, Report,
};

const NAMES: [&str; 8] = [
    "Alder Bridge",
    "Harbour",
    "Harbour East",
    "Harbour Gate",
    "Mar",
    "Marina",
    "Market Square",
    "Zoo",
];

/// The plain book of these names, in blocks of so many.
fn plain_book(names: &[&str], block: usize) -> Vec<u8> {
    let mut lent = [0; 2000];
    let mut list = List::new(&mut lent);
    for name in names {
        list.push(name.as_bytes()).unwrap();
    }
    let mut room = vec![0; 2000];
    let length = build(list.records(), block, &mut room).unwrap();
    room.truncate(length);
    room
}

/// The column book of a plain book.
fn columns_of(plain: &[u8]) -> Vec<u8> {
    let mut room = vec![0; plain.len()];
    assert_eq!(
        to_columns(plain, &mut room).map(<[u8]>::len),
        Ok(plain.len())
    );
    room
}

/// The two bytes of a field of a node: in a plain book, and in a column book.
fn field(book: &[u8], node: usize, field: usize) -> &[u8] {
    let trailer = book.len() - 16;
    let number = |at: usize| usize::from(u16::from_le_bytes([book[at], book[at + 1]]));
    let (start, nodes) = (number(trailer + 6), number(trailer + 8));
    let at = match BookKind::of_marked(book).unwrap() {
        BookKind::Columns => start + 2 * (nodes * field + node),
        BookKind::Plain | BookKind::Folded => start + 12 * node + 2 * field,
    };
    &book[at..at + 2]
}

#[test]
fn every_field_stands_in_its_column_and_nothing_else_moves() {
    for count in 0..=NAMES.len() {
        for block in [1, 3, 64] {
            let plain = plain_book(&NAMES[..count], block);
            let columns = columns_of(&plain);
            let trailer = plain.len() - 16;
            let number = |at: usize| usize::from(u16::from_le_bytes([plain[at], plain[at + 1]]));
            let (start, nodes) = (number(trailer + 6), number(trailer + 8));
            assert_eq!(start + 12 * nodes, if count == 0 { 0 } else { trailer });
            for node in 0..nodes {
                for of_node in 0..6 {
                    assert_eq!(field(&columns, node, of_node), field(&plain, node, of_node));
                }
            }
            assert_eq!(columns[..start], plain[..start]);
            assert_eq!(columns[trailer..trailer + 12], plain[trailer..trailer + 12]);
            assert!(columns.ends_with(b"NBC2"));
        }
    }
}

#[test]
fn to_columns_and_back_is_the_same_book() {
    for count in 0..=NAMES.len() {
        let plain = plain_book(&NAMES[..count], 2);
        let columns = columns_of(&plain);
        let mut room = vec![7; plain.len() + 1];
        assert_eq!(from_columns(&columns, &mut room), Ok(&plain[..]));
        assert_eq!(room[plain.len()], 7);
        let checked = Checked {
            names: count,
            block: 2,
            kind: BookKind::Columns,
        };
        assert_eq!(check(&columns), Ok(checked));
    }
}

#[test]
fn without_names_and_with_one_the_mark_alone_differs() {
    for count in [0, 1] {
        let plain = plain_book(&NAMES[..count], 5);
        let columns = columns_of(&plain);
        let end = plain.len() - 4;
        assert_eq!(columns[..end], plain[..end]);
        assert_ne!(columns, plain);
    }
}

#[test]
fn under_the_other_mark_it_is_no_book() {
    let plain = plain_book(&NAMES, 2);
    let columns = columns_of(&plain);
    let end = plain.len() - 4;
    let plain_as_columns = [&plain[..end], b"NBC2"].concat();
    let columns_as_plain = [&columns[..end], b"NBK2"].concat();
    for book in [plain_as_columns, columns_as_plain] {
        assert_eq!(check(&book), Err(Refusal::NoBook));
        for convert in [to_columns, from_columns] {
            assert_eq!(convert(&book, &mut [0; 2000]), Err(Refusal::NoBook));
        }
    }
}

#[test]
fn names_questions_and_counts_are_those_of_the_plain_book() {
    for count in 0..=NAMES.len() {
        let plain = plain_book(&NAMES[..count], 3);
        let columns = columns_of(&plain);
        for position in 0..=count {
            let (mut one, mut other) = ([0; 200], [0; 200]);
            assert_eq!(
                read(&columns, position, &mut one),
                read(&plain, position, &mut other)
            );
        }
        for name in NAMES {
            for text in [name, &name[..3], &name[1..], "", "Harbour Ga", "~"] {
                same_answers(&plain, &columns, text.as_bytes());
            }
        }
    }
}

/// Asserts that both books answer a question alike, and look equally far.
fn same_answers(plain: &[u8], columns: &[u8], text: &[u8]) {
    assert_eq!(counted::exact(columns, text), counted::exact(plain, text));
    assert_eq!(counted::place(columns, text), counted::place(plain, text));
    assert_eq!(counted::range(columns, text), counted::range(plain, text));
    let [one, other] = [columns, plain].map(|book| counted::nearest(book, text));
    assert_eq!(one, other);
    assert_eq!(counted::width(columns, text), counted::width(plain, text));
    let [mut one, mut other] = [Batch::<5>::new(), Batch::<5>::new()];
    for kind in Kind::ALL {
        one.push(kind, 0..text.len()).unwrap();
        other.push(kind, 0..text.len()).unwrap();
    }
    let one = one.ask(columns, text).unwrap();
    let other = other.ask(plain, text).unwrap();
    assert!(one.eq(other));
}

#[test]
fn a_column_book_can_t_be_salvaged() {
    let book = columns_of(&plain_book(&NAMES, 8));
    let (mut room, mut report) = ([7; 100], Report::<1>::new());
    let salvaged = salvage(&book, &mut room, &mut report);
    assert_eq!(salvaged.err(), Some(Refusal::NoMap));
    assert_eq!(room, [7; 100]);
}
