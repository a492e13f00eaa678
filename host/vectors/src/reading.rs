//! The [set](crate::sets) of `book_read`.
//!
//! # A case
//!
//! | Bytes | What |
//! |---|---|
//! | 4 | L, the length of the book; 0 for the book of the case before |
//! | 8 | the position, any number of 64 bits |
//! | 4 | R, the length of the room, at most 1,000 |
//! | L | the book |
//!
//! # What to do with a case
//!
//! Take a room of R bytes and fill it: byte number i, from 0, gets i modulo
//! 251. Read. Then print, behind the number of the case:
//!
//! - code, first and second of the answer;
//! - the two numbers of the [checksum](mod@crate::checksum) of the name: of the
//!   first `first` bytes of the room where the code is 0, of no bytes (1 and 0)
//!   where it is not;
//! - the two numbers of the checksum of the whole room, so that a byte that was
//!   touched past the name, or in a refused call, shows.

use crate::damage::{
    changed_bytes, gaps, old_books, other_counts, other_nodes, other_widths, spoil_book,
};
use crate::hostile;
use crate::lists::{self, Names};
use crate::pieces::Pieces;
use crate::random::Random;
use crate::rooms::{filled_room, printed_outcome};
use crate::sets::{length_bytes, word, Call, Case, Set};
use format::MOST_NAMES;
use model::{book_of, book_read, BookKind};

/// The longest room of a case.
pub const LONGEST_ROOM: usize = 1000;

/// A call of `book_read`.
#[derive(Clone)]
pub struct Read {
    position: u64,
    room: usize,
}

/// Cases with such a call.
type Cases = Vec<Case<Read>>;

/// The set.
pub const SET: Set<Read> = Set {
    name: "read",
    groups: &[
        empty_input,
        worked_example,
        no_names,
        lengths_of_names,
        small_books,
        deep_and_wide_trees,
        numbers_of_names,
        longest_books,
        spoilt_books,
        random_books,
        hostile_tables,
    ],
};

impl Call for Read {
    fn front(&self) -> Vec<u8> {
        [&self.position.to_le_bytes()[..], &length_bytes(self.room)].concat()
    }

    fn told(&self) -> Vec<String> {
        vec![
            format!("position {}", self.position),
            format!("room {}", self.room),
        ]
    }

    fn outcome(&self, book: &[u8]) -> String {
        let mut room = filled_room(self.room);
        let answer = book_read(book, word(self.position), &mut room);
        printed_outcome(answer, &room)
    }
}

/// Reads from one run of bytes: a case for each position and room.
pub(crate) fn of_bytes(why: &str, book: Vec<u8>, calls: &[(u64, usize)]) -> Cases {
    let calls = calls.iter();
    let calls = calls.map(|&(position, room)| Read { position, room });
    Case::of_same(why, book, calls)
}

/// Each position with a room that fits, one that is a byte short, a longer one
/// and none.
fn with_rooms(names: &Names, positions: impl IntoIterator<Item = usize>) -> Vec<(u64, usize)> {
    let mut calls = Vec::new();
    for position in positions {
        let length = names[position].len();
        let rooms = [length, length - 1, length + 9, 0];
        calls.extend(rooms.map(|room| (position as u64, room)));
    }
    calls
}

/// Reads these positions of a book of this kind.
pub(crate) fn at_positions(
    kind: BookKind,
    why: &str,
    names: &Names,
    block: usize,
    positions: &[usize],
) -> Cases {
    let calls = with_rooms(names, positions.iter().copied());
    of_bytes(why, book_of(kind, block, names), &calls)
}

/// Reads these positions of a plain book.
fn at_plain(why: &str, names: &Names, block: usize, positions: &[usize]) -> Cases {
    at_positions(BookKind::Plain, why, names, block, positions)
}

/// Reads every position of a book, then one past the last and the largest.
fn all_positions(why: &str, names: &Names, block: usize) -> Cases {
    let mut calls = with_rooms(names, 0..names.len());
    calls.extend([(names.len() as u64, 300), (u64::MAX, 300)]);
    of_bytes(why, book_of(BookKind::Plain, block, names), &calls)
}

/// No bytes: 2, before 3 and 4.
fn empty_input() -> Cases {
    of_bytes("empty input", vec![], &[(0, 0), (0, 9), (u64::MAX, 0)])
}

/// The book of 93 bytes and the one of 88; positions whose low bytes alone
/// would be fine; and 3 before 4.
fn worked_example() -> Cases {
    let names = lists::example();
    let mut cases = Vec::new();
    for block in [2, 4] {
        cases.extend(all_positions("worked example", &names, block));
    }
    let book = book_of(BookKind::Plain, 2, &names);
    let high = [256, 65_536, 1 << 32, (1 << 32) + 2, 1 << 63].map(|position| (position, 30));
    cases.extend(of_bytes("high positions", book.clone(), &high));
    let no_room = [(3, 0), (4, 0), (u64::MAX, 0)];
    cases.extend(of_bytes("3 before 4", book, &no_room));
    cases
}

/// Books without names have no position.
fn no_names() -> Cases {
    let blocks = [1, 64].into_iter();
    blocks
        .flat_map(|block| {
            let calls = [(0, 0), (0, 9), (1, 9), (u64::MAX, 9)];
            of_bytes(
                "no names",
                book_of(BookKind::Plain, block, &Names::new()),
                &calls,
            )
        })
        .collect()
}

/// Names of 1 and of 200 bytes.
fn lengths_of_names() -> Cases {
    let name = |length: usize| vec![b'n'; length];
    [
        all_positions("one name of 1 byte", &vec![name(1)], 1),
        all_positions("one name of 200 bytes", &vec![name(200)], 64),
        all_positions("both lengths", &vec![name(1), name(200)], 2),
        all_positions("two of 200", &vec![vec![0; 200], vec![255; 200]], 1),
    ]
    .concat()
}

/// Every position of small books, with blocks of 1, some and all names.
fn small_books() -> Cases {
    let tree = lists::texts(&["a", "ab", "abba", "abbot", "b", "ba", "bad", "c"]);
    let mut cases = Vec::new();
    for block in [1, 3, 8, 16] {
        cases.extend(all_positions("small tree", &tree, block));
    }
    let chain = lists::chain(b'a', 12);
    cases.extend(all_positions("short chain", &chain, 5));
    let mirror = lists::mirror(b'a', b'b', 12);
    cases.extend(all_positions("short mirror", &mirror, 5));
    cases
}

/// Names that are put together from many entries before them.
fn deep_and_wide_trees() -> Cases {
    let chain = lists::chain(b'a', 200);
    let mirror = lists::mirror(b'a', b'b', 200);
    let fan = lists::fan(b"x");
    let stops = lists::stops();
    [
        at_plain("deepest chain", &chain, 64, &[0, 63, 64, 127, 198, 199]),
        at_plain("deepest mirror", &mirror, 64, &[0, 63, 64, 127, 199]),
        at_plain("257 children", &fan, 16, &[0, 1, 16, 255, 256]),
        at_plain("seventy stops", &stops, 16, &[0, 15, 16, 17, 68, 69]),
    ]
    .concat()
}

/// 2,000 names and one more: 2, whatever the position.
fn numbers_of_names() -> Cases {
    let full = lists::pairs(2000);
    let past = [(2000, 9), (1999, 2), (65_536, 9)];
    [
        at_plain("2,000 names", &full, 64, &[0, 63, 64, 1023, 1999]),
        of_bytes(
            "past 2,000 names",
            book_of(BookKind::Plain, 64, &full),
            &past,
        ),
        of_bytes(
            "2,001 names",
            book_of(BookKind::Plain, 64, &lists::pairs(2001)),
            &[(0, 9)],
        ),
    ]
    .concat()
}

/// A book of 65,535 bytes with long names.
fn longest_books() -> Cases {
    let names = lists::with_book_length(BookKind::Plain, &lists::pairs(320), 16, 65_535);
    let last = names.len() - 1;
    at_plain("book of 65,535", &names, 16, &[0, 15, 16, 17, last])
}

/// Bytes that are no book: 2, before 3 and 4.
fn spoilt_books() -> Cases {
    let names = lists::example();
    let pieces = Pieces::of(BookKind::Plain, 2, &names);
    let bytes = book_of(BookKind::Plain, 2, &names);
    let spoilt = [
        changed_bytes(&bytes),
        other_counts(&pieces),
        other_nodes(&pieces),
        other_widths(&pieces),
        gaps(&pieces),
        old_books(&pieces),
    ];
    let mut cases = Vec::new();
    for (number, (how, book)) in spoilt.into_iter().flatten().enumerate() {
        let calls = [(1, 20), (0, 3), (3, 20), (2, 0)];
        let call = calls[number % calls.len()];
        cases.extend(of_bytes(&how, book, &[call]));
    }
    cases
}

/// Random books, some of them spoilt, at random positions.
fn random_books() -> Cases {
    let mut random = Random::from_seed(5);
    let all = lists::all_bytes();
    let mut cases = Vec::new();
    for turn in 0..40 {
        let letters = if turn % 3 == 0 { &all } else { &b"abc"[..] };
        let names = lists::grown(&mut random, letters, 12, 9);
        let block = random.between(1, 6);
        if turn % 4 == 0 {
            let book = spoil_book(&mut random, BookKind::Plain, block, &names);
            cases.extend(of_bytes("spoilt at random", book, &[(0, 90), (3, 90)]));
        } else {
            let positions = [0; 3].map(|_| random.below(names.len()));
            cases.extend(at_plain("random", &names, block, &positions));
        }
    }
    cases
}

/// Node tables to lead a check astray, over few names, over as many as make a
/// nest deeper than any book, and over the most there can be: 2.
fn hostile_tables() -> Cases {
    let counts = [24, hostile::DEEPER_THAN_ANY].into_iter();
    let kinds =
        counts.flat_map(|count| hostile::kinds().into_iter().map(move |kind| (kind, count)));
    kinds
        .chain([(hostile::falling_names(), MOST_NAMES)])
        .flat_map(|(kind, count)| {
            let purpose = format!("hostile, {}", kind.how);
            of_bytes(&purpose, kind.with_names(count).bytes(), &[(0, 9)])
        })
        .collect()
}
