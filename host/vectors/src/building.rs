//! The [set](crate::sets) of `book_build`.
//!
//! # A case
//!
//! | Bytes | What |
//! |---|---|
//! | 4 | L, the length of the list |
//! | 8 | the block size, any number of 64 bits |
//! | 4 | R, the length of the room, at most 70,000 |
//! | L | the list |
//!
//! # What to do with a case
//!
//! Take a room of R bytes and fill it: byte number i, from 0, gets i modulo
//! 251. Build. Then print, behind the number of the case:
//!
//! - code, first and second of the answer;
//! - the two numbers of the [checksum](mod@crate::checksum) of the book: of the
//!   first `first` bytes of the room where the code is 0, of no bytes (1 and 0)
//!   where it is not;
//! - the two numbers of the checksum of the whole room, so that a byte that was
//!   touched past the book, or in a refused call, shows.

use crate::damage::{spoil_bytes, spoil_names};
use crate::lists::{self, followed, Names};
use crate::random::Random;
use crate::rooms::{filled_room, printed_outcome};
use crate::sets::{length_bytes, word, Call, Case, Set};
use model::{book_of, build_kind, write_list, BookKind};

/// The longest room of a case.
pub const LONGEST_ROOM: usize = 70_000;

/// A call of `book_build`, or of `book_build_folded`. Which of the two it is does
/// not stand in the file: a set has calls of one kind.
#[derive(Clone)]
pub struct Build {
    pub(crate) kind: BookKind,
    pub(crate) block: u64,
    pub(crate) room: usize,
}

/// Cases with such a call.
type Cases = Vec<Case<Build>>;

/// The set.
pub const SET: Set<Build> = Set {
    name: "build",
    groups: &[
        worked_example,
        block_sizes,
        empty_lists,
        lengths_of_names,
        longest_names,
        cut_records,
        order_of_names,
        lowest_and_highest_bytes,
        deep_and_wide_trees,
        numbers_of_names,
        longest_books,
        bad_records_in_long_lists,
        every_block_size,
        random_lists,
        spoilt_lists,
    ],
};

impl Call for Build {
    const TAKES: &'static str = "list";

    fn front(&self) -> Vec<u8> {
        [&self.block.to_le_bytes()[..], &length_bytes(self.room)].concat()
    }

    fn told(&self) -> Vec<String> {
        vec![
            format!("block {}", self.block),
            format!("room {}", self.room),
        ]
    }

    fn outcome(&self, list: &[u8]) -> String {
        let mut room = filled_room(self.room);
        let answer = build_kind(self.kind, list, word(self.block), &mut room);
        printed_outcome(answer, &room)
    }
}

/// A case with this list, as bytes.
fn of_bytes(why: &str, list: impl Into<Vec<u8>>, block: u64, room: usize) -> Case<Build> {
    let kind = BookKind::Plain;
    Case::of(why, list, Build { kind, block, room })
}

/// A case with these names.
fn of_names(why: &str, names: &Names, block: u64, room: usize) -> Case<Build> {
    of_bytes(why, write_list(names), block, room)
}

/// A case with these names and a room that has so many bytes more than the
/// book.
fn fitting(why: &str, names: &Names, block: u64, spare: usize) -> Case<Build> {
    let room = book_of(BookKind::Plain, block as usize, names).len() + spare;
    of_names(why, names, block, room)
}

/// The book of 93 bytes and the one of 88, with room on both sides of that.
fn worked_example() -> Cases {
    let names = lists::example();
    let with_two = [93, 92, 94, 0].map(|room| (2, room));
    let with_four = [88, 87, 300].map(|room| (4, room));
    let calls = with_two.into_iter().chain(with_four);
    calls
        .map(|(block, room)| of_names("worked example", &names, block, room))
        .collect()
}

/// Block sizes on both sides of 1 and 64; some whose low bytes alone would be
/// fine; and refusal 8 before every other.
fn block_sizes() -> Cases {
    let names = lists::example();
    let sizes = [0, 1, 64, 65, 258, (1 << 32) + 2, u64::MAX];
    let sizes = sizes.into_iter();
    let mut cases: Cases = sizes
        .map(|block| of_names("block size", &names, block, 100))
        .collect();
    cases.push(of_bytes("8 before 5", [0], 0, 100));
    cases.push(of_bytes("8 before 6", b"\x01b\x01a", 65, 100));
    cases.push(of_bytes("8 before 4", b"", 65, 0));
    cases.push(of_bytes("8 for the empty list", b"", 0, 100));
    cases
}

/// The book of 16 bytes.
fn empty_lists() -> Cases {
    let calls = [(1, 15), (1, 16), (2, 15), (2, 16), (64, 15), (64, 16)];
    let calls = calls.into_iter().chain([(16, 40)]);
    calls
        .map(|(block, room)| of_bytes("empty list", b"", block, room))
        .collect()
}

/// Names of 1, 200 and 201 bytes, and of lengths that no name has.
fn lengths_of_names() -> Cases {
    let name = |length: usize| vec![b'n'; length];
    let second = followed(&lists::texts(&["m"]), b"\0\x01n");
    vec![
        fitting("one name of 1 byte", &vec![name(1)], 1, 5),
        fitting("one name of 200 bytes", &vec![name(200)], 1, 5),
        of_names("one name of 201 bytes", &vec![name(201)], 1, 300),
        fitting("a second name of 200", &vec![name(1), name(200)], 2, 0),
        of_names("a second of 201", &vec![name(1), name(201)], 2, 300),
        of_names("a second of 255", &vec![name(1), name(255)], 2, 300),
        of_bytes("a first record of length 0", [0], 2, 100),
        of_bytes("a second of length 0", second, 2, 100),
    ]
}

/// The longest name as the first, the second and the last of a fork.
fn longest_names() -> Cases {
    [0, 1, 2]
        .map(|number| fitting("longest name", &lists::longest_of_three(number), 2, 1))
        .into()
}

/// Records that run past the end of the list: 5, before 6.
fn cut_records() -> Cases {
    let names = lists::example();
    let cut = |bytes: &[u8]| followed(&names, bytes);
    vec![
        of_bytes("a bare length byte, nothing else", [1], 2, 100),
        of_bytes("a bare length byte at the end", cut(&[9]), 2, 100),
        of_bytes("a bare 0 at the end", cut(&[0]), 2, 100),
        of_bytes("a bare 201 at the end", cut(&[201]), 2, 100),
        of_bytes("a record one byte short", cut(b"\x05Zoom"), 2, 100),
        of_bytes("cut short, and falling", cut(b"\x05Aa"), 2, 100),
    ]
}

/// Names that do not rise: 6, with the number of the record.
fn order_of_names() -> Cases {
    let beginning = lists::texts(&["Marina", "Mar"]);
    let equal_late = lists::texts(&["a", "b", "c", "c", "d"]);
    let last_falls = [vec![b'n'; 200], [vec![b'n'; 199], vec![b'm']].concat()];
    let equal_long = [vec![b'n'; 200], vec![b'n'; 200]];
    let refused = |why, names: &Names| of_names(why, names, 2, 400);
    vec![
        refused("equal neighbours", &lists::texts(&["Mar", "Mar"])),
        refused("equal neighbours, later", &equal_late),
        refused("falling neighbours", &lists::texts(&["b", "a"])),
        refused("a name, then its beginning", &beginning),
        refused("equal names of 200 bytes", &equal_long.to_vec()),
        refused("falling in the last of 200", &last_falls.to_vec()),
        of_bytes("6 before a later 5", b"\x01b\x01a\0", 2, 100),
        of_bytes("5 before a later 6", b"\x01b\0\x01a", 2, 100),
    ]
}

/// Bytes 0 and 255 are ordinary.
fn lowest_and_highest_bytes() -> Cases {
    let mixed = [
        &b"\0"[..],
        b"\0\0",
        b"\0\xFF",
        b"\x7F\xFF",
        b"\x80\0",
        b"\xFF",
        b"\xFF\0",
        b"\xFF\xFF",
    ];
    let mixed: Names = mixed.iter().map(|name| name.to_vec()).collect();
    let zeros = vec![vec![0; 199], vec![0; 200]];
    let highest = vec![vec![255; 199], vec![255; 200]];
    vec![
        fitting("bytes 0 and 255", &mixed, 3, 2),
        fitting("zeros alone", &zeros, 2, 2),
        fitting("255s alone", &highest, 2, 2),
        of_bytes("255 falling to 0", b"\x01\xFF\x01\0", 2, 100),
    ]
}

/// The deepest trees and the widest.
fn deep_and_wide_trees() -> Cases {
    let chain = lists::chain(b'a', 200);
    let longest_path = [chain.clone(), lists::texts(&["b"])].concat();
    let mirror = lists::mirror(b'a', b'b', 200);
    let fans = [lists::fan(b"x"), lists::fan(b"xyz"), lists::fan(b"y")].concat();
    vec![
        fitting("short chain", &lists::chain(b'a', 11), 5, 3),
        fitting("short mirror", &lists::mirror(b'a', b'b', 11), 5, 3),
        fitting("deepest chain", &chain, 64, 3),
        fitting("chain with the longest path", &longest_path, 1, 3),
        fitting("deepest mirror", &mirror, 64, 3),
        fitting("all names of one byte", &lists::single_bytes(), 16, 3),
        fitting("three times 257 children", &lists::sorted(fans), 10, 3),
    ]
}

/// 2,000 names and one more: 5, 6 or 7 with the record's number 2,000.
fn numbers_of_names() -> Cases {
    let full = lists::pairs(2000);
    let more = lists::pairs(2001);
    let next = |bytes: &[u8]| followed(&full, bytes);
    vec![
        fitting("2,000 names", &full, 64, 3),
        fitting("2,000 names, a block each", &full, 1, 0),
        of_names("2,001 names", &more, 64, 40_000),
        of_bytes("7, then rubbish", followed(&more, b"\0\0\xFF"), 64, 0),
        of_bytes("number 2,000 empty", next(&[0]), 64, 40_000),
        of_bytes("number 2,000 too long", next(&[201; 202]), 64, 0),
        of_bytes("number 2,000 cut short", next(b"\x03zz"), 64, 0),
        of_bytes("number 2,000 equal", next(&[2, 7, 249]), 64, 40_000),
        of_bytes("number 2,000 falling", next(&[2, 7, 248]), 64, 0),
    ]
}

/// Books of 65,535 and 65,536 bytes: the second are refused with 9, whatever
/// the room.
fn longest_books() -> Cases {
    let small = lists::binary(lists::MOST_BINARY);
    let fits = lists::with_book_length(BookKind::Plain, &small, 1, 65_535);
    let too_long = lists::with_book_length(BookKind::Plain, &small, 1, 65_536);
    let wide = lists::with_book_length(BookKind::Plain, &lists::pairs(320), 16, 65_535);
    let too_wide = lists::with_book_length(BookKind::Plain, &lists::pairs(320), 16, 65_536);
    vec![
        of_names("book of 65,535, many nodes", &fits, 1, 65_535),
        of_names("book of 65,535, room short", &fits, 1, 65_534),
        of_names("book of 65,535, long names", &wide, 16, 70_000),
        of_names("book of 65,536, no room", &too_long, 1, 0),
        of_names("book of 65,536, room to spare", &too_long, 1, 70_000),
        of_names("book of 65,536, long names", &too_wide, 16, 70_000),
    ]
}

/// A list that is too long for a book, and then has a bad record: not 9.
fn bad_records_in_long_lists() -> Cases {
    let names = lists::with_book_length(
        BookKind::Plain,
        &lists::binary(lists::MOST_BINARY),
        1,
        65_600,
    );
    let many = lists::with_book_length(BookKind::Plain, &lists::binary(2000), 1, 78_100);
    let falling = write_list(&names[names.len() - 2..][..1]);
    vec![
        of_bytes("5 and not 9", followed(&names, &[0]), 1, 65_535),
        of_bytes("6 and not 9", followed(&names, &falling), 1, 0),
        of_bytes("7 and not 9", followed(&many, b"\x01z"), 1, 0),
    ]
}

/// One list with each block size there is.
fn every_block_size() -> Cases {
    let names = lists::stops();
    (1..=64)
        .map(|block| fitting("seventy stops", &names, block, 1))
        .collect()
}

/// Random lists over few letters and over all bytes.
fn random_lists() -> Cases {
    let mut random = Random::from_seed(1);
    let all = lists::all_bytes();
    let mut cases = Vec::new();
    for letters in [&b"ab"[..], b"abc", b"\0\x01\xFE\xFF"] {
        let short = lists::random(&mut random, letters, 120, 1, 6);
        cases.push(fitting("short names, few letters", &short, 7, 9));
        let grown = lists::grown(&mut random, letters, 60, 8);
        cases.push(fitting("grown names, few letters", &grown, 16, 1));
    }
    for (count, most) in [(200, 3), (60, 30), (8, 200)] {
        let names = lists::random(&mut random, &all, count, 1, most);
        cases.push(fitting("names of all bytes", &names, 5, 4));
    }
    let grown = lists::grown(&mut random, &all, 90, 12);
    cases.push(fitting("grown names of all bytes", &grown, 64, 0));
    cases
}

/// Random lists, spoilt.
fn spoilt_lists() -> Cases {
    let mut random = Random::from_seed(2);
    let all = lists::all_bytes();
    let mut cases = Vec::new();
    for turn in 0..10 {
        let letters = if turn % 2 == 0 { &b"abc"[..] } else { &all };
        let mut names = lists::grown(&mut random, letters, 30, 6);
        if turn % 3 == 0 {
            spoil_names(&mut random, &mut names);
        }
        let mut list = write_list(&names);
        if turn % 3 != 0 {
            spoil_bytes(&mut random, &mut list);
        }
        cases.push(of_bytes("spoilt list", list, 4, 1200));
    }
    cases
}
