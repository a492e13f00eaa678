//! The [set](crate::sets) of `book_check`.
//!
//! # A case
//!
//! | Bytes | What |
//! |---|---|
//! | 4 | L, the length of the book |
//! | L | the book |
//!
//! # What to do with a case
//!
//! Check. Then print, behind the number of the case: code, first and second of
//! the answer.

use crate::damage::{
    changed_bytes, cut_bytes, other_blocks, other_pieces, other_widths, spoil_book, Spoilt,
};
use crate::hostile;
use crate::lists::{self, Names};
use crate::pieces::{Pieces, NODE_FIELDS, WIDTH};
use crate::random::Random;
use crate::rooms::printed_answer;
use crate::sets::{Call, Case, Set};
use format::MOST_NAMES;
use model::{book_check, book_of, BookKind};

/// A call of `book_check`. Nothing goes into it but the book.
#[derive(Clone)]
pub struct Check;

/// Cases with such a call.
type Cases = Vec<Case<Check>>;

/// The set.
pub const SET: Set<Check> = Set {
    name: "check",
    groups: &[
        worked_example,
        no_names,
        lengths_of_names,
        longest_names,
        shapes,
        block_sizes,
        numbers_of_names,
        longest_books,
        lists_that_are_none,
        bytes_around_a_book,
        no_books_at_all,
        spoilt_example,
        spoilt_tree,
        spoilt_at_the_end,
        spoilt_at_random,
        hostile_tables,
    ],
};

impl Call for Check {
    fn outcome(&self, book: &[u8]) -> String {
        printed_answer(book_check(book))
    }
}

/// A case with these bytes.
pub(crate) fn of_bytes(why: impl Into<String>, book: impl Into<Vec<u8>>) -> Case<Check> {
    Case::of(why, book, Check)
}

/// A case with the layout of these names, whether a book allows them or not.
fn of_names(why: &str, names: &Names, block: usize) -> Case<Check> {
    of_bytes(
        format!("{why}, k {block}"),
        book_of(BookKind::Plain, block, names),
    )
}

/// A case for each spoilt book.
pub(crate) fn of_spoilt(why: &str, spoilt: Spoilt) -> Cases {
    let spoilt = spoilt.into_iter();
    spoilt
        .map(|(how, book)| of_bytes(format!("{why}, {how}"), book))
        .collect()
}

/// The book of 93 bytes, the one of 88, and others of the same names.
fn worked_example() -> Cases {
    let names = lists::example();
    [2, 4, 1, 3, 16, 64]
        .map(|block| of_names("worked example", &names, block))
        .into()
}

/// Books of 16 bytes.
fn no_names() -> Cases {
    let names = Names::new();
    let mut cases: Cases = [1, 2, 16, 64, 0, 65, 256, 258]
        .map(|block| of_names("no names", &names, block))
        .into();
    let book = book_of(BookKind::Plain, 2, &names);
    cases.extend(of_spoilt("no names", changed_bytes(&book)));
    cases
}

/// Names of 1, 200 and 201 bytes, and none.
fn lengths_of_names() -> Cases {
    let name = |length: usize| vec![b'n'; length];
    vec![
        of_names("one name of 1 byte", &vec![name(1)], 1),
        of_names("one name of 1 byte", &vec![name(1)], 64),
        of_names("one name of 200 bytes", &vec![name(200)], 2),
        of_names("one name of 201 bytes", &vec![name(201)], 2),
        of_names("one name of 255 bytes", &vec![name(255)], 2),
        of_names("a second name of 200", &vec![name(199), name(200)], 2),
        of_names("a second name of 201", &vec![name(200), name(201)], 2),
        of_names("a second name of 201", &vec![name(200), name(201)], 1),
        of_names("one name of no bytes", &vec![name(0)], 1),
        of_names("a first name of no bytes", &vec![name(0), name(1)], 2),
    ]
}

/// The longest name as the first, the second and the last of a fork, and wrong
/// widths where it is the second.
fn longest_names() -> Cases {
    let mut cases: Cases = [0, 1, 2]
        .map(|number| of_names("longest name", &lists::longest_of_three(number), 2))
        .into();
    let middle = Pieces::of(BookKind::Plain, 2, &lists::longest_of_three(1));
    cases.extend(of_spoilt("longest in the middle", other_widths(&middle)));
    cases
}

/// Sound books of many shapes, with block sizes from 1 to 64.
fn shapes() -> Cases {
    let mut random = Random::from_seed(3);
    let all = lists::all_bytes();
    let longest_path = [lists::chain(b'a', 200), lists::texts(&["b"])].concat();
    let grown = lists::grown(&mut random, &all, 90, 12);
    let few = lists::random(&mut random, b"\0\x01\xFE\xFF", 120, 1, 6);
    let ends = vec![vec![0; 199], vec![0; 200], vec![255; 199], vec![255; 200]];
    vec![
        of_names("short chain", &lists::chain(b'a', 11), 5),
        of_names("short mirror", &lists::mirror(b'a', b'b', 11), 5),
        of_names("chain with the longest path", &longest_path, 16),
        of_names("deepest mirror", &lists::mirror(b'a', b'b', 200), 64),
        of_names("all names of one byte", &lists::single_bytes(), 16),
        of_names("257 children", &lists::fan(b"x"), 1),
        of_names("bytes 0 and 255", &ends, 2),
        of_names("grown names of all bytes", &grown, 16),
        of_names("short names, few letters", &few, 7),
        of_names("seventy stops", &lists::stops(), 1),
        of_names("seventy stops", &lists::stops(), 16),
        of_names("seventy stops", &lists::stops(), 64),
    ]
}

/// Block sizes on both sides of 1 and 64, laid out as they say.
fn block_sizes() -> Cases {
    let names = lists::chain(b'a', 70);
    [0, 1, 63, 64, 65, 66, 128, 256, 257, 65_535]
        .map(|block| of_names("block size", &names, block))
        .into()
}

/// 2,000 names and one more.
fn numbers_of_names() -> Cases {
    vec![
        of_names("2,000 names", &lists::pairs(2000), 64),
        of_names("2,001 names", &lists::pairs(2001), 64),
    ]
}

/// Books of 65,535 and 65,536 bytes, and 65,536 bytes before a book.
fn longest_books() -> Cases {
    let small = lists::binary(lists::MOST_BINARY);
    let fits = lists::with_book_length(BookKind::Plain, &small, 1, 65_535);
    let too_long = lists::with_book_length(BookKind::Plain, &small, 1, 65_536);
    let book = book_of(BookKind::Plain, 4, &lists::example());
    let behind = [vec![0; 65_536], book].concat();
    vec![
        of_names("book of 65,535", &fits, 1),
        of_names("book of 65,536", &too_long, 1),
        of_bytes("65,536 bytes, then a book", behind),
    ]
}

/// The layout of names that do not rise.
fn lists_that_are_none() -> Cases {
    let wrong = [
        ("equal names", lists::texts(&["Mar", "Mar"])),
        (
            "a name, then its beginning",
            lists::texts(&["Marina", "Mar"]),
        ),
        ("falling names", lists::texts(&["b", "a"])),
        ("falling in the midst", lists::texts(&["a", "c", "b", "d"])),
        ("falling from 255 to 0", vec![vec![255], vec![0]]),
        ("equal names of 200", vec![vec![b'n'; 200], vec![b'n'; 200]]),
    ];
    let calls = wrong.iter().flat_map(|list| [1, 2, 64].map(|k| (list, k)));
    calls
        .map(|((purpose, names), block)| of_names(purpose, names, block))
        .collect()
}

/// Books cut short, and with bytes before or behind them.
fn bytes_around_a_book() -> Cases {
    let book = book_of(BookKind::Plain, 2, &lists::example());
    let mut cases = of_spoilt("cut", cut_bytes(&book));
    cases.push(of_bytes("a byte behind", [&book[..], &[0]].concat()));
    cases.push(of_bytes("a 1 behind", [&book[..], b"1"].concat()));
    cases.push(of_bytes("a byte before", [&[0], &book[..]].concat()));
    cases.push(of_bytes("twice", [&book[..], &book].concat()));
    cases
}

/// Nothing, and runs of one byte.
fn no_books_at_all() -> Cases {
    let mut cases = vec![of_bytes("empty input", [])];
    for (byte, length) in [
        (0, 1),
        (0, 15),
        (0, 16),
        (0, 17),
        (1, 16),
        (255, 16),
        (255, 300),
    ] {
        let purpose = format!("byte {byte} over and over");
        cases.push(of_bytes(purpose, vec![byte; length]));
    }
    cases
}

/// The 93 and the 88 bytes: every byte changed, every piece spoilt; but the nodes,
/// which are the same in both, in the first alone.
fn spoilt_example() -> Cases {
    let names = lists::example();
    let (by_two, by_four) = (
        Pieces::of(BookKind::Plain, 2, &names),
        Pieces::of(BookKind::Plain, 4, &names),
    );
    [
        of_spoilt("93", changed_bytes(&by_two.bytes())),
        of_spoilt("93", other_pieces(&by_two)),
        of_spoilt("88", changed_bytes(&by_four.bytes())),
        of_spoilt("88", other_blocks(&by_four)),
    ]
    .concat()
}

/// A small book with three blocks and inner nodes below the root: every piece
/// spoilt.
fn spoilt_tree() -> Cases {
    let names = lists::texts(&["a", "ab", "abba", "abbot", "b", "ba", "bad", "c"]);
    let pieces = Pieces::of(BookKind::Plain, 3, &names);
    of_spoilt("small tree", other_pieces(&pieces))
}

/// Larger books that are wrong in one number of their last node, or in the width
/// of the root, which a check that goes down first knows last.
fn spoilt_at_the_end() -> Cases {
    let mut cases = Vec::new();
    for (purpose, names) in [
        ("mirror of 60", lists::mirror(b'a', b'b', 60)),
        ("100 children", (0..100).map(|byte| vec![byte; 3]).collect()),
    ] {
        for (field, what) in NODE_FIELDS.iter().enumerate() {
            let mut pieces = Pieces::of(BookKind::Plain, 64, &names);
            if let Some(node) = pieces.nodes.last_mut() {
                node[field] += 1;
            }
            let purpose = format!("{purpose}, last node, {what} one more");
            cases.push(of_bytes(purpose, pieces.bytes()));
        }
        let mut pieces = Pieces::of(BookKind::Plain, 64, &names);
        pieces.nodes[0][WIDTH] -= 1;
        let purpose = format!("{purpose}, root, width one less");
        cases.push(of_bytes(purpose, pieces.bytes()));
    }
    cases
}

/// Small random books, spoilt at random.
fn spoilt_at_random() -> Cases {
    let mut random = Random::from_seed(4);
    let all = lists::all_bytes();
    let mut cases = Vec::new();
    for turn in 0..150 {
        let letters = if turn % 3 == 0 { &all } else { &b"abc"[..] };
        let count = random.between(1, 12);
        let names = lists::grown(&mut random, letters, count, 5);
        let block = random.between(1, 6);
        let book = spoil_book(&mut random, BookKind::Plain, block, &names);
        cases.push(of_bytes("spoilt at random", book));
    }
    cases
}

/// Node tables to lead a check astray: of every kind over few names, nests that
/// are deeper than any book, and the one with the most forks.
fn hostile_tables() -> Cases {
    let few = hostile::kinds().into_iter().map(|kind| (kind, 24));
    let nests = hostile::nests().into_iter();
    let deep = nests.map(|kind| (kind, hostile::DEEPER_THAN_ANY));
    few.chain(deep)
        .chain([(hostile::falling_names(), MOST_NAMES)])
        .map(|(kind, count)| {
            let purpose = format!("hostile, {}", kind.how);
            of_bytes(purpose, kind.with_names(count).bytes())
        })
        .collect()
}
