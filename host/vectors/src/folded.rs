//! The [sets](crate::sets) of folded books: of `book_build_folded`, and of the
//! calls that take a book of any kind.
//!
//! A book's mark tells its kind, so the files of `book_check`, `book_read`, the
//! questions and `book_batch` are of the same kind as those of plain books. The
//! file of `book_build_folded` is of the same kind as that of `book_build`; which
//! of the two calls is made says the name of the set.

use crate::asking::{self, Ask};
use crate::batches::{any_batch, Batch};
use crate::batching::{self, AskBatch};
use crate::building::Build;
use crate::checking::{self, Check};
use crate::damage::{
    changed_bytes, other_blocks, other_nodes, other_pieces, other_widths, spoil_book, spoil_bytes,
    spoil_names, swap_mark, Spoilt,
};
use crate::hostile;
use crate::lists::{self, compared, sorted_for, texts, Names};
use crate::pieces::{Pieces, NODE_FIELDS, WIDTH};
use crate::questions::{about_letters, all_short, any_question, around_all};
use crate::random::Random;
use crate::reading::{self, Read};
use crate::sets::{Case, Set};
use crate::spelling::{by_turns, names_respelt, other_case, respelt};
use model::{book_of, write_list, BookKind};

/// The set of `book_build_folded`.
pub const BUILD: Set<Build> = Set {
    name: "folded_build",
    groups: &[
        built_examples,
        built_block_sizes,
        built_without_names,
        built_in_order,
        built_around_the_letters,
        built_by_turns,
        built_at_the_limits,
        built_at_random,
    ],
};

/// The set of `book_check`.
pub const CHECK: Set<Check> = Set {
    name: "folded_check",
    groups: &[
        checked_examples,
        checked_under_the_other_mark,
        checked_in_order,
        checked_by_turns,
        checked_spoilt,
        checked_spoilt_at_the_end,
        checked_spoilt_at_random,
        checked_hostile,
    ],
};

/// The set of `book_read`.
pub const READ: Set<Read> = Set {
    name: "folded_read",
    groups: &[read_examples, read_by_turns, read_spoilt],
};

/// The set of the five questions.
pub const ASK: Set<Ask> = Set {
    name: "folded_ask",
    groups: &[
        asked_examples,
        asked_without_names,
        asked_around_the_letters,
        asked_short_questions,
        asked_about_letters,
        asked_by_turns,
        asked_spoilt,
        asked_at_random,
    ],
};

/// The set of `book_batch`.
pub const BATCH: Set<AskBatch> = Set {
    name: "folded_batch",
    groups: &[batched_examples, batched_by_turns, batched_at_random],
};

// Names

/// MAR and marina: no byte in common, and three letters.
pub fn mar_and_marina() -> Names {
    texts(&["MAR", "marina"])
}

/// mar, Marina, MARKET Square: the last two have one byte in common, and three
/// letters.
pub fn spelt_example() -> Names {
    texts(&["mar", "Marina", "MARKET Square"])
}

/// The bytes around the letters, and letters at the ends, each alone.
const AROUND: &[u8; 8] = b"@AZ[`az{";

/// The names of one and two of these bytes, without those that fold to others.
fn around_the_letters() -> Names {
    sorted_for(BookKind::Folded, all_short(AROUND, 2)[1..].to_vec())
}

/// Names of a folded book, in small letters and in capitals by turns.
pub(crate) fn turned(names: Names) -> Names {
    by_turns(&sorted_for(BookKind::Folded, names))
}

/// Eight short names by turns, with forks below forks.
fn small_tree() -> Names {
    turned(texts(&["a", "ab", "abba", "abbot", "b", "ba", "bad", "c"]))
}

/// Names that have capitals with accents, of which no byte folds, and letters
/// without.
fn accented() -> Names {
    let names = texts(&["CAFé", "cafÉ", "Éa", "éB", "KÖln", "köLNER", "Ünder"]);
    sorted_for(BookKind::Folded, names)
}

/// So many bytes stand behind the entries of a book of three names in one block:
/// one offset, five nodes and the trailer.
const BEHIND_THREE: usize = 2 + 5 * 12 + 16;

/// Names of a folded book in blocks of 16, of which the first goes on behind its
/// second byte as the last does behind its count: by the last name's own bytes,
/// then by all that stands in the book behind them, then by more. Whoever counts
/// what is alike there, and does not ask first whether both names begin alike,
/// counts past the end of the book.
pub fn on_past_the_end() -> Names {
    let with_end = |end: &[u8]| {
        let first = [&b"aaX2"[..], end, &[b'!'; 40]].concat();
        vec![first, b"abx1".to_vec(), b"abX2".to_vec()]
    };
    // what the book ends with does not hang on what the first name goes on with
    let book = book_of(BookKind::Folded, 16, &with_end(&[0; BEHIND_THREE]));
    with_end(&book[book.len() - BEHIND_THREE..])
}

/// Lists that are none for a folded book, by what is wrong with them: names that
/// fold to one, or fall by their symbols.
fn not_rising() -> Vec<(&'static str, Names)> {
    let long = |first: u8, last: u8| [vec![first], vec![b'n'; 198], vec![last]].concat();
    vec![
        ("equal once folded", texts(&["MAR", "mar"])),
        ("equal once folded, small first", texts(&["mar", "MAR"])),
        ("equal in one letter", texts(&["Marina", "MarinA"])),
        ("equal bytes", texts(&["Mar", "Mar"])),
        (
            "equal once folded, later",
            texts(&["a", "B", "c", "C", "d"]),
        ),
        (
            "a name, then its beginning",
            texts(&["MARINA", "mar", "zoo"]),
        ),
        ("rising as bytes alone", texts(&["Zoo", "abbey"])),
        ("Z before 91", texts(&["Z", "["])),
        ("A before 96", texts(&["A", "`"])),
        (
            "200 bytes, first in the other case",
            vec![long(b'N', b'x'), long(b'n', b'x')],
        ),
        (
            "200 bytes, last in the other case",
            vec![long(b'n', b'X'), long(b'n', b'x')],
        ),
        (
            "200 bytes, last falls",
            vec![long(b'N', b'y'), long(b'n', b'X')],
        ),
    ]
}

/// Lists that rise once folded and not as bytes.
fn rising_once_folded() -> Vec<(&'static str, Names)> {
    vec![
        ("rising as symbols alone", texts(&["abbey", "Zoo"])),
        ("91 before A", texts(&["[", "A"])),
        ("96 before Z", texts(&["`", "Z"])),
        ("a capital in the midst", texts(&["maRk", "maRs", "maSt"])),
    ]
}

/// Deep lists by turns: every name begins the next one, or the other way round.
fn deep_by_turns() -> [(&'static str, Names); 2] {
    [
        ("chain by turns", by_turns(&lists::chain(b'a', 200))),
        ("mirror by turns", by_turns(&lists::mirror(b'a', b'b', 200))),
    ]
}

/// At most so many random names over few letters of both cases.
fn any_few_letters(random: &mut Random, count: usize) -> Names {
    let letters = *random.one_of(&[&b"aAbB"[..], b"abc", b"aA[`{@", b"zZ\xC3\x89\xA9"]);
    let names = lists::grown(random, letters, count, 5);
    names_respelt(random, BookKind::Folded, &names)
}

// Building

/// A case with this list, as bytes.
fn build_bytes(why: &str, list: impl Into<Vec<u8>>, block: u64, room: usize) -> Case<Build> {
    let kind = BookKind::Folded;
    Case::of(why, list, Build { kind, block, room })
}

/// A case with these names, which a build may refuse.
fn build_names(why: &str, names: &Names, block: u64, room: usize) -> Case<Build> {
    build_bytes(why, write_list(names), block, room)
}

/// A case with these names and a room with so many bytes more than the book.
fn build_fitting(why: &str, names: &Names, block: u64, spare: usize) -> Case<Build> {
    let room = book_of(BookKind::Folded, block as usize, names).len() + spare;
    build_names(why, names, block, room)
}

/// MAR and marina, and the example as three offices spell it, with rooms on both
/// sides of what they need; and the same in small letters.
fn built_examples() -> Vec<Case<Build>> {
    let (two, three) = (mar_and_marina(), spelt_example());
    let small = compared(BookKind::Folded, &lists::example());
    let mut cases = Vec::new();
    for room in [67, 66, 68, 0] {
        cases.push(build_names("MAR, marina", &two, 2, room));
    }
    cases.push(build_fitting("MAR, marina", &two, 1, 0));
    for (block, room) in [(4, 93), (4, 92), (4, 300), (2, 96), (1, 98)] {
        cases.push(build_names("spelt example", &three, block, room));
    }
    cases.push(build_fitting("small letters", &small, 2, 1));
    cases.push(build_fitting(
        "as document 01 spells them",
        &lists::example(),
        2,
        1,
    ));
    cases
}

/// Block sizes on both sides of 1 and 64, and 8 before every other refusal.
fn built_block_sizes() -> Vec<Case<Build>> {
    let sizes = [0, 1, 64, 65, 258, (1 << 32) + 2, u64::MAX].into_iter();
    let mut cases: Vec<Case<Build>> = sizes
        .map(|block| build_names("block size", &spelt_example(), block, 100))
        .collect();
    cases.push(build_bytes("8 before 6", b"\x01A\x01a", 65, 100));
    cases.push(build_bytes("8 before 5", [0], 0, 100));
    cases
}

/// The book of 16 bytes.
fn built_without_names() -> Vec<Case<Build>> {
    [(1, 15), (1, 16), (64, 16), (16, 40)]
        .map(|(block, room)| build_bytes("empty list", b"", block, room))
        .into()
}

/// Names that do not rise once folded, and names that rise only then; 5 and 6 in
/// the order of the records.
fn built_in_order() -> Vec<Case<Build>> {
    let mut cases = Vec::new();
    for (why, names) in not_rising() {
        cases.push(build_names(why, &names, 2, 500));
    }
    for (why, names) in rising_once_folded() {
        cases.push(build_fitting(why, &names, 2, 1));
    }
    cases.push(build_bytes("6 before a later 5", b"\x01B\x01b\0", 2, 100));
    cases.push(build_bytes("5 before a later 6", b"\x01B\0\x01b", 2, 100));
    cases.push(build_bytes("cut short, and equal", b"\x01B\x02b", 2, 100));
    cases
}

/// Every two of the bytes around the letters as a list, then all names of one and
/// two of them; and capitals with accents.
fn built_around_the_letters() -> Vec<Case<Build>> {
    let mut cases = Vec::new();
    for first in AROUND {
        for second in AROUND {
            let names = vec![vec![*first], vec![*second]];
            cases.push(build_names("around the letters", &names, 2, 70));
        }
    }
    cases.push(build_fitting(
        "all around the letters",
        &around_the_letters(),
        5,
        1,
    ));
    cases.push(build_fitting("capitals with accents", &accented(), 2, 1));
    cases
}

/// Names of which neighbours share no byte, however much they share as letters.
fn built_by_turns() -> Vec<Case<Build>> {
    let stops = turned(lists::stops());
    let mut cases: Vec<Case<Build>> = [1, 2, 16, 64]
        .map(|block| build_fitting("seventy stops by turns", &stops, block, 1))
        .into();
    for (why, names) in deep_by_turns() {
        cases.push(build_fitting(why, &names, 64, 3));
    }
    cases.push(build_fitting("small tree by turns", &small_tree(), 3, 0));
    cases.push(build_fitting(
        "most children",
        &turned(lists::fan(b"x")),
        16,
        3,
    ));
    cases
}

/// 2,000 names that stay apart when folded, and one more; books of 65,535 and
/// 65,536 bytes.
fn built_at_the_limits() -> Vec<Case<Build>> {
    let apart = sorted_for(BookKind::Folded, lists::pairs(2400));
    let (full, more) = (apart[..2000].to_vec(), apart[..2001].to_vec());
    let small = by_turns(&lists::binary(1300));
    let with_length = |length| lists::with_book_length(BookKind::Folded, &small, 16, length);
    vec![
        build_fitting("2,000 names", &full, 64, 3),
        build_names("2,001 names", &more, 64, 40_000),
        build_names("book of 65,535", &with_length(65_535), 16, 65_535),
        build_names("book of 65,536", &with_length(65_536), 16, 70_000),
    ]
}

/// Random lists of both cases, sound and spoilt.
fn built_at_random() -> Vec<Case<Build>> {
    let mut random = Random::from_seed(71);
    let mut cases = Vec::new();
    for turn in 0..24 {
        let mut names = any_few_letters(&mut random, 30);
        if turn % 4 == 1 {
            spoil_names(&mut random, &mut names);
        }
        let mut list = write_list(&names);
        if turn % 4 == 2 {
            spoil_bytes(&mut random, &mut list);
        }
        let block = random.between(1, 9) as u64;
        cases.push(build_bytes("at random", list, block, 3000));
    }
    cases
}

// Checking

/// A case with the folded layout of these names, whether a book allows them or not.
fn check_names(why: &str, names: &Names, block: usize) -> Case<Check> {
    let book = book_of(BookKind::Folded, block, names);
    checking::of_bytes(format!("{why}, k {block}"), book)
}

/// The bytes with the mark of the other kind.
fn other_mark(mut book: Vec<u8>) -> Vec<u8> {
    swap_mark(&mut book);
    book
}

/// The examples with several block sizes, no names, small letters alone, and
/// capitals with accents.
fn checked_examples() -> Vec<Case<Check>> {
    let mut cases = Vec::new();
    for block in [1, 2, 4, 64, 0, 65] {
        cases.push(check_names("spelt example", &spelt_example(), block));
        cases.push(check_names("MAR, marina", &mar_and_marina(), block));
        cases.push(check_names("no names", &Names::new(), block));
    }
    let small = compared(BookKind::Folded, &lists::example());
    cases.push(check_names("small letters", &small, 2));
    cases.push(check_names("capitals with accents", &accented(), 2));
    cases.push(check_names(
        "all around the letters",
        &around_the_letters(),
        5,
    ));
    cases
}

/// Books of either kind under the mark of the other: taken only where they are
/// that kind's book, too.
fn checked_under_the_other_mark() -> Vec<Case<Check>> {
    let mut cases = Vec::new();
    for (why, kind, names) in [
        ("no names", BookKind::Plain, vec![]),
        ("one name", BookKind::Plain, vec!["MAR"]),
        (
            "small letters",
            BookKind::Plain,
            vec!["mar", "marina", "market"],
        ),
        (
            "small letters",
            BookKind::Folded,
            vec!["mar", "marina", "market"],
        ),
        (
            "parting in small letters",
            BookKind::Plain,
            vec!["MAR", "MARina"],
        ),
        (
            "parting in small letters",
            BookKind::Folded,
            vec!["MAR", "MARina"],
        ),
        (
            "parting in capitals",
            BookKind::Plain,
            vec!["MAR", "MARINA"],
        ),
        (
            "parting in capitals",
            BookKind::Folded,
            vec!["MAR", "MARINA"],
        ),
        ("another depth", BookKind::Plain, vec!["MAR", "marina"]),
        ("another depth", BookKind::Folded, vec!["MAR", "marina"]),
        ("another order", BookKind::Plain, vec!["Zoo", "abbey"]),
        ("another order", BookKind::Folded, vec!["abbey", "Zoo"]),
        ("equal once folded", BookKind::Plain, vec!["MAR", "mar"]),
        ("accents alone", BookKind::Plain, vec!["É", "é"]),
    ] {
        let book = other_mark(book_of(kind, 2, &texts(&names)));
        cases.push(checking::of_bytes(
            format!("{kind:?} marked as the other, {why}"),
            book,
        ));
    }
    cases
}

/// The folded layout of names that do not rise once folded, and of those that rise
/// only then; the second also with what the plain rule makes of them.
fn checked_in_order() -> Vec<Case<Check>> {
    let mut cases = Vec::new();
    for (why, names) in not_rising() {
        cases.extend([1, 2].map(|block| check_names(why, &names, block)));
    }
    for (why, names) in rising_once_folded() {
        cases.extend([1, 2].map(|block| check_names(why, &names, block)));
        let plain = book_of(BookKind::Plain, 2, &names);
        cases.push(checking::of_bytes(
            format!("{why}, plain layout"),
            plain.clone(),
        ));
        cases.push(checking::of_bytes(
            format!("{why}, plain nodes"),
            other_mark(plain),
        ));
    }
    cases
}

/// Books in which neighbours share no byte, so that what they share is found by
/// counting letters along the block.
fn checked_by_turns() -> Vec<Case<Check>> {
    let stops = turned(lists::stops());
    let mut cases: Vec<Case<Check>> = [1, 2, 16, 64]
        .map(|block| check_names("seventy stops by turns", &stops, block))
        .into();
    for (why, names) in deep_by_turns() {
        cases.extend([1, 64].map(|block| check_names(why, &names, block)));
    }
    let longest = lists::with_book_length(
        BookKind::Folded,
        &by_turns(&lists::binary(1300)),
        16,
        65_535,
    );
    cases.push(check_names("book of 65,535", &longest, 16));
    cases
}

/// Each letter of the entries in the other case.
fn other_cases(book: &Pieces) -> Spoilt {
    let bytes = book.bytes();
    let entries = 0..book.trailer.block_table;
    let letters = entries.filter(|&at| other_case(bytes[at]) != bytes[at]);
    letters
        .map(|at| {
            let mut spoilt = bytes.clone();
            spoilt[at] = other_case(bytes[at]);
            (format!("byte {at} in the other case"), spoilt)
        })
        .collect()
}

/// Each node's symbol as the plain rule would have it, where that is another: that
/// of the capital.
fn plain_symbols(book: &Pieces) -> Spoilt {
    let plain = Pieces::of(BookKind::Plain, book.trailer.block, &book.made_of);
    let is_same_table = plain.nodes.len() == book.nodes.len();
    let others =
        (0..book.nodes.len()).filter(|&at| is_same_table && plain.nodes[at] != book.nodes[at]);
    others
        .map(|at| {
            let mut pieces = book.clone();
            pieces.nodes[at] = plain.nodes[at];
            (format!("node {at} of the plain book"), pieces.bytes())
        })
        .collect()
}

/// The examples: every byte changed, every letter in the other case, every piece
/// spoilt; and a small tree in three blocks.
fn checked_spoilt() -> Vec<Case<Check>> {
    let of = |block, names: &Names| Pieces::of(BookKind::Folded, block, names);
    let two = of(2, &mar_and_marina());
    let three = of(4, &spelt_example());
    let capitals = of(2, &texts(&["MAR", "MARINA", "MARKET"]));
    let tree = of(3, &small_tree());
    [
        checking::of_spoilt("67", changed_bytes(&two.bytes())),
        checking::of_spoilt("67", other_cases(&two)),
        checking::of_spoilt("67", other_pieces(&two)),
        checking::of_spoilt("93 by 4", other_cases(&three)),
        checking::of_spoilt("93 by 4", other_pieces(&three)),
        checking::of_spoilt("capitals", plain_symbols(&capitals)),
        checking::of_spoilt("tree by turns", other_cases(&tree)),
        checking::of_spoilt("tree by turns", other_blocks(&tree)),
        checking::of_spoilt("tree by turns", other_widths(&tree)),
    ]
    .concat()
}

/// A deep book by turns that is wrong in one number of its last node, or in the
/// width of the root.
fn checked_spoilt_at_the_end() -> Vec<Case<Check>> {
    let book = Pieces::of(
        BookKind::Folded,
        64,
        &by_turns(&lists::mirror(b'a', b'b', 60)),
    );
    let mut cases = Vec::new();
    for (field, what) in NODE_FIELDS.iter().enumerate() {
        let mut pieces = book.clone();
        if let Some(node) = pieces.nodes.last_mut() {
            node[field] += 1;
        }
        let why = format!("mirror by turns, last node, {what} one more");
        cases.push(checking::of_bytes(why, pieces.bytes()));
    }
    let mut pieces = book;
    pieces.nodes[0][WIDTH] -= 1;
    cases.push(checking::of_bytes(
        "mirror by turns, root, width one less",
        pieces.bytes(),
    ));
    cases
}

/// Small random books of both cases, spoilt at random, some under the other mark.
fn checked_spoilt_at_random() -> Vec<Case<Check>> {
    let mut random = Random::from_seed(72);
    let mut cases = Vec::new();
    for turn in 0..120 {
        let names = any_few_letters(&mut random, 10);
        let block = random.between(1, 6);
        let (why, book) = match turn % 4 {
            0 => ("sound", book_of(BookKind::Folded, block, &names)),
            1 => {
                let book = book_of(BookKind::Folded, block, &names);
                ("the other mark", other_mark(book))
            }
            _ => (
                "spoilt",
                spoil_book(&mut random, BookKind::Folded, block, &names),
            ),
        };
        cases.push(checking::of_bytes(format!("{why} at random"), book));
    }
    cases
}

/// Node tables to lead a check astray, over a chain by turns.
fn checked_hostile() -> Vec<Case<Check>> {
    let names = by_turns(&lists::chain(b'a', 24));
    let kinds = hostile::kinds().into_iter();
    kinds
        .map(|kind| {
            let book = kind.over(BookKind::Folded, 5, &names);
            checking::of_bytes(format!("hostile, {}", kind.how), book.bytes())
        })
        .collect()
}

// Reading

/// Reads every position of the folded book of these names.
fn read_all(why: &str, names: &Names, block: usize) -> Vec<Case<Read>> {
    let positions: Vec<usize> = (0..names.len()).collect();
    reading::at_positions(BookKind::Folded, why, names, block, &positions)
}

/// Every name of the examples, as it was spelt; and positions past the last.
fn read_examples() -> Vec<Case<Read>> {
    let past = [(3, 20), (u64::MAX, 20), (3, 0)];
    let book = book_of(BookKind::Folded, 4, &spelt_example());
    [
        read_all("MAR, marina", &mar_and_marina(), 2),
        read_all("spelt example", &spelt_example(), 2),
        read_all("spelt example", &spelt_example(), 4),
        reading::of_bytes("past the last", book, &past),
    ]
    .concat()
}

/// Names that are put together from entries before them.
fn read_by_turns() -> Vec<Case<Read>> {
    let stops = turned(lists::stops());
    let [(chain_why, chain), (mirror_why, mirror)] = deep_by_turns();
    let some = [0, 63, 64, 127, 199];
    let of = |why, names: &Names, block, positions: &[usize]| {
        reading::at_positions(BookKind::Folded, why, names, block, positions)
    };
    [
        read_all("small tree by turns", &small_tree(), 3),
        of(
            "seventy stops by turns",
            &stops,
            16,
            &[0, 15, 16, 17, 68, 69],
        ),
        of(chain_why, &chain, 64, &some),
        of(mirror_why, &mirror, 64, &some),
        read_all("capitals with accents", &accented(), 4),
    ]
    .concat()
}

/// Bytes that are no book: 2.
fn read_spoilt() -> Vec<Case<Read>> {
    let two = Pieces::of(BookKind::Folded, 2, &mar_and_marina());
    let spoilt = [other_cases(&two), other_blocks(&two), other_nodes(&two)];
    let mut cases = Vec::new();
    for (how, book) in spoilt.into_iter().flatten() {
        cases.extend(reading::of_bytes(&how, book, &[(1, 20)]));
    }
    let book = other_mark(two.bytes());
    cases.extend(reading::of_bytes("the other mark", book, &[(0, 9), (2, 9)]));
    cases
}

// Asking

/// Asks these questions of the folded book of these names.
fn ask_names(why: &str, names: &Names, block: usize, questions: Names) -> Vec<Case<Ask>> {
    asking::of_bytes(why, book_of(BookKind::Folded, block, names), questions)
}

/// The questions as they are, and in the other case.
pub(crate) fn in_both_cases(questions: Names) -> Names {
    let turned = questions.iter().map(|question| {
        let bytes = question.iter();
        bytes.map(|&byte| other_case(byte)).collect()
    });
    let turned: Names = turned.collect();
    lists::sorted([questions, turned].concat())
}

/// All that stands around the names of the examples, in both cases; long
/// questions; and the empty one.
fn asked_examples() -> Vec<Case<Ask>> {
    let (two, three) = (mar_and_marina(), spelt_example());
    let around_two = in_both_cases(around_all(&two));
    let around_three = in_both_cases(around_all(&three));
    let long = [199, 200, 201].map(|length| {
        let mut question = b"MARINA".to_vec();
        question.resize(length, b'A');
        question
    });
    [
        ask_names("MAR, marina", &two, 2, around_two),
        ask_names("spelt example", &three, 4, around_three.clone()),
        ask_names("spelt example, blocks of 1", &three, 1, around_three),
        ask_names("long question", &three, 2, long.to_vec()),
    ]
    .concat()
}

/// A book without names: only nearest is refused, with 10, and 1 comes before it.
fn asked_without_names() -> Vec<Case<Ask>> {
    let questions = vec![vec![], b"MAR".to_vec(), vec![b'A'; 200], vec![b'A'; 201]];
    ask_names("no names", &Names::new(), 9, questions)
}

/// All questions of up to two of the bytes around the letters, to the names of
/// these, and to every third of them.
fn asked_around_the_letters() -> Vec<Case<Ask>> {
    let names = around_the_letters();
    let some: Names = names.iter().step_by(3).cloned().collect();
    let questions = all_short(AROUND, 2);
    [
        ask_names("all around the letters", &names, 5, questions.clone()),
        ask_names("some around the letters", &some, 2, questions),
    ]
    .concat()
}

/// Every question of at most three letters a, A, b and B to books of such names.
fn asked_short_questions() -> Vec<Case<Ask>> {
    let mut random = Random::from_seed(73);
    let questions = all_short(b"aAbB", 3);
    let counts = [1, 2, 4, 9].into_iter();
    counts
        .flat_map(|count| {
            let names = lists::grown(&mut random, b"ab", count, 3);
            let names = names_respelt(&mut random, BookKind::Folded, &names);
            ask_names("short questions", &names, 3, questions.clone())
        })
        .collect()
}

/// Letters of several bytes, which never fold, beside letters that do: how much of
/// a question is lit, counted by symbols and cut by its own bytes.
fn asked_about_letters() -> Vec<Case<Ask>> {
    let names = accented();
    let mut cases = ask_names("accents", &names, 2, in_both_cases(about_letters(&names)));
    for (letters, names) in lists::lettered() {
        let names = turned(names);
        let questions: Names = about_letters(&names).into_iter().step_by(3).collect();
        let turned = questions
            .iter()
            .map(|question| question.to_ascii_uppercase());
        cases.extend(ask_names(letters, &names, 2, turned.collect()));
    }
    let texts = texts(&["CAFÈ", "CAFé", "CAFE", "cafÈs", "köLN", "kÖLN"]);
    let questions = [texts, vec![b"CAF\xC3".to_vec()]].concat();
    let names = self::texts(&["café", "KÖln"]);
    cases.extend(ask_names("lit by symbols", &names, 2, questions));
    cases
}

/// Some questions to books by turns: names in the other case, beginnings of them
/// and what misses them.
fn asked_by_turns() -> Vec<Case<Ask>> {
    let stops = turned(lists::stops());
    let some = [0, 15, 16, 42, 69].map(|at| &stops[at]);
    let mut cases = ask_names("seventy stops by turns", &stops, 16, around_all(some));
    let stems = [0, 1, 64, 198, 199].map(|length| vec![b'A'; length]);
    let tails = [&b""[..], b"B", b"`", b"["];
    let questions = stems
        .iter()
        .flat_map(|stem| tails.map(|tail| [stem, tail].concat()));
    let questions = lists::sorted(questions.collect());
    for (why, names) in deep_by_turns() {
        cases.extend(ask_names(why, &names, 64, questions.clone()));
    }
    cases
}

/// Bytes that are no book, by what folding has to do with it: 2.
fn asked_spoilt() -> Vec<Case<Ask>> {
    let two = Pieces::of(BookKind::Folded, 2, &mar_and_marina());
    let questions = [&b"MARINA"[..], b"", b"mar", &[b'M'; 201]];
    let mut spoilt = [other_cases(&two), other_nodes(&two)].concat();
    spoilt.push(("the other mark".to_string(), other_mark(two.bytes())));
    let mut cases = Vec::new();
    for (number, (how, book)) in spoilt.into_iter().enumerate() {
        let question = questions[number % questions.len()].to_vec();
        cases.extend(asking::of_bytes(&how, book, vec![question]));
    }
    cases
}

/// Random books and questions of both cases.
fn asked_at_random() -> Vec<Case<Ask>> {
    let mut random = Random::from_seed(74);
    let mut cases = Vec::new();
    for _ in 0..25 {
        let names = any_few_letters(&mut random, 12);
        let block = random.between(1, 6);
        let questions = (0..8).map(|_| {
            let question = any_question(&mut random, &names);
            respelt(&mut random, &question)
        });
        let questions = questions.collect();
        cases.extend(ask_names("at random", &names, block, questions));
    }
    cases
}

// Batches

/// Asks these batches of the folded book of these names.
fn batch_names(why: &str, names: &Names, block: usize, batches: Vec<Batch>) -> Vec<Case<AskBatch>> {
    batching::of_bytes(why, book_of(BookKind::Folded, block, names), batches)
}

/// The questions around the examples' names, in the other case, in all kinds.
fn batched_examples() -> Vec<Case<AskBatch>> {
    let mut cases = Vec::new();
    for (why, names, block) in [
        ("MAR, marina", mar_and_marina(), 2),
        ("spelt example", spelt_example(), 4),
        ("capitals with accents", accented(), 2),
    ] {
        let questions: Names = in_both_cases(around_all(&names))
            .into_iter()
            .step_by(3)
            .collect();
        cases.extend(batch_names(
            why,
            &names,
            block,
            batching::in_batches(&questions),
        ));
    }
    let questions = texts(&["MAR", "mar"]);
    let book = other_mark(book_of(BookKind::Folded, 2, &mar_and_marina()));
    cases.extend(batching::of_bytes(
        "the other mark",
        book,
        batching::in_batches(&questions),
    ));
    let none = batching::in_batches(&questions);
    cases.extend(batch_names("no names", &Names::new(), 2, none));
    cases
}

/// Names of books by turns in the other case, in all kinds.
fn batched_by_turns() -> Vec<Case<AskBatch>> {
    let stops = turned(lists::stops());
    let questions: Names = stops
        .iter()
        .step_by(5)
        .map(|name| name.to_ascii_uppercase())
        .collect();
    let mut cases = batch_names(
        "seventy stops by turns",
        &stops,
        16,
        batching::in_batches(&questions),
    );
    let [chain, _] = deep_by_turns();
    let questions: Names = [1, 2, 64, 199, 200]
        .map(|length| vec![b'A'; length])
        .to_vec();
    cases.extend(batch_names(
        chain.0,
        &chain.1,
        64,
        batching::in_batches(&questions),
    ));
    cases
}

/// Random batches of both cases.
fn batched_at_random() -> Vec<Case<AskBatch>> {
    let mut random = Random::from_seed(75);
    let mut cases = Vec::new();
    for _ in 0..30 {
        let names = any_few_letters(&mut random, 12);
        let block = random.between(1, 6);
        let mut batch = any_batch(&mut random, &names);
        batch.questions = respelt(&mut random, &batch.questions);
        cases.extend(batch_names("at random", &names, block, vec![batch]));
    }
    cases
}
