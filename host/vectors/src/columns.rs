//! The [sets](crate::sets) of column books: of `book_to_columns` and
//! `book_from_columns`, and of the calls that take a book of any kind.
//!
//! A book's mark tells its kind, so the files of `book_check`, `book_read`, the
//! questions and `book_batch` are of the same kind as those of plain books.
//!
//! # A case of the two conversions
//!
//! | Bytes | What |
//! |---|---|
//! | 4 | L, the length of the book; 0 for the book of the case before |
//! | 4 | R, the length of the room |
//! | L | the book |
//!
//! # What to do with such a case
//!
//! Take a room of R bytes and fill it: byte number i, from 0, gets i modulo 251. Turn
//! the book into columns. Fill the room anew and turn the book from columns. Then
//! print, behind the number of the case, for the first call and then for the second:
//!
//! - code, first and second of the answer;
//! - the two numbers of the [checksum](mod@crate::checksum) of the other book: of the
//!   first `first` bytes of the room where the code is 0, of no bytes (1 and 0)
//!   where it is not;
//! - the two numbers of the checksum of the whole room, so that a byte that was
//!   touched past the book, or in a refused call, shows.

use crate::asking::{self, Ask};
use crate::batches::{any_batch, Batch};
use crate::batching::{self, AskBatch};
use crate::checking::{self, Check};
use crate::damage::{
    changed_bytes, cut_bytes, gaps, mark_as, old_books, other_blocks, other_counts, other_nodes,
    other_pieces, other_widths, spoil_book, Spoilt,
};
use crate::hostile;
use crate::lists::{self, texts, Names};
use crate::pieces::{Node, Pieces, NODE_FIELDS, WIDTH};
use crate::questions::{about_letters, all_short, any_question, around_all};
use crate::random::Random;
use crate::reading::{self, Read};
use crate::rooms::{filled_room, printed_outcome};
use crate::sets::{length_bytes, Call, Case, Set};
use model::{book_from_columns, book_of, book_to_columns, BookKind};

/// A call of each of the two conversions.
#[derive(Clone)]
pub struct Convert {
    room: usize,
}

/// The set of both.
pub const CONVERT: Set<Convert> = Set {
    name: "convert",
    groups: &[
        converted_bytes,
        converted_examples,
        converted_shapes,
        converted_under_other_marks,
        converted_spoilt,
        converted_at_random,
        converted_hostile,
    ],
};

/// The set of `book_check`.
pub const CHECK: Set<Check> = Set {
    name: "columns_check",
    groups: &[
        checked_examples,
        checked_lengths,
        checked_shapes,
        checked_around_a_book,
        checked_under_other_marks,
        checked_spoilt,
        checked_in_other_orders,
        checked_spoilt_at_the_end,
        checked_spoilt_at_random,
        checked_hostile,
    ],
};

/// The set of `book_read`.
pub const READ: Set<Read> = Set {
    name: "columns_read",
    groups: &[read_examples, read_shapes, read_spoilt, read_hostile],
};

/// The set of the five questions.
pub const ASK: Set<Ask> = Set {
    name: "columns_ask",
    groups: &[
        asked_examples,
        asked_short_questions,
        asked_shapes,
        asked_deepest,
        asked_letters,
        asked_spoilt,
        asked_at_random,
        asked_hostile,
    ],
};

/// The set of `book_batch`.
pub const BATCH: Set<AskBatch> = Set {
    name: "columns_batch",
    groups: &[
        batched_examples,
        batched_spoilt,
        batched_at_random,
        batched_hostile,
    ],
};

impl Call for Convert {
    fn front(&self) -> Vec<u8> {
        length_bytes(self.room).to_vec()
    }

    fn told(&self) -> Vec<String> {
        vec![format!("room {}", self.room)]
    }

    fn outcome(&self, book: &[u8]) -> String {
        let outcomes = [book_to_columns, book_from_columns].map(|convert| {
            let mut room = filled_room(self.room);
            let answer = convert(book, &mut room);
            printed_outcome(answer, &room)
        });
        outcomes.join(" ")
    }
}

// Books

/// The column book of these names.
fn columns(block: usize, names: &Names) -> Vec<u8> {
    book_of(BookKind::Columns, block, names)
}

/// The same in pieces.
fn column_pieces(block: usize, names: &Names) -> Pieces {
    Pieces::of(BookKind::Columns, block, names)
}

/// The bytes with the mark of another kind.
fn marked(kind: BookKind, mut book: Vec<u8>) -> Vec<u8> {
    mark_as(kind, &mut book);
    book
}

/// Eight short names with forks below forks.
fn small_tree() -> Names {
    texts(&["a", "ab", "abba", "abbot", "b", "ba", "bad", "c"])
}

/// Lists of several shapes, each with a block size.
fn shapes() -> Vec<(&'static str, Names, usize)> {
    let ends = vec![vec![0; 199], vec![0; 200], vec![255; 199], vec![255; 200]];
    vec![
        ("one name", texts(&["Mar"]), 2),
        ("two names", texts(&["Mar", "Marina"]), 1),
        ("capitals and small letters", texts(&["MAR", "mar"]), 2),
        ("small tree", small_tree(), 3),
        ("bytes 0 and 255", ends, 2),
        ("longest in the middle", lists::longest_of_three(1), 2),
        ("seventy stops", lists::stops(), 16),
        ("chain", lists::chain(b'a', 120), 16),
        ("mirror", lists::mirror(b'a', b'b', 60), 64),
        ("257 children", lists::fan(b"x"), 7),
        ("two children each", lists::binary(64), 5),
    ]
}

/// Books under the mark of another kind, each with a word on it. Those of no names
/// and of one have the same bytes in all kinds but for the mark.
fn under_other_marks() -> Spoilt {
    let mut books = Spoilt::new();
    for (why, names) in [
        ("no names", Names::new()),
        ("one name", texts(&["Mar"])),
        ("two names", texts(&["mar", "marina"])),
        ("worked example", lists::example()),
        ("small tree", small_tree()),
    ] {
        for kind in BookKind::ALL {
            for other in BookKind::ALL {
                let book = marked(other, book_of(kind, 2, &names));
                books.push((format!("{why}, {kind:?} marked as {other:?}"), book));
            }
        }
    }
    books
}

/// The 93 bytes spoilt in every kind of way: some of their bytes, counts, nodes,
/// widths, gaps between the parts, and books of before nodes had widths.
fn spoilt_example() -> Spoilt {
    let book = column_pieces(2, &lists::example());
    let bytes = changed_bytes(&book.bytes()).into_iter().step_by(4);
    let others = [other_counts, other_nodes, other_widths, gaps, old_books];
    let others = others.iter().flat_map(|kind| kind(&book));
    bytes.chain(others).collect()
}

/// Node tables to lead a check astray, as columns: of every kind over so many names,
/// and these nests over as many as make them deeper than any book.
fn hostile_columns(few: usize, nests: Vec<hostile::Kind>) -> Spoilt {
    let few = hostile::kinds().into_iter().map(|kind| (kind, few));
    let nests = nests.into_iter();
    let deep = nests.map(|kind| (kind, hostile::DEEPER_THAN_ANY));
    few.chain(deep)
        .map(|(kind, count)| {
            let book = kind.with_names(count).in_kind(BookKind::Columns);
            (format!("hostile, {}", kind.how), book.bytes())
        })
        .collect()
}

/// At most so many random names over few letters.
fn any_names(random: &mut Random, count: usize) -> Names {
    let letters = *random.one_of(&[&b"ab"[..], b"abc", b"\0a\xFF", b"zZ\xC3\x89\xA9"]);
    lists::grown(random, letters, count, 5)
}

// Converting

/// Converts a run of bytes into rooms of these lengths.
fn convert_into(
    why: &str,
    book: Vec<u8>,
    rooms: impl IntoIterator<Item = usize>,
) -> Vec<Case<Convert>> {
    let rooms = rooms.into_iter();
    Case::of_same(why, book, rooms.map(|room| Convert { room }))
}

/// Converts the plain and the column book of these names into rooms on both sides of
/// what they need.
fn convert_both(why: &str, names: &Names, block: usize) -> Vec<Case<Convert>> {
    let kinds = [BookKind::Plain, BookKind::Columns].into_iter();
    kinds
        .flat_map(|kind| {
            let book = book_of(kind, block, names);
            let length = book.len();
            let rooms = [length, length - 1, length + 3, 0];
            convert_into(&format!("{why}, k {block}, {kind:?}"), book, rooms)
        })
        .collect()
}

/// No bytes and bytes that are no book: 2, before 4.
fn converted_bytes() -> Vec<Case<Convert>> {
    [
        convert_into("empty input", vec![], [0, 9]),
        convert_into("16 zeros", vec![0; 16], [0, 16]),
        convert_into("a list", b"\x03Mar\x06Marina".to_vec(), [0, 99]),
    ]
    .concat()
}

/// The books of 93 and 88 bytes and others of their names, no names; and folded
/// books, which are never turned.
fn converted_examples() -> Vec<Case<Convert>> {
    let (example, none) = (lists::example(), Names::new());
    let mut cases = Vec::new();
    for block in [2, 4, 1, 64] {
        cases.extend(convert_both("worked example", &example, block));
        cases.extend(convert_both("no names", &none, block));
    }
    for names in [&example, &none] {
        let folded = book_of(BookKind::Folded, 2, names);
        let rooms = [folded.len(), folded.len() - 1, 0];
        cases.extend(convert_into("folded book", folded, rooms));
    }
    cases
}

/// Books of several shapes.
fn converted_shapes() -> Vec<Case<Convert>> {
    let shapes = shapes().into_iter();
    shapes
        .flat_map(|(why, names, block)| convert_both(why, &names, block))
        .collect()
}

/// Books under the mark of another kind.
fn converted_under_other_marks() -> Vec<Case<Convert>> {
    let books = under_other_marks().into_iter();
    books
        .flat_map(|(why, book)| {
            let length = book.len();
            convert_into(&why, book, [length, length - 1])
        })
        .collect()
}

/// The examples of both kinds spoilt: cut, or in one of their nodes.
fn converted_spoilt() -> Vec<Case<Convert>> {
    let mut cases = Vec::new();
    for kind in [BookKind::Plain, BookKind::Columns] {
        let book = Pieces::of(kind, 2, &lists::example());
        let cut = cut_bytes(&book.bytes()).into_iter().step_by(7);
        for (how, book) in other_nodes(&book).into_iter().chain(cut) {
            let why = format!("{kind:?}, {how}");
            cases.extend(convert_into(&why, book, [99]));
        }
    }
    cases
}

/// Random books of all kinds, sound and spoilt.
fn converted_at_random() -> Vec<Case<Convert>> {
    let mut random = Random::from_seed(101);
    let mut cases = Vec::new();
    for turn in 0..60 {
        let kind = BookKind::ALL[turn % 3];
        let names = lists::sorted_for(kind, any_names(&mut random, 12));
        let block = random.between(1, 6);
        let book = match turn % 5 {
            0 => spoil_book(&mut random, kind, block, &names),
            _ => book_of(kind, block, &names),
        };
        let room = (book.len() + random.below(4)).saturating_sub(1);
        cases.extend(convert_into("at random", book, [room]));
    }
    cases
}

/// Hostile node tables: 2, from columns too.
fn converted_hostile() -> Vec<Case<Convert>> {
    let tables = hostile_columns(6, vec![hostile::falling_names()]);
    let tables = tables.into_iter();
    tables
        .flat_map(|(how, book)| {
            let length = book.len();
            convert_into(&how, book, [length])
        })
        .collect()
}

// Checking

/// A case with the column layout of these names, whether a book allows them or not.
fn check_names(why: &str, names: &Names, block: usize) -> Case<Check> {
    checking::of_bytes(format!("{why}, k {block}"), columns(block, names))
}

/// The examples with several block sizes, no names, and lists that are none.
fn checked_examples() -> Vec<Case<Check>> {
    let mut cases = Vec::new();
    for block in [1, 2, 3, 4, 64, 0, 65, 258] {
        cases.push(check_names("worked example", &lists::example(), block));
        cases.push(check_names("no names", &Names::new(), block));
    }
    for (why, names) in [
        ("equal names", texts(&["Mar", "Mar"])),
        ("a name, then its beginning", texts(&["Marina", "Mar"])),
        ("falling names", texts(&["b", "a"])),
        ("falling in the midst", texts(&["a", "c", "b", "d"])),
        ("falling from 255 to 0", vec![vec![255], vec![0]]),
        ("equal names of 200", vec![vec![b'n'; 200], vec![b'n'; 200]]),
    ] {
        cases.extend([1, 2].map(|block| check_names(why, &names, block)));
    }
    cases
}

/// Names of 1, 200 and 201 bytes, and none; and block sizes on both sides of 64 with
/// more names than that.
fn checked_lengths() -> Vec<Case<Check>> {
    let name = |length: usize| vec![b'n'; length];
    let mut cases = vec![
        check_names("one name of 1 byte", &vec![name(1)], 1),
        check_names("one name of 200 bytes", &vec![name(200)], 2),
        check_names("one name of 201 bytes", &vec![name(201)], 2),
        check_names("one name of 255 bytes", &vec![name(255)], 2),
        check_names("a second name of 200", &vec![name(199), name(200)], 2),
        check_names("a second name of 201", &vec![name(200), name(201)], 2),
        check_names("a second name of 201", &vec![name(200), name(201)], 1),
        check_names("one name of no bytes", &vec![name(0)], 1),
        check_names("a first name of no bytes", &vec![name(0), name(1)], 2),
    ];
    let chain = lists::chain(b'a', 66);
    cases.extend([64, 65].map(|block| check_names("block size", &chain, block)));
    cases
}

/// Books of several shapes.
fn checked_shapes() -> Vec<Case<Check>> {
    let shapes = shapes().into_iter();
    shapes
        .map(|(why, names, block)| check_names(why, &names, block))
        .collect()
}

/// The 93 bytes cut short, with bytes before or behind them, and twice; and the book
/// without names, every byte changed.
fn checked_around_a_book() -> Vec<Case<Check>> {
    let book = columns(2, &lists::example());
    let mut cases = checking::of_spoilt("cut", cut_bytes(&book));
    for (why, bytes) in [
        ("a byte behind", [&book[..], &[0]].concat()),
        ("a 2 behind", [&book[..], b"2"].concat()),
        ("a byte before", [&[0], &book[..]].concat()),
        ("twice", [&book[..], &book].concat()),
    ] {
        cases.push(checking::of_bytes(why, bytes));
    }
    let none = columns(2, &Names::new());
    cases.extend(checking::of_spoilt("no names", changed_bytes(&none)));
    cases
}

/// Books under the mark of another kind.
fn checked_under_other_marks() -> Vec<Case<Check>> {
    checking::of_spoilt("other mark", under_other_marks())
}

/// The 93 and the 88 bytes: every byte changed, every piece spoilt; but the nodes,
/// which are the same in both, in the first alone. A small tree in three blocks: every
/// node spoilt, and some of what is blocks; and wrong widths where the longest name is
/// the second.
fn checked_spoilt() -> Vec<Case<Check>> {
    let names = lists::example();
    let (two, four) = (column_pieces(2, &names), column_pieces(4, &names));
    let tree = column_pieces(3, &small_tree());
    let middle = column_pieces(2, &lists::longest_of_three(1));
    let some_blocks = other_blocks(&tree).into_iter().step_by(5).collect();
    [
        checking::of_spoilt("93", changed_bytes(&two.bytes())),
        checking::of_spoilt("93", other_pieces(&two)),
        checking::of_spoilt("88", changed_bytes(&four.bytes())),
        checking::of_spoilt("88", other_blocks(&four)),
        checking::of_spoilt("tree", other_nodes(&tree)),
        checking::of_spoilt("tree", other_widths(&tree)),
        checking::of_spoilt("tree", some_blocks),
        checking::of_spoilt("longest in the middle", other_widths(&middle)),
    ]
    .concat()
}

/// The columns of the example in every order of two, a number of each column moved
/// to its neighbour's place, and all numbers node by node.
fn checked_in_other_orders() -> Vec<Case<Check>> {
    let book = column_pieces(2, &lists::example());
    let swapped = |change: &dyn Fn(&mut Node)| {
        let mut pieces = book.clone();
        pieces.nodes.iter_mut().for_each(change);
        pieces.bytes()
    };
    let mut cases = Vec::new();
    for (one, what) in NODE_FIELDS.iter().enumerate() {
        for (other, as_what) in NODE_FIELDS.iter().enumerate().skip(one + 1) {
            let why = format!("columns swapped: {what}, {as_what}");
            let bytes = swapped(&|node| node.swap(one, other));
            cases.push(checking::of_bytes(why, bytes));
        }
        let mut pieces = book.clone();
        let numbers: Vec<usize> = pieces.nodes.iter().map(|node| node[one]).collect();
        for (node, number) in pieces.nodes.iter_mut().zip(numbers.iter().rev()) {
            node[one] = *number;
        }
        let why = format!("column from behind: {what}");
        cases.push(checking::of_bytes(why, pieces.bytes()));
    }
    let rows = book.in_kind(BookKind::Plain).bytes();
    let rows = marked(BookKind::Columns, rows);
    cases.push(checking::of_bytes("node by node", rows));
    cases
}

/// A deep book and a wide one that are wrong in one number of their last node, or in
/// the width of the root.
fn checked_spoilt_at_the_end() -> Vec<Case<Check>> {
    let mut cases = Vec::new();
    for (what, names) in [
        ("mirror", lists::mirror(b'a', b'b', 60)),
        ("40 children", (0..40).map(|byte| vec![byte; 3]).collect()),
    ] {
        let book = column_pieces(64, &names);
        for (field, number) in NODE_FIELDS.iter().enumerate() {
            let mut pieces = book.clone();
            if let Some(node) = pieces.nodes.last_mut() {
                node[field] += 1;
            }
            let why = format!("{what}, last node, {number} one more");
            cases.push(checking::of_bytes(why, pieces.bytes()));
        }
        let mut pieces = book;
        pieces.nodes[0][WIDTH] -= 1;
        let why = format!("{what}, root, width one less");
        cases.push(checking::of_bytes(why, pieces.bytes()));
    }
    cases
}

/// Small random books, spoilt at random.
fn checked_spoilt_at_random() -> Vec<Case<Check>> {
    let mut random = Random::from_seed(102);
    let mut cases = Vec::new();
    for turn in 0..90 {
        let names = any_names(&mut random, 10);
        let block = random.between(1, 6);
        let book = match turn % 5 {
            0 => columns(block, &names),
            _ => spoil_book(&mut random, BookKind::Columns, block, &names),
        };
        cases.push(checking::of_bytes("at random", book));
    }
    cases
}

/// Hostile node tables of every kind over few names, and every nest deeper than any
/// book.
fn checked_hostile() -> Vec<Case<Check>> {
    let tables = hostile_columns(16, hostile::nests()).into_iter();
    tables
        .map(|(how, book)| checking::of_bytes(how, book))
        .collect()
}

// Reading

/// Reads these positions of the column book of these names.
fn read_some(why: &str, names: &Names, block: usize, positions: &[usize]) -> Vec<Case<Read>> {
    reading::at_positions(BookKind::Columns, why, names, block, positions)
}

/// Every name of the examples, and positions past the last.
fn read_examples() -> Vec<Case<Read>> {
    let names = lists::example();
    let past = [(3, 20), (u64::MAX, 20), (3, 0)];
    [
        read_some("worked example", &names, 2, &[0, 1, 2]),
        read_some("worked example", &names, 4, &[0, 1, 2]),
        reading::of_bytes("past the last", columns(4, &names), &past),
        reading::of_bytes("no names", columns(4, &Names::new()), &[(0, 9)]),
    ]
    .concat()
}

/// The first, the last and the middle name of books of several shapes.
fn read_shapes() -> Vec<Case<Read>> {
    let shapes = shapes().into_iter();
    shapes
        .flat_map(|(why, names, block)| {
            let mut positions = vec![0, names.len() / 2, names.len() - 1];
            positions.dedup();
            read_some(why, &names, block, &positions)
        })
        .collect()
}

/// Bytes that are no book: 2, before 3 and 4.
fn read_spoilt() -> Vec<Case<Read>> {
    let calls = [(1, 20), (0, 3), (3, 20), (2, 0)];
    let spoilt = spoilt_example().into_iter().zip(calls.iter().cycle());
    spoilt
        .flat_map(|((how, book), &call)| reading::of_bytes(&how, book, &[call]))
        .collect()
}

/// Hostile node tables: 2.
fn read_hostile() -> Vec<Case<Read>> {
    let tables = hostile_columns(6, vec![hostile::falling_names()]);
    let tables = tables.into_iter();
    tables
        .flat_map(|(how, book)| reading::of_bytes(&how, book, &[(0, 9)]))
        .collect()
}

// Asking

/// Asks these questions of the column book of these names.
fn ask_names(why: &str, names: &Names, block: usize, questions: Names) -> Vec<Case<Ask>> {
    asking::of_bytes(why, columns(block, names), questions)
}

/// All that stands around the names of the examples; long questions; and a book
/// without names.
fn asked_examples() -> Vec<Case<Ask>> {
    let names = lists::example();
    let long = [199, 200, 201].map(|length| {
        let mut question = b"Marina".to_vec();
        question.resize(length, b'a');
        question
    });
    let none = vec![vec![], b"Mar".to_vec(), vec![b'M'; 200], vec![b'M'; 201]];
    [
        ask_names("worked example", &names, 2, around_all(&names)),
        ask_names("worked example", &names, 4, around_all(&names)),
        ask_names("long question", &names, 2, long.to_vec()),
        ask_names("no names", &Names::new(), 9, none),
    ]
    .concat()
}

/// Every question of at most three letters a, b and c to books of such names.
fn asked_short_questions() -> Vec<Case<Ask>> {
    let mut random = Random::from_seed(103);
    let questions = all_short(b"abc", 3);
    let counts = [1, 2, 4, 9].into_iter();
    counts
        .flat_map(|count| {
            let names = lists::grown(&mut random, b"ab", count, 3);
            ask_names("short questions", &names, 3, questions.clone())
        })
        .collect()
}

/// What stands around the first, the last and the middle name of books of several
/// shapes.
fn asked_shapes() -> Vec<Case<Ask>> {
    let shapes = shapes().into_iter();
    shapes
        .flat_map(|(why, names, block)| {
            let some = [0, names.len() / 2, names.len() - 1].map(|at| &names[at]);
            let around = around_all(some).into_iter();
            let questions = around.filter(|question| question.len() < 60);
            ask_names(why, &names, block, questions.step_by(3).collect())
        })
        .collect()
}

/// The path of 201 nodes, down to several depths and aside from it.
fn asked_deepest() -> Vec<Case<Ask>> {
    let mut path = lists::chain(b'a', 200);
    path.push(b"b".to_vec());
    let lengths = [0, 1, 64, 128, 198, 199].into_iter();
    let questions = lengths.flat_map(|length| {
        let stem = vec![b'a'; length];
        [&b"a"[..], b"b"].map(|tail| [&stem, tail].concat())
    });
    ask_names("path of 201 nodes", &path, 64, questions.collect())
}

/// Letters of several bytes: how much of a question is lit.
fn asked_letters() -> Vec<Case<Ask>> {
    let names = texts(&["Café", "Cafés", "Éa", "KÖln", "Köln", "Ünder"]);
    ask_names("letters", &names, 2, about_letters(&names))
}

/// Bytes that are no book: 2, before 1 and 10. Some changes make another book.
fn asked_spoilt() -> Vec<Case<Ask>> {
    let questions = [&b"Marina"[..], b"", b"Mar", &[b'M'; 201]];
    let mut spoilt = spoilt_example();
    let other = marked(BookKind::Plain, columns(2, &lists::example()));
    spoilt.push(("the plain mark".to_string(), other));
    let none = changed_bytes(&columns(9, &Names::new()));
    spoilt.extend(none.into_iter().step_by(2));
    let mut cases = Vec::new();
    for (number, (how, book)) in spoilt.into_iter().enumerate() {
        let question = questions[number % questions.len()].to_vec();
        cases.extend(asking::of_bytes(&how, book, vec![question]));
    }
    cases
}

/// Hostile node tables: 2, before 1.
fn asked_hostile() -> Vec<Case<Ask>> {
    let questions = [vec![], vec![0, 0], vec![0, 9], vec![0; 201]];
    let tables = hostile_columns(6, vec![hostile::falling_names()]);
    let tables = tables.into_iter().zip(questions.iter().cycle());
    tables
        .flat_map(|((how, book), question)| asking::of_bytes(&how, book, vec![question.clone()]))
        .collect()
}

/// Random books and questions.
fn asked_at_random() -> Vec<Case<Ask>> {
    let mut random = Random::from_seed(104);
    let mut cases = Vec::new();
    for _ in 0..20 {
        let names = any_names(&mut random, 12);
        let block = random.between(1, 6);
        let questions = (0..8).map(|_| any_question(&mut random, &names));
        let questions = questions.collect();
        cases.extend(ask_names("at random", &names, block, questions));
    }
    cases
}

// Batches

/// The questions around the names of several books, in all kinds.
fn batched_examples() -> Vec<Case<AskBatch>> {
    let mut cases = Vec::new();
    for (why, names, block) in [
        ("worked example", lists::example(), 2),
        ("small tree", small_tree(), 3),
        ("no names", Names::new(), 2),
    ] {
        let mut questions: Names = around_all(&names).into_iter().step_by(3).collect();
        questions.push(b"Mar".to_vec());
        let batches = batching::in_batches(&questions);
        cases.extend(batching::of_bytes(why, columns(block, &names), batches));
    }
    let batches = batching::in_batches(&texts(&["Mar", "Mari"]));
    let plain = marked(BookKind::Plain, columns(2, &lists::example()));
    cases.extend(batching::of_bytes("the plain mark", plain, batches));
    cases
}

/// Bytes that are no book: 2, before the refusals of rows. Some changes make another
/// book.
fn batched_spoilt() -> Vec<Case<AskBatch>> {
    let good = Batch::of([(1, &b"Marina"[..]), (3, b"Mar"), (4, b"Maxim")]);
    let bad = Batch::of([(6, &b"Mar"[..]), (4, &[b'M'; 201])]);
    let batches = [good, bad, Batch::default()];
    let spoilt = spoilt_example().into_iter().zip(batches.iter().cycle());
    spoilt
        .flat_map(|((how, book), batch)| batching::of_bytes(&how, book, vec![batch.clone()]))
        .collect()
}

/// Hostile node tables: 2.
fn batched_hostile() -> Vec<Case<AskBatch>> {
    let tables = hostile_columns(6, vec![hostile::falling_names()]);
    let tables = tables.into_iter().zip((1..=5).cycle());
    tables
        .flat_map(|((how, book), kind)| {
            let batch = Batch::of([(kind, &[0, 1][..])]);
            batching::of_bytes(&how, book, vec![batch])
        })
        .collect()
}

/// Random batches.
fn batched_at_random() -> Vec<Case<AskBatch>> {
    let mut random = Random::from_seed(105);
    let mut cases = Vec::new();
    for _ in 0..25 {
        let names = any_names(&mut random, 12);
        let block = random.between(1, 6);
        let batch = any_batch(&mut random, &names);
        let book = columns(block, &names);
        cases.extend(batching::of_bytes("at random", book, vec![batch]));
    }
    cases
}
