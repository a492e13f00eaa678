//! The [sets](crate::sets) of `book_exact`, `book_place`, `book_range`,
//! `book_nearest` and `book_width`.
//!
//! # A case
//!
//! | Bytes | What |
//! |---|---|
//! | 4 | L, the length of the book; 0 for the book of the case before |
//! | 4 | Q, the length of the question |
//! | L | the book |
//! | Q | the question |
//!
//! # What to do with a case
//!
//! Ask the question in all five kinds. Then print, behind the number of the
//! case: code, first, second, visits and entries that exact gives, then those of
//! place, of range, of nearest and of width.

use crate::damage::{
    changed_bytes, gaps, old_books, other_counts, other_nodes, other_widths, spoil_book,
};
use crate::hostile;
use crate::lists::{self, Names};
use crate::pieces::Pieces;
use crate::questions::{
    about_letters, all_short, any_question, around_all, extensions, misses, partings,
};
use crate::random::Random;
use crate::rooms::printed_counted;
use crate::sets::{length_bytes, Call, Case, Set};
use crate::worst::{dearest_check, dearest_question};
use model::{book_exact, book_nearest, book_of, book_place, book_range, book_width, BookKind};

/// A question, asked in all five kinds.
#[derive(Clone)]
pub struct Ask {
    question: Vec<u8>,
}

/// Cases with such a call.
type Cases = Vec<Case<Ask>>;

/// The set.
pub const SET: Set<Ask> = Set {
    name: "ask",
    groups: &[
        empty_input,
        worked_example,
        no_names,
        lengths_of_questions,
        lengths_of_names,
        longest_names,
        small_books,
        lowest_and_highest_bytes,
        every_short_question,
        seventy_stops,
        block_sizes,
        deep_trees,
        wide_trees,
        letters,
        numbers_of_names,
        longest_books,
        spoilt_books,
        random_books,
        hostile_tables,
    ],
};

/// A second set, with a file of the same kind.
pub const DEAREST: Set<Ask> = Set {
    name: "dearest",
    groups: &[dearest],
};

impl Call for Ask {
    fn front(&self) -> Vec<u8> {
        length_bytes(self.question.len()).to_vec()
    }

    fn rest(&self) -> Vec<u8> {
        self.question.clone()
    }

    fn told(&self) -> Vec<String> {
        vec![format!("question {}", shown(&self.question))]
    }

    fn outcome(&self, book: &[u8]) -> String {
        let kinds = [book_exact, book_place, book_range, book_nearest, book_width];
        let answers = kinds
            .iter()
            .map(|ask| printed_counted(ask(book, &self.question)));
        answers.collect::<Vec<String>>().join(" ")
    }
}

/// The question between quotes, or its length where it is long.
pub(crate) fn shown(question: &[u8]) -> String {
    match question.len() {
        0..=40 => format!("\"{}\"", question.escape_ascii()),
        length => format!("of {length} bytes"),
    }
}

/// Asks these questions of one run of bytes.
pub(crate) fn of_bytes(why: &str, book: Vec<u8>, questions: Names) -> Cases {
    let questions = questions.into_iter();
    Case::of_same(why, book, questions.map(|question| Ask { question }))
}

/// Asks these questions of the book of these names.
fn of_names(why: &str, names: &Names, block: usize, questions: Names) -> Cases {
    of_bytes(why, book_of(BookKind::Plain, block, names), questions)
}

/// Asks all that stands around each of the names.
fn all_around(why: &str, names: &Names, block: usize) -> Cases {
    of_names(why, names, block, around_all(names))
}

/// Asks all that stands around the names at these positions.
fn around_some(why: &str, names: &Names, block: usize, positions: &[usize]) -> Cases {
    let some = positions.iter().map(|&position| &names[position]);
    of_names(why, names, block, around_all(some))
}

/// Questions of 0, 1, 200, 201 bytes and more, all of one byte.
fn of_all_lengths(byte: u8) -> Names {
    let lengths = [0, 1, 199, 200, 201, 255, 256, 259, 400].iter();
    lengths.map(|&length| vec![byte; length]).collect()
}

/// No bytes: 2, before 1 and 10.
fn empty_input() -> Cases {
    let questions = vec![vec![], b"Mar".to_vec(), vec![b'M'; 201]];
    of_bytes("empty input", vec![], questions)
}

/// The book of 93 bytes and the one of 88: what document 01 asks, and all that
/// stands around the names.
fn worked_example() -> Cases {
    let names = lists::example();
    let rows = [
        "Marina", "Marin", "", "Mark", "Maxim", "Mar", "Mas", "Mango", "Zoo", "M",
    ];
    let blocks = [2, 4].into_iter();
    blocks
        .flat_map(|block| {
            let rows = of_names("rows", &names, block, lists::texts(&rows));
            let around = all_around("worked example", &names, block);
            [rows, around].concat()
        })
        .collect()
}

/// Books without names: only nearest is refused, with 10, and 1 comes before it.
fn no_names() -> Cases {
    let blocks = [1, 64].into_iter();
    blocks
        .flat_map(|block| {
            let mut questions = of_all_lengths(b'M');
            questions.extend([b"Mar".to_vec(), vec![0], vec![255]]);
            of_names("no names", &Names::new(), block, questions)
        })
        .collect()
}

/// Questions of up to 200 bytes are answered and longer ones are not, also
/// where the low bytes of the length alone would be fine.
fn lengths_of_questions() -> Cases {
    let names = lists::example();
    let mut cases = Vec::new();
    for start in names.iter().chain([&vec![0], &vec![255]]) {
        let lengths = [199, 200, 201, 202, 256, 259, 269, 1000].iter();
        let questions = lengths.map(|&length| {
            let mut question = start.clone();
            question.resize(length, b'a');
            question
        });
        let questions = questions.collect();
        cases.extend(of_names("long question", &names, 2, questions));
    }
    let mut longest = b"Mar".to_vec();
    longest.resize(65_536 + 3, b'a');
    cases.extend(of_names("longest question", &names, 4, vec![longest]));
    cases
}

/// Books of one name, and names of 1 and of 200 bytes.
fn lengths_of_names() -> Cases {
    let name = |length: usize| vec![b'n'; length];
    let last_changed = |byte: u8| [vec![b'n'; 199], vec![byte]].concat();
    let mut cases = Vec::new();
    for (purpose, names) in [
        ("one name of 1 byte", vec![name(1)]),
        ("one name of 200 bytes", vec![name(200)]),
        ("lengths 1 and 200", vec![name(1), name(200)]),
        ("two of 200, alike", vec![last_changed(b'm'), name(200)]),
        ("two of 200, unlike", vec![vec![0; 200], vec![255; 200]]),
    ] {
        let mut questions = of_all_lengths(b'n');
        questions.extend([0, b'm', b'o', 255].map(|byte| vec![byte]));
        questions.extend([0, b'm', b'o', 255].map(last_changed));
        for length in [1, 2, 100, 198] {
            questions.extend([b'm', b'o'].map(|byte| [name(length), vec![byte]].concat()));
        }
        questions.extend([vec![0; 199], vec![0; 200], vec![255; 199], vec![255; 200]]);
        cases.extend(of_names(purpose, &names, 2, questions));
    }
    cases.extend(all_around("one name", &lists::texts(&["Mar"]), 1));
    cases
}

/// The longest name as the first, the second and the last of a fork, with longer
/// ones outside: all that stands around the three, and how far that is wide.
fn longest_names() -> Cases {
    let places = ["longest first", "longest in the middle", "longest last"];
    let places = places.into_iter().enumerate();
    places
        .flat_map(|(number, purpose)| {
            let names = lists::longest_of_three(number);
            around_some(purpose, &names, 2, &[1, 2, 3])
        })
        .collect()
}

/// All that stands around the names of small books, with blocks of 1, some and
/// all names.
fn small_books() -> Cases {
    let tree = lists::texts(&["a", "ab", "abba", "abbot", "b", "ba", "bad", "c"]);
    let edges = lists::texts(&["Lar", "Mar", "Marina", "Max", "Nar", "Nardo", "Nartex"]);
    let mut cases = Vec::new();
    for block in [1, 2, 3, 16, 64] {
        cases.extend(all_around("small tree", &tree, block));
        cases.extend(all_around("long edges", &edges, block));
    }
    for block in [1, 5, 64] {
        let chain = lists::chain(b'a', 12);
        cases.extend(all_around("short chain", &chain, block));
        let mirror = lists::mirror(b'a', b'b', 12);
        cases.extend(all_around("short mirror", &mirror, block));
    }
    cases
}

/// Names and questions of the bytes 0 and 255, and of those beside them: no
/// byte is an end, and 255 has no next.
fn lowest_and_highest_bytes() -> Cases {
    let bytes = [0, 1, 254, 255];
    let short = all_short(&bytes, 3);
    let some = |step: usize| {
        let names = short.iter().skip(1).step_by(step);
        lists::sorted(names.cloned().collect())
    };
    let highest = lists::chain(255, 5);
    let lowest = lists::chain(0, 5);
    [
        of_names("bytes 0 and 255", &some(1), 16, short.clone()),
        of_names("some of them", &some(3), 2, short.clone()),
        of_names("fewer of them", &some(7), 1, short.clone()),
        all_around("255 alone", &highest, 2),
        all_around("0 alone", &lowest, 2),
    ]
    .concat()
}

/// Every question of at most four letters a, b and c to books of such names.
fn every_short_question() -> Cases {
    let mut random = Random::from_seed(11);
    let questions = all_short(b"abc", 4);
    let counts = [1, 2, 3, 5, 8, 13, 21, 40].into_iter();
    counts
        .flat_map(|count| {
            let names = lists::random(&mut random, b"abc", count, 1, 5);
            let block = random.between(1, 8);
            of_names("short questions", &names, block, questions.clone())
        })
        .collect()
}

/// All that stands around each of seventy stops.
fn seventy_stops() -> Cases {
    all_around("seventy stops", &lists::stops(), 16)
}

/// The same questions whatever the block size: names at the ends of blocks.
/// Blocks of 0 or 65 make no book.
fn block_sizes() -> Cases {
    let names = lists::stops();
    let blocks = [0, 1, 2, 3, 16, 63, 64, 65].into_iter();
    blocks
        .flat_map(|block| {
            let positions = [0, 1, 15, 16, 17, 32, 62, 63, 64, 65, 69];
            let questions = positions.iter().flat_map(|&position| {
                let name = &names[position];
                let shorter = name[..name.len() - 1].to_vec();
                [name.clone(), shorter, [&name[..], b"e"].concat()]
            });
            let purpose = format!("block size {block}");
            of_names(&purpose, &names, block, questions.collect())
        })
        .collect()
}

/// The deepest trees there are: a chain of names that begin each other, its
/// mirror, and the path of 201 nodes.
fn deep_trees() -> Cases {
    let chain = lists::chain(b'a', 200);
    let mirror = lists::mirror(b'a', b'b', 200);
    let mut path = chain.clone();
    path.push(b"b".to_vec());
    let lengths = [0, 1, 2, 64, 128, 198, 199];
    let stems = lengths.map(|length| vec![b'a'; length]);
    let mut questions = Names::new();
    for tail in [&b""[..], b"a", b"b", b"c", b"`"] {
        questions.extend(stems.iter().map(|stem| [stem, tail].concat()));
    }
    for (at, byte) in [(0, b'b'), (1, b'b'), (100, b'`'), (100, b'b'), (198, b'b')] {
        let mut changed = vec![b'a'; 200];
        changed[at] = byte;
        questions.push(changed);
    }
    questions.push(vec![b'a'; 201]);
    let questions = lists::sorted(questions);
    [
        of_names("deepest chain", &chain, 64, questions.clone()),
        of_names("deepest mirror", &mirror, 16, questions.clone()),
        of_names("path of 201 nodes", &path, 16, questions),
    ]
    .concat()
}

/// As many children as a node can have.
fn wide_trees() -> Cases {
    let siblings = lists::single_bytes();
    let fan = lists::fan(b"xy");
    [
        of_names("256 siblings", &siblings, 16, siblings.clone()),
        around_some("around 256 siblings", &siblings, 2, &[0, 1, 128, 255]),
        of_names("257 children", &fan, 64, fan.clone()),
        around_some("around 257 children", &fan, 1, &[0, 1, 2, 128, 256]),
    ]
    .concat()
}

/// All about the letters of names, of one byte, of several and broken ones: how
/// much of a question is lit. Then the bytes around 128 and 191, and a letter of
/// 200 bytes, which no text has.
fn letters() -> Cases {
    let mut cases = Vec::new();
    for (letters, names) in lists::lettered() {
        cases.extend(of_names(letters, &names, 2, about_letters(&names)));
    }
    let ends = [126, 127, 128, 129, 190, 191, 192, 193].map(|byte| vec![b'a', b'b', byte]);
    let stem = lists::texts(&["ab"]);
    cases.extend(of_names("around 128 and 191", &stem, 1, ends.to_vec()));
    let longest = [b"a", &[128; 199][..]].concat();
    let partings = partings(&longest);
    let mut some = [1, 2, 100, 199].map(|at| partings[at].clone()).to_vec();
    some.extend([1, 2, 199, 200].map(|length| longest[..length].to_vec()));
    cases.extend(of_names("longest letter", &vec![longest], 1, some));
    cases
}

/// 2,000 names; and one more, which makes no book. Then names whose tree has
/// two children at every node.
fn numbers_of_names() -> Cases {
    let pairs = lists::pairs(2000);
    let some = [0, 249, 250, 1023, 1999].map(|position| &pairs[position]);
    let mut questions = around_all(some);
    questions.extend([vec![7, 250], vec![8], vec![8, 0], vec![255; 2]]);
    let past = vec![vec![], vec![0, 0], vec![0; 201]];
    let binary = lists::binary(256);
    [
        of_names("2,000 names", &pairs, 64, questions),
        of_names("2,001 names", &lists::pairs(2001), 64, past),
        around_some("two children each", &binary, 1, &[0, 1, 127, 128, 255]),
    ]
    .concat()
}

/// A book of 65,535 bytes with long names: some of them, a few of their
/// beginnings, and what misses them.
fn longest_books() -> Cases {
    let names = lists::with_book_length(BookKind::Plain, &lists::pairs(320), 16, 65_535);
    let last = names.len() - 1;
    let mut questions = Names::new();
    for position in [0, 16, 175, last] {
        let name = &names[position];
        questions.extend([1, 2, 3, 100].map(|length| name[..length].to_vec()));
        questions.push(name.clone());
        questions.extend([extensions(name), misses(name)].concat());
    }
    of_names("book of 65,535", &names, 16, questions)
}

/// Bytes that are no book: 2, before 1 and 10. Some changes make another book.
fn spoilt_books() -> Cases {
    let names = lists::example();
    let pieces = Pieces::of(BookKind::Plain, 2, &names);
    let bytes = book_of(BookKind::Plain, 2, &names);
    let spoilt = [
        changed_bytes(&bytes),
        other_counts(&pieces),
        other_nodes(&pieces),
        other_widths(&pieces),
        gaps(&pieces),
        old_books(&pieces),
        changed_bytes(&book_of(BookKind::Plain, 9, &Names::new())),
    ];
    let long = vec![b'M'; 201];
    let questions = [&b"Marina"[..], b"", b"Market", &long, b"Maxim", b"Mar"];
    let mut cases = Vec::new();
    for (number, (how, book)) in spoilt.into_iter().flatten().enumerate() {
        let question = questions[number % questions.len()].to_vec();
        cases.extend(of_bytes(&how, book, vec![question]));
    }
    cases
}

/// Random books, some of them spoilt, and random questions.
fn random_books() -> Cases {
    let mut random = Random::from_seed(7);
    let all = lists::all_bytes();
    let mut cases = Vec::new();
    for turn in 0..128 {
        let letters = match turn % 4 {
            0 => &all[..],
            1 => b"\0\xFF",
            2 => lists::PARTS_OF_LETTERS,
            _ => b"abc",
        };
        let (count, tail) = (random.between(1, 40), random.between(1, 9));
        let names = lists::grown(&mut random, letters, count, tail);
        let block = random.between(1, 9);
        let (purpose, book, asked) = match turn % 8 {
            7 => (
                "spoilt at random",
                spoil_book(&mut random, BookKind::Plain, block, &names),
                2,
            ),
            _ => ("random", book_of(BookKind::Plain, block, &names), 12),
        };
        let questions = (0..asked).map(|_| any_question(&mut random, &names));
        cases.extend(of_bytes(purpose, book, questions.collect()));
    }
    cases
}

/// Node tables to lead a check astray, over few names, and nests that are
/// deeper than any book: 2, before 1.
fn hostile_tables() -> Cases {
    let few = hostile::kinds().into_iter().map(|kind| (kind, 24));
    let nests = hostile::nests().into_iter();
    let deep = nests.map(|kind| (kind, hostile::DEEPER_THAN_ANY));
    let questions = [vec![], vec![0, 0], vec![0, 9], vec![0; 201]];
    few.chain(deep)
        .zip(questions.iter().cycle())
        .flat_map(|((kind, count), question)| {
            let purpose = format!("hostile, {}", kind.how);
            let book = kind.with_names(count).bytes();
            of_bytes(&purpose, book, vec![question.clone()])
        })
        .collect()
}

/// The books that cost most, to check and to ask: the question of each, with a
/// byte more, and what misses it by one byte.
fn dearest() -> Cases {
    let worst = [("check", dearest_check()), ("question", dearest_question())];
    let cases = worst.into_iter().flat_map(|(call, worst)| {
        let asked = &worst.question;
        let around = [vec![asked.clone()], extensions(asked), misses(asked)];
        of_bytes(&format!("dearest {call}"), worst.book(), around.concat())
    });
    cases.collect()
}
