//! The [set](crate::sets) of `book_batch`.
//!
//! # A case
//!
//! | Bytes | What |
//! |---|---|
//! | 4 | L, the length of the book; 0 for the book of the case before |
//! | 4 | Q, the length of the question buffer |
//! | 4 | R, how many rows there are, at most 65 |
//! | 4 | P, how many places for answers there are, at most 65 |
//! | L | the book |
//! | Q | the question buffer |
//! | 24 R | the rows: kind, start and length, 8 bytes each |
//!
//! # What to do with a case
//!
//! Take 65 answer rows and fill them: row number i, from 0, gets 100 + i,
//! 200 + i and 300 + i as code, first and second. Ask the batch, and lend it the
//! first P of them. Then print, behind the number of the case:
//!
//! - code, first and second of the answer;
//! - the two numbers of the [checksum](mod@crate::checksum) of all 65 answer
//!   rows, of each its code, first and second, so that every answer shows, and
//!   so does a row that was touched past those lent, or in a refused call.

use crate::batches::{any_batch, any_places, Batch, Numbers, ONE_TOO_MANY};
use crate::checksum::checksum_of;
use crate::damage::{
    changed_bytes, gaps, old_books, other_counts, other_nodes, other_widths, spoil_book,
};
use crate::hostile;
use crate::lists::{self, Names};
use crate::pieces::Pieces;
use crate::questions::{around_all, breaks, partings};
use crate::random::Random;
use crate::rooms::printed_answer;
use crate::sets::{length_bytes, Call, Case, Set};
use format::MOST_ROWS;
use model::{book_batch, book_of, Answer, BookKind};
use std::ops::RangeInclusive;

/// A call of `book_batch`.
#[derive(Clone)]
pub struct AskBatch {
    batch: Batch,
    places: usize,
}

/// Cases with such a call.
type Cases = Vec<Case<AskBatch>>;

/// The set.
pub const SET: Set<AskBatch> = Set {
    name: "batch",
    groups: &[
        empty_input,
        worked_example,
        widths,
        numbers_of_rows,
        unequal_numbers,
        kinds,
        spans,
        sums_past_the_word,
        lengths_of_questions,
        no_names,
        refused_between_good,
        other_bytes_outside,
        same_rows,
        overlapping_spans,
        book_as_buffer,
        seventy_stops,
        deep_and_wide_trees,
        letters,
        large_books,
        spoilt_books,
        random_batches,
        hostile_tables,
    ],
};

impl Call for AskBatch {
    fn front(&self) -> Vec<u8> {
        let Batch { questions, rows } = &self.batch;
        let lengths = [questions.len(), rows.len(), self.places];
        lengths.map(length_bytes).concat()
    }

    fn rest(&self) -> Vec<u8> {
        let Batch { questions, rows } = &self.batch;
        let numbers = rows.iter().flatten();
        let rows = numbers.flat_map(|number| number.to_le_bytes());
        questions.iter().copied().chain(rows).collect()
    }

    fn told(&self) -> Vec<String> {
        vec![
            format!("buffer {}", self.batch.questions.len()),
            format!("rows {}", self.batch.rows.len()),
            format!("places {}", self.places),
        ]
    }

    fn outcome(&self, book: &[u8]) -> String {
        let mut answers = unset_answers();
        let lent = &mut answers[..self.places];
        let answer = book_batch(book, &self.batch.questions, &self.batch.rows(), lent);
        let numbers = answers
            .iter()
            .flat_map(|row| [row.code, row.first, row.second])
            .map(|number| number as u64);
        let (first, second) = checksum_of(numbers);
        format!("{} {first} {second}", printed_answer(answer))
    }
}

/// The 65 answer rows before the call.
fn unset_answers() -> Vec<Answer> {
    (0..ONE_TOO_MANY)
        .map(|number| Answer {
            code: 100 + number,
            first: 200 + number,
            second: 300 + number,
        })
        .collect()
}

/// Asks these batches of one run of bytes, each with so many places.
fn with_places(why: &str, book: Vec<u8>, batches: Vec<(Batch, usize)>) -> Cases {
    let batches = batches.into_iter();
    let calls = batches.map(|(batch, places)| AskBatch { batch, places });
    Case::of_same(why, book, calls)
}

/// Asks these batches of one run of bytes, with as many places as rows.
pub(crate) fn of_bytes(why: &str, book: Vec<u8>, batches: Vec<Batch>) -> Cases {
    let batches = batches.into_iter();
    let fitting = batches.map(|batch| {
        let places = batch.rows.len();
        (batch, places)
    });
    with_places(why, book, fitting.collect())
}

/// Asks these batches of the book of these names.
fn of_names(why: &str, names: &Names, block: usize, batches: Vec<Batch>) -> Cases {
    of_bytes(why, book_of(BookKind::Plain, block, names), batches)
}

/// The book of 93 bytes.
fn example_book() -> Vec<u8> {
    book_of(BookKind::Plain, 2, &lists::example())
}

/// All rows over one buffer, in as many batches as they take.
fn over_buffer(buffer: &[u8], rows: &[Numbers]) -> Vec<Batch> {
    let parts = rows.chunks(MOST_ROWS);
    parts
        .map(|rows| Batch {
            questions: buffer.to_vec(),
            rows: rows.to_vec(),
        })
        .collect()
}

/// These spans in each of the five kinds.
fn in_all_kinds(spans: &[[u64; 2]]) -> Vec<Numbers> {
    (1..=5).flat_map(|kind| in_kind(kind, spans)).collect()
}

/// These spans in one kind.
fn in_kind(kind: u64, spans: &[[u64; 2]]) -> Vec<Numbers> {
    let spans = spans.iter();
    spans
        .map(|&[start, length]| [kind, start, length])
        .collect()
}

/// These spans, of each kind in turn.
fn in_turn(spans: &[[u64; 2]]) -> Vec<Numbers> {
    let kinds = (1..=5).cycle();
    let rows = spans.iter().zip(kinds);
    rows.map(|(&[start, length], kind)| [kind, start, length])
        .collect()
}

/// Each question in each of the five kinds, in as many batches as they take.
pub(crate) fn in_batches(questions: &Names) -> Vec<Batch> {
    of_kinds(1..=5, questions)
}

/// Each question in each of these kinds, in as many batches as they take.
fn of_kinds(kinds: RangeInclusive<u64>, questions: &Names) -> Vec<Batch> {
    let asked = questions
        .iter()
        .flat_map(|question| kinds.clone().map(move |kind| (kind, &question[..])));
    let asked: Vec<(u64, &[u8])> = asked.collect();
    let parts = asked.chunks(MOST_ROWS);
    parts.map(|part| Batch::of(part.iter().copied())).collect()
}

/// The twelve rows of document 01, as one batch.
fn twelve_rows() -> Batch {
    Batch::of([
        (1, &b"Marina"[..]),
        (1, b"Marin"),
        (2, b""),
        (2, b"Mark"),
        (2, b"Maxim"),
        (3, b"Mar"),
        (3, b"Mark"),
        (3, b"Mas"),
        (4, b"Mango"),
        (4, b"Maxim"),
        (4, b"Zoo"),
        (4, b"M"),
    ])
}

/// So many rows: the twelve again and again.
fn rows_of_the_example(count: usize) -> Batch {
    let Batch { questions, rows } = twelve_rows();
    Batch {
        questions,
        rows: rows.into_iter().cycle().take(count).collect(),
    }
}

/// No bytes: 2, before the refusals of rows, but 12 before 2.
fn empty_input() -> Cases {
    let bad = Batch {
        questions: vec![],
        rows: vec![[0, 1, 1]],
    };
    let mut batches: Vec<(Batch, usize)> = [0, 1, 64, 65]
        .map(|count| (rows_of_the_example(count), count))
        .to_vec();
    batches.extend([(bad.clone(), 1), (bad, 0), (rows_of_the_example(1), 2)]);
    with_places("empty input", vec![], batches)
}

/// Document 01's twelve rows as one batch, to the book of 93 bytes and to the one
/// of 88: in their order, turned round, and each of them alone.
fn worked_example() -> Cases {
    let twelve = twelve_rows();
    let mut turned = twelve.clone();
    turned.rows.reverse();
    let alone = twelve.rows.chunks(1).map(|row| Batch {
        questions: twelve.questions.clone(),
        rows: row.to_vec(),
    });
    let batches: Vec<Batch> = [twelve.clone(), turned].into_iter().chain(alone).collect();
    let names = lists::example();
    let blocks = [2, 4].into_iter();
    blocks
        .flat_map(|block| of_names("worked example", &names, block, batches.clone()))
        .collect()
}

/// Widths of ranges with the longest name in each place, and of empty ranges,
/// beside the ranges themselves.
fn widths() -> Cases {
    let questions = [
        "",
        "M",
        "Ma",
        "Mb",
        "Mc",
        "Md",
        "Lower",
        "Upper Ferry Roads",
    ];
    let asked = questions.iter().flat_map(|question| {
        let question = question.as_bytes();
        [(5, question), (3, question)]
    });
    let batch = Batch::of(asked);
    let numbers = [0, 1, 2].into_iter();
    numbers
        .flat_map(|number| {
            let names = lists::longest_of_three(number);
            of_names("widths", &names, 2, vec![batch.clone()])
        })
        .collect()
}

/// Numbers of rows from 0 to 65: the last one is too many.
fn numbers_of_rows() -> Cases {
    let numbers = (0..=16).chain([31, 32, 33, 62, 63, MOST_ROWS, ONE_TOO_MANY]);
    let batches = numbers.map(rows_of_the_example);
    of_bytes("number of rows", example_book(), batches.collect())
}

/// Other numbers of rows than of places: 12, also where the bytes are no book,
/// and before the refusals of rows.
fn unequal_numbers() -> Cases {
    let numbers = [
        (0, 1),
        (1, 0),
        (1, 2),
        (2, 1),
        (12, 13),
        (63, 64),
        (64, 63),
        (64, 65),
        (65, 64),
        (0, 64),
        (64, 0),
        (0, 65),
        (65, 0),
    ];
    let mut batches = numbers
        .map(|(rows, places)| (rows_of_the_example(rows), places))
        .to_vec();
    let bad = over_buffer(b"", &[[6, 0, 0]; 3]).remove(0);
    batches.extend([(bad.clone(), 2), (bad, 4)]);
    let book = example_book();
    let spoilt = book[1..].to_vec();
    [
        with_places("unequal numbers", book, batches.clone()),
        with_places("unequal numbers, no book", spoilt, batches.clone()),
        with_places(
            "unequal numbers, no names",
            book_of(BookKind::Plain, 3, &[]),
            batches,
        ),
    ]
    .concat()
}

/// One row of each kind, and of numbers that are no kind: also those whose low
/// bytes alone would be one.
fn kinds() -> Cases {
    let kinds = [
        1,
        2,
        3,
        4,
        5,
        0,
        6,
        7,
        255,
        256,
        256 + 1,
        65_536 + 2,
        (1 << 32) + 3,
        (1 << 63) + 4,
        (1 << 63) + 5,
        u64::MAX,
    ];
    let rows = kinds.map(|kind| [kind, 0, 3]);
    let alone = rows
        .iter()
        .map(|&row| over_buffer(b"Mar", &[row]).remove(0));
    let mut batches: Vec<Batch> = alone.collect();
    batches.extend(over_buffer(b"Mar", &rows));
    of_bytes("kinds", example_book(), batches)
}

/// Every start and length around a buffer: inside it, up to its end, at its end
/// with length 0, one byte past it, and behind it with length 0. Of a long buffer
/// they are too many for every kind.
fn spans() -> Cases {
    let mut cases = Vec::new();
    for buffer in [&b""[..], b"M", b"Marina", b"Market Square"] {
        let past = buffer.len() as u64 + 2;
        let starts = 0..=past;
        let spans: Vec<[u64; 2]> = starts
            .flat_map(|start| (0..=past).map(move |length| [start, length]))
            .collect();
        let rows = match buffer.len() {
            0..=9 => in_all_kinds(&spans),
            _ => in_turn(&spans),
        };
        let batches = over_buffer(buffer, &rows);
        cases.extend(of_bytes("spans", example_book(), batches));
    }
    cases
}

/// Starts and lengths whose sum, or they themselves, would be fine if high
/// bytes were lost: 11.
fn sums_past_the_word() -> Cases {
    let mut spans = Vec::new();
    for back in 0..=4 {
        // The sums wrap to 0 and more.
        spans.extend((0..=9).map(|length| [u64::MAX - back, length]));
        spans.extend((0..=9).map(|start| [start, u64::MAX - back]));
    }
    for power in [8, 16, 31, 32, 33, 63] {
        let high = 1 << power;
        spans.extend([[high, 0], [high, 3], [0, high], [0, high + 3], [high, high]]);
        spans.push([high + 3, high.wrapping_neg()]);
    }
    spans.extend([[u64::MAX, u64::MAX], [1 << 63, (1 << 63) + 3]]);
    let mut rows = in_turn(&spans);
    for kind in 1..=5 {
        rows.extend([[kind, u64::MAX, 1], [kind, u64::MAX, 2]]);
        rows.extend([[kind, 4, u64::MAX], [kind, u64::MAX, u64::MAX]]);
    }
    let mut cases = Vec::new();
    for buffer in [&b""[..], b"Marina"] {
        let batches = over_buffer(buffer, &rows);
        cases.extend(of_bytes("sums past 64 bits", example_book(), batches));
    }
    cases
}

/// Spans in a buffer of 460 bytes M: of 0 to 460 bytes, from its front, from its
/// midst, up to its end and one byte past it.
fn long_spans() -> Vec<[u64; 2]> {
    let buffer = LONG_BUFFER as u64;
    let lengths = [0, 1, 199, 200, 201, 202, 255, 256, 259, 400, buffer];
    let starts = lengths.map(|length| [0, 1, 49, buffer - length, buffer - length + 1]);
    let spans = lengths.iter().zip(starts);
    spans
        .flat_map(|(&length, starts)| starts.map(|start| [start, length]))
        .collect()
}

/// How many bytes the buffer of the long spans has.
const LONG_BUFFER: usize = 460;

/// Rows of up to 200 bytes are answered and longer ones are not; 11 comes before
/// 1, for a kind or a span.
fn lengths_of_questions() -> Cases {
    let mut rows = in_all_kinds(&long_spans());
    rows.extend([[0, 0, 201], [6, 0, 201], [u64::MAX, 200, 260]]);
    let batches = over_buffer(&[b'M'; LONG_BUFFER], &rows);
    let longest = vec![vec![b'M'; 199], vec![b'M'; 200]];
    [
        of_names("lengths", &lists::example(), 2, batches.clone()),
        of_names("lengths, longest names", &longest, 1, batches),
    ]
    .concat()
}

/// A book without names: only nearest is refused with 10, and 11 and 1 come
/// before it.
fn no_names() -> Cases {
    let mut rows = in_all_kinds(&long_spans());
    rows.extend([[0, 0, 201], [6, 0, 0], [4, 460, 1]]);
    let mut batches = over_buffer(&[b'M'; LONG_BUFFER], &rows);
    let one_of_each = [1, 2, 3, 4, 5].map(|kind| [kind, 0, 3]);
    batches.extend(one_of_each.map(|row| over_buffer(b"Mar", &[row]).remove(0)));
    batches.extend(over_buffer(b"Mar", &one_of_each));
    batches.push(Batch::default());
    let blocks = [1, 64].into_iter();
    blocks
        .flat_map(|block| of_names("no names", &Names::new(), block, batches.clone()))
        .collect()
}

/// Refused rows before, between and behind good ones: the others go on.
fn refused_between_good() -> Cases {
    let mut batch = twelve_rows();
    batch.questions.resize(300, b'e');
    let refused = [[0, 0, 6], [6, 0, 6], [1, 301, 0], [2, 0, 301], [3, 50, 201]];
    let mut batches = Vec::new();
    for at in 0..=batch.rows.len() {
        let mut with_one = batch.clone();
        with_one.rows.insert(at, refused[at % refused.len()]);
        batches.push(with_one);
    }
    let mut between = Batch {
        questions: batch.questions,
        rows: vec![],
    };
    for (number, &row) in batch.rows.iter().enumerate() {
        between.rows.extend([refused[number % refused.len()], row]);
    }
    batches.push(between.clone());
    between.rows.reverse();
    batches.push(between.clone());
    between.rows = refused.into_iter().cycle().take(MOST_ROWS).collect();
    batches.push(between);
    let names = lists::example();
    [
        of_names("refused rows", &names, 2, batches.clone()),
        of_names("refused rows, no names", &Names::new(), 2, batches),
    ]
    .concat()
}

/// Batches of the same rows that differ only in bytes outside the rows' spans: at
/// first all zeros, then other bytes each time. The lines of a group are the
/// same but for their numbers.
fn other_bytes_outside() -> Cases {
    let twelve = twelve_rows();
    let mut random = Random::from_seed(3);
    let mut batches = Vec::new();
    for apart in [1, 5] {
        // The same questions, with a gap before each and behind the last.
        let mut spaced = Batch {
            questions: vec![0; apart],
            rows: vec![],
        };
        let mut outside: Vec<usize> = (0..apart).collect();
        for &[kind, start, length] in &twelve.rows {
            let (start, length) = (start as usize, length as usize);
            spaced.ask(kind, &twelve.questions[start..start + length]);
            let end = spaced.questions.len();
            outside.extend(end..end + apart);
            spaced.questions.resize(end + apart, 0);
        }
        batches.push(spaced.clone());
        for turn in 0..8 {
            for &at in &outside {
                spaced.questions[at] = match turn {
                    0 => 255,
                    1 => b'a',
                    2 => b'i',
                    // as if the letter before it went on
                    3 => 128,
                    _ => random.byte(),
                };
            }
            batches.push(spaced.clone());
        }
    }
    of_bytes("other bytes outside", example_book(), batches)
}

/// Every row the same: 2 and 64 of them, of each kind and refused.
fn same_rows() -> Cases {
    let rows = [
        [1, 0, 6],
        [2, 0, 4],
        [3, 0, 3],
        [4, 0, 2],
        [5, 0, 4],
        [0, 0, 6],
        [1, 0, 7],
    ];
    let batches = rows.iter().flat_map(|&row| {
        [2, MOST_ROWS].map(|count| over_buffer(b"Marina", &vec![row; count]).remove(0))
    });
    of_bytes("same rows", example_book(), batches.collect())
}

/// Every span of a buffer, in each kind: they lie in one another.
fn overlapping_spans() -> Cases {
    let buffer = b"Market Marina";
    let length = buffer.len() as u64;
    let starts = 0..=length;
    let spans: Vec<[u64; 2]> = starts
        .flat_map(|start| (0..=length - start).map(move |length| [start, length]))
        .collect();
    let batches = over_buffer(buffer, &in_all_kinds(&spans));
    of_names("overlapping spans", &lists::example(), 4, batches)
}

/// The book itself as the buffer: the names that stand uncut in it, and all of
/// it.
fn book_as_buffer() -> Cases {
    let book = example_book();
    let spans = [
        [2, 3],
        [12, 13],
        [12, 3],
        [0, 93],
        [77, 16],
        [93, 0],
        [93, 1],
    ];
    let batches = over_buffer(&book, &in_all_kinds(&spans));
    of_bytes("book as buffer", book, batches)
}

/// All that stands around some of seventy stops, in each kind.
fn seventy_stops() -> Cases {
    let names = lists::stops();
    let some = around_all(names.iter().step_by(5));
    let mut cases = of_names("seventy stops", &names, 16, in_batches(&some));
    cases.extend(of_names("all stops", &names, 2, in_batches(&names)));
    cases
}

/// Names and questions in trees as deep and as wide as there are.
fn deep_and_wide_trees() -> Cases {
    let chain = lists::chain(b'a', 200);
    let mut path = chain.clone();
    path.push(b"b".to_vec());
    let lengths = [0, 1, 2, 3, 64, 128, 198, 199];
    let mut questions = Names::new();
    for tail in [&b""[..], b"a", b"b", b"`"] {
        questions.extend(lengths.map(|length| [&chain[199][..length], tail].concat()));
    }
    let fan = lists::fan(b"xy");
    let around = around_all([0, 1, 2, 128, 256].map(|position| &fan[position]));
    [
        of_names("deepest chain", &chain, 64, in_batches(&questions)),
        of_names("path of 201 nodes", &path, 16, in_batches(&questions)),
        of_names("257 children", &fan, 16, in_batches(&around)),
    ]
    .concat()
}

/// How much of a question is lit, where letters have several bytes or are broken:
/// what parts from a name, and every beginning of the names in a buffer, which goes
/// on with the letter that such a span cuts.
fn letters() -> Cases {
    let mut cases = Vec::new();
    for (letters, names) in lists::lettered() {
        let parting = names.iter().flat_map(|name| [partings(name), breaks(name)]);
        let parting = lists::sorted(parting.flatten().collect());
        let mut batches = of_kinds(4..=4, &parting);
        let mut spans = Vec::new();
        let mut start = 0;
        for name in &names {
            let end = name.len() as u64;
            spans.extend((1..=end).map(|length| [start, length]));
            start += end;
        }
        batches.extend(over_buffer(&names.concat(), &in_kind(4, &spans)));
        cases.extend(of_names(letters, &names, 2, batches));
    }
    cases
}

/// 2,000 names, one more, which makes no book, and a book of 65,535 bytes.
fn large_books() -> Cases {
    let pairs = lists::pairs(2000);
    let around = around_all([0, 249, 250, 1023, 1999].map(|position| &pairs[position]));
    let long = lists::with_book_length(BookKind::Plain, &lists::pairs(320), 16, 65_535);
    let some: Names = long.iter().step_by(40).cloned().collect();
    let past = [rows_of_the_example(64), Batch::default()].to_vec();
    [
        of_names("2,000 names", &pairs, 64, in_batches(&around)),
        of_names("2,001 names", &lists::pairs(2001), 64, past),
        of_names("book of 65,535", &long, 16, in_batches(&some)),
    ]
    .concat()
}

/// Bytes that are no book: 2, before the refusals of rows. Some changes make
/// another book.
fn spoilt_books() -> Cases {
    let names = lists::example();
    let pieces = Pieces::of(BookKind::Plain, 2, &names);
    let spoilt = [
        changed_bytes(&example_book()),
        other_counts(&pieces),
        other_nodes(&pieces),
        other_widths(&pieces),
        gaps(&pieces),
        old_books(&pieces),
    ];
    let mut cases = Vec::new();
    for (number, (how, book)) in spoilt.into_iter().flatten().enumerate() {
        let batch = match number % 4 {
            0 => twelve_rows(),
            1 => over_buffer(b"Mar", &[[1, 0, 3]]).remove(0),
            2 => over_buffer(b"Mar", &[[0, 0, 3], [4, 0, 4]]).remove(0),
            _ => Batch::default(),
        };
        cases.extend(of_bytes(&how, book, vec![batch]));
    }
    cases
}

/// Random books, some of them spoilt or without names, and random batches.
fn random_batches() -> Cases {
    let mut random = Random::from_seed(13);
    let all = lists::all_bytes();
    let mut cases = Vec::new();
    for turn in 0..43 {
        let letters = match turn % 4 {
            0 => &all[..],
            1 => b"\0\xFF",
            2 => lists::PARTS_OF_LETTERS,
            _ => b"abc",
        };
        let (count, tail) = (random.between(1, 40), random.between(1, 9));
        let names = match turn % 20 {
            19 => Names::new(),
            _ => lists::grown(&mut random, letters, count, tail),
        };
        let block = random.between(1, 9);
        let (purpose, book) = match turn % 10 {
            8 => (
                "spoilt at random",
                spoil_book(&mut random, BookKind::Plain, block, &names),
            ),
            _ => ("random", book_of(BookKind::Plain, block, &names)),
        };
        let batches = (0..2).map(|_| {
            let batch = any_batch(&mut random, &names);
            let places = any_places(&mut random, batch.rows.len());
            (batch, places)
        });
        let batches = batches.collect();
        cases.extend(with_places(purpose, book, batches));
    }
    cases
}

/// Node tables to lead a check astray, over very few names, and a nest that is
/// deeper than any book: 2.
fn hostile_tables() -> Cases {
    let deep = (hostile::falling_names(), hostile::DEEPER_THAN_ANY);
    let few = hostile::kinds().into_iter().map(|kind| (kind, 6));
    few.chain([deep])
        .zip((1..=5).cycle())
        .flat_map(|((kind, count), asked)| {
            let purpose = format!("hostile, {}", kind.how);
            let book = kind.with_names(count).bytes();
            of_bytes(&purpose, book, over_buffer(&[0, 1], &[[asked, 0, 2]]))
        })
        .collect()
}
