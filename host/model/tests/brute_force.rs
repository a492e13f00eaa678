//! Demand 2, tried out: many small random lists, every short question, and
//! each answer compared with a direct look at the list.
//!
//! The comparisons here use nothing of the model but its calls. They take the
//! usual order of byte vectors in place of symbols, and groups of names that
//! shrink in place of a tree. A folded book is looked at in small letters: names
//! and question are both put into these, and then it is the plain look.

mod common;

use common::answers::{book_exact, book_nearest, book_place, book_range, book_width};
use common::{
    all_strings, built, built_as, marked_as, no_record, shared, whole_letters, yes, Random,
    FILLING, UNSET,
};
use model::{
    book_batch, book_build_folded, book_check, book_read, build_kind, open, read_list, write_list,
    Answer, BookKind, Row,
};
use std::collections::BTreeMap;

/// Few different bytes, so that names share much; the two extremes are in.
const ALPHABET: [u8; 4] = [0, b'a', b'b', 255];

/// Letters of both cases, and the bytes just outside of them: 64, 91, 96, 123.
const CASES: [u8; 8] = *b"aAbB@[`{";

/// Bytes as a book of this kind looks at them.
fn looked_at(kind: BookKind, bytes: &[u8]) -> Vec<u8> {
    match kind {
        BookKind::Plain | BookKind::Columns => bytes.to_vec(),
        BookKind::Folded => bytes.to_ascii_lowercase(),
    }
}

/// The names as a book of this kind looks at them.
fn all_looked_at(kind: BookKind, names: &[Vec<u8>]) -> Vec<Vec<u8>> {
    names.iter().map(|name| looked_at(kind, name)).collect()
}

/// The names in the order of this kind; of those that it can't tell apart, the
/// last one alone.
fn in_order(kind: BookKind, names: impl IntoIterator<Item = Vec<u8>>) -> Vec<Vec<u8>> {
    let names = names.into_iter().map(|name| (looked_at(kind, &name), name));
    names.collect::<BTreeMap<_, _>>().into_values().collect()
}

/// A list of random names that rises in a book of this kind; duplicates fall away.
fn random_list(
    kind: BookKind,
    random: &mut Random,
    most: usize,
    bytes: &[u8],
    longest: usize,
) -> Vec<Vec<u8>> {
    let wanted = random.below(most + 1);
    let names = (0..wanted).map(|_| random.string(bytes, 1, longest));
    in_order(kind, names)
}

fn direct_exact(names: &[Vec<u8>], question: &[u8]) -> Answer {
    match names.binary_search_by(|name| name.as_slice().cmp(question)) {
        Ok(position) => yes(position, 1),
        Err(_) => yes(0, 0),
    }
}

fn direct_place(names: &[Vec<u8>], question: &[u8]) -> Answer {
    let less = names.iter().filter(|name| name.as_slice() < question);
    yes(less.count(), 0)
}

fn direct_range(names: &[Vec<u8>], question: &[u8]) -> Answer {
    let begins = |name: &&Vec<u8>| name.get(..question.len()) == Some(question);
    let beginning = names.iter().filter(begins).count();
    yes(direct_place(names, question).first, beginning)
}

/// The names of the range stand together, from the question's place on.
fn direct_width(names: &[Vec<u8>], question: &[u8]) -> Answer {
    let range = direct_range(names, question);
    let lengths = names[range.first..][..range.second].iter().map(Vec::len);
    yes(lengths.max().unwrap_or(0), 0)
}

/// The symbol with this number; only asked for numbers up to the length.
fn symbol(bytes: &[u8], number: usize) -> usize {
    bytes.get(number).map_or(0, |&byte| usize::from(byte) + 1)
}

/// Document 01's descent without a tree: the group of names shrinks to those
/// with the question's symbol behind what the group shares.
fn direct_nearest(names: &[Vec<u8>], question: &[u8]) -> Answer {
    if names.is_empty() {
        return Answer {
            code: 10,
            ..Answer::default()
        };
    }
    let mut group: Vec<usize> = (0..names.len()).collect();
    while group.len() > 1 {
        let depths = group.iter().map(|&at| shared(&names[group[0]], &names[at]));
        let depth = depths.min().unwrap_or(0);
        if depth > question.len() {
            break;
        }
        let mut fitting = group.clone();
        fitting.retain(|&at| symbol(&names[at], depth) == symbol(question, depth));
        if fitting.is_empty() {
            break;
        }
        group = fitting;
    }
    let shared = shared(&names[group[0]], question);
    yes(group[0], whole_letters(question, shared))
}

/// The five expected answers, in the order of the kinds.
fn direct_answers(names: &[Vec<u8>], question: &[u8]) -> [Answer; 5] {
    [
        direct_exact(names, question),
        direct_place(names, question),
        direct_range(names, question),
        direct_nearest(names, question),
        direct_width(names, question),
    ]
}

/// Asks all kinds of all questions in batches of up to 60 rows.
fn ask_all(book: &[u8], questions: &[Vec<u8>]) -> Vec<[Answer; 5]> {
    let buffer = questions.concat();
    let mut all = Vec::new();
    let mut start = 0;
    for some in questions.chunks(12) {
        let mut rows = Vec::new();
        for question in some {
            let length = question.len();
            rows.extend((1..=5).map(|kind| Row {
                kind,
                start,
                length,
            }));
            start += length;
        }
        let mut answers = vec![UNSET; rows.len()];
        let answer = book_batch(book, &buffer, &rows, &mut answers);
        assert_eq!(answer, yes(rows.len(), 0));
        all.extend(
            answers
                .chunks(5)
                .map(|five| [five[0], five[1], five[2], five[3], five[4]]),
        );
    }
    all
}

/// Check, reading back and the list of records all give the same names again,
/// with their spelling.
fn assert_round_trip(kind: BookKind, names: &[Vec<u8>], block: usize, seed: u64) -> Vec<u8> {
    assert_eq!(
        read_list(kind.rule(), &write_list(names)).as_deref(),
        Ok(names)
    );
    let book = built_as(kind, names, block);
    assert_eq!(book_check(&book), yes(names.len(), block), "seed {seed}");
    assert_eq!(
        open(&book),
        Some((kind, block, names.to_vec())),
        "seed {seed}"
    );
    for (position, name) in names.iter().enumerate() {
        let mut room = vec![FILLING; name.len() + 1];
        let answer = book_read(&book, position, &mut room);
        assert_eq!(answer, yes(name.len(), 0), "seed {seed}");
        assert_eq!(&room[..name.len()], name.as_slice(), "seed {seed}");
        assert_eq!(room[name.len()], FILLING, "seed {seed}");
    }
    book
}

/// Everything about the book of this kind of one list.
fn try_list(kind: BookKind, names: &[Vec<u8>], block: usize, questions: &[Vec<u8>], seed: u64) {
    let book = assert_round_trip(kind, names, block, seed);
    let answers = ask_all(&book, questions);
    let looked_names = all_looked_at(kind, names);
    for (question, five) in questions.iter().zip(&answers) {
        let looked_question = looked_at(kind, question);
        let expected = direct_answers(&looked_names, &looked_question);
        assert_eq!(
            *five, expected,
            "{kind:?} seed {seed} names {names:?} question {question:?}"
        );
        let counts = looked_names
            .iter()
            .map(|name| shared(name, &looked_question));
        if let Some(greatest) = counts.clone().max() {
            let reached = shared(&looked_names[five[3].first], &looked_question);
            assert_eq!(reached, greatest, "seed {seed} {question:?}");
            let lit = counts.map(|count| whole_letters(question, count)).max();
            assert_eq!(Some(five[3].second), lit, "seed {seed} {question:?}");
        }
    }
}

/// The number of nodes stands in the trailer.
fn nodes_in(book: &[u8]) -> usize {
    let trailer = book.len() - 16;
    usize::from(book[trailer + 8]) + 256 * usize::from(book[trailer + 9])
}

#[test]
fn the_direct_look_gives_the_twelve_checked_rows() {
    // So that the comparisons of this file are themselves tied to document 01.
    let names = common::mar_names();
    assert_eq!(direct_exact(&names, b"Marina"), yes(1, 1));
    assert_eq!(direct_exact(&names, b"Marin"), yes(0, 0));
    assert_eq!(direct_place(&names, b""), yes(0, 0));
    assert_eq!(direct_place(&names, b"Mark"), yes(2, 0));
    assert_eq!(direct_place(&names, b"Maxim"), yes(3, 0));
    assert_eq!(direct_range(&names, b"Mar"), yes(0, 3));
    assert_eq!(direct_range(&names, b"Mark"), yes(2, 1));
    assert_eq!(direct_range(&names, b"Mas"), yes(3, 0));
    assert_eq!(direct_nearest(&names, b"Mango"), yes(0, 2));
    assert_eq!(direct_nearest(&names, b"Maxim"), yes(1, 2));
    assert_eq!(direct_nearest(&names, b"Zoo"), yes(0, 0));
    assert_eq!(direct_nearest(&names, b"M"), yes(0, 1));
    assert_eq!(direct_width(&names, b""), yes(13, 0));
    assert_eq!(direct_width(&names, b"Mas"), yes(0, 0));
}

#[test]
fn short_names_and_every_short_question() {
    let questions = all_strings(&ALPHABET, 3);
    assert_eq!(questions.len(), 1 + 4 + 16 + 64);
    for seed in 0..1500 {
        let mut random = Random::from_seed(seed);
        let names = random_list(BookKind::Plain, &mut random, 9, &ALPHABET, 4);
        let block = 1 + random.below(5);
        try_list(BookKind::Plain, &names, block, &questions, seed);
    }
}

#[test]
fn short_names_and_questions_in_both_cases_for_both_kinds() {
    let questions = all_strings(&CASES, 3);
    for seed in 50_000..50_300 {
        let mut random = Random::from_seed(seed);
        let block = 1 + random.below(5);
        for kind in BookKind::ALL {
            let names = random_list(kind, &mut random, 9, &CASES, 4);
            try_list(kind, &names, block, &questions, seed);
        }
    }
}

#[test]
fn every_folded_list_of_up_to_three_short_names_in_both_cases() {
    // 20 names over a, A, b and B; lists that do not rise once folded fall away.
    let questions = all_strings(b"aAbB", 2);
    let names = in_order(BookKind::Plain, questions[1..].to_vec());
    for (at, first) in names.iter().enumerate() {
        for (between, second) in names.iter().enumerate().skip(at) {
            for third in &names[between..] {
                let chosen = [first, second, third].map(Clone::clone);
                let list = in_order(BookKind::Folded, chosen);
                try_list(BookKind::Folded, &list, 1 + at % 3, &questions, at as u64);
            }
        }
    }
}

#[test]
fn every_folded_pair_of_names_around_the_letters() {
    let names = all_strings(b"@AZ[`az{", 2);
    let questions = all_strings(b"@AZ[`az{", 1);
    for first in &names[1..] {
        for second in &names[1..] {
            let list = [first.clone(), second.clone()];
            let mut room = [0; 100];
            let answer = book_build_folded(&write_list(&list), 2, &mut room);
            let [one, other] = [first, second].map(|name| name.to_ascii_lowercase());
            if one < other {
                assert_eq!(answer.code, 0, "{list:?}");
                try_list(BookKind::Folded, &list, 2, &questions, 0);
            } else {
                assert_eq!(answer, no_record(6, 1), "{list:?}");
            }
        }
    }
}

#[test]
fn letters_of_several_bytes_are_cut_alike_in_both_kinds() {
    // Capitals with and without accents, and bytes that go on with a letter.
    let bytes = b"aAE\xC3\x89\xA9";
    let questions = all_strings(bytes, 3);
    for seed in 60_000..60_300 {
        let mut random = Random::from_seed(seed);
        for kind in BookKind::ALL {
            let names = random_list(kind, &mut random, 7, bytes, 4);
            try_list(kind, &names, 2, &questions, seed);
        }
    }
}

#[test]
fn under_the_other_mark_a_book_is_one_just_where_it_is_that_kind_s_of_its_names() {
    let (mut taken, mut refused) = (0, 0);
    for seed in 70_000..72_000 {
        let mut random = Random::from_seed(seed);
        let block = 1 + random.below(3);
        for (kind, other) in [
            (BookKind::Plain, BookKind::Folded),
            (BookKind::Folded, BookKind::Plain),
        ] {
            let names = random_list(kind, &mut random, 4, b"aAbc", 3);
            let swapped = marked_as(other, &built_as(kind, &names, block));
            let mut room = vec![FILLING; swapped.len() + 100];
            let answer = build_kind(other, &write_list(&names), block, &mut room);
            let is_book = answer.code == 0 && room[..answer.first] == swapped;
            assert_eq!(book_check(&swapped).code == 0, is_book, "{names:?}");
            *(if is_book { &mut taken } else { &mut refused }) += 1;
        }
    }
    assert!(taken > 500 && refused > 500, "{taken} {refused}");
}

#[test]
fn two_bytes_only_so_that_trees_are_deep() {
    let questions = all_strings(&ALPHABET, 2);
    for seed in 10_000..11_500 {
        let mut random = Random::from_seed(seed);
        let two = [random.one_of(&ALPHABET), random.one_of(&ALPHABET)];
        let names = random_list(BookKind::Plain, &mut random, 12, &two, 7);
        let mut asked = questions.clone();
        for _ in 0..20 {
            asked.push(random.string(&two, 0, 8));
        }
        let block = 1 + random.below(64);
        try_list(BookKind::Plain, &names, block, &asked, seed);
    }
}

#[test]
fn every_set_of_names_of_at_most_two_bytes_over_two_letters() {
    // a, aa, ab, b, ba, bb: 64 sets, each with every question up to 3 bytes.
    let candidates = common::names(&["a", "aa", "ab", "b", "ba", "bb"]);
    let questions = all_strings(&ALPHABET, 3);
    for set in 0..64u64 {
        let chosen = (0..6).filter(|at| set >> at & 1 == 1);
        let names: Vec<Vec<u8>> = chosen.map(|at: usize| candidates[at].clone()).collect();
        for block in 1..=6 {
            try_list(BookKind::Plain, &names, block, &questions, set);
        }
    }
}

#[test]
fn longer_lists_of_longer_names_and_questions_near_them() {
    for (seed, kind) in (20_000..20_012).zip(BookKind::ALL.into_iter().cycle()) {
        let mut random = Random::from_seed(seed);
        let bytes = [&ALPHABET[..], b"AB"].concat();
        let names = random_list(kind, &mut random, 60, &bytes, 200);
        let mut questions = vec![vec![]];
        for name in &names {
            let mut changed = name.clone();
            changed[random.below(name.len())] = random.byte();
            questions.push(name.clone());
            questions.push(changed);
            questions.push(name[..random.below(name.len() + 1)].to_vec());
        }
        let block = 1 + random.below(64);
        try_list(kind, &names, block, &questions, seed);
    }
}

#[test]
fn each_single_call_gives_what_its_batch_row_gives() {
    let questions = all_strings(&CASES, 2);
    for (seed, kind) in (30_000..30_060).zip(BookKind::ALL.into_iter().cycle()) {
        let mut random = Random::from_seed(seed);
        let names = random_list(kind, &mut random, 9, &CASES, 4);
        let book = built_as(kind, &names, 3);
        for (question, five) in questions.iter().zip(ask_all(&book, &questions)) {
            let alone = [
                book_exact(&book, question),
                book_place(&book, question),
                book_range(&book, question),
                book_nearest(&book, question),
                book_width(&book, question),
            ];
            assert_eq!(alone, five, "seed {seed} question {question:?}");
        }
    }
}

#[test]
fn m_is_at_least_n_and_at_most_2n_minus_1() {
    for seed in 40_000..41_000 {
        let mut random = Random::from_seed(seed);
        let names = random_list(BookKind::Plain, &mut random, 30, &ALPHABET, 5);
        let nodes = nodes_in(&built(&names, 4));
        if names.is_empty() {
            assert_eq!(nodes, 0);
        } else {
            let bounds = names.len()..=2 * names.len() - 1;
            assert!(bounds.contains(&nodes), "seed {seed} nodes {nodes}");
        }
    }
}
