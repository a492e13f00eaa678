//! Held to the second program, on random and on damaged books.

use model::{book_of, BookKind};
use vectors::damage::{self, spoil_book, spoil_bytes, spoil_names, swap_mark};
use vectors::lists::{self, Names};
use vectors::pieces::Pieces;
use vectors::questions::{about_letters, any_question, around_all};
use vectors::random::Random;
use vectors::spelling::{by_turns, names_respelt, respelt};
use vectors::{batches, hostile};

type Numbers = (usize, usize, usize);

fn ours(answer: reference::Answer) -> Numbers {
    (answer.code, answer.first, answer.second)
}

fn theirs(answer: model::Answer) -> Numbers {
    (answer.code, answer.first, answer.second)
}

fn ours_counted(given: reference::Counted) -> (Numbers, [usize; 2]) {
    (ours(given.answer()), [given.visits, given.entries])
}

fn theirs_counted(given: model::Counted) -> (Numbers, [usize; 2]) {
    (theirs(given.answer()), [given.visits, given.entries])
}

/// Any kind of book.
fn any_kind(random: &mut Random) -> BookKind {
    *random.one_of(&BookKind::ALL)
}

/// Lists of every shape for a book of this kind, small enough for the second
/// program.
fn any_names(random: &mut Random, kind: BookKind) -> Names {
    let all = lists::all_bytes();
    let names = match random.below(9) {
        0 => Names::new(),
        1 => lists::random(random, b"ab", 60, 1, 8),
        2 => lists::random(random, &all, 60, 1, 40),
        3 => lists::grown(random, b"abc", 80, 12),
        4 => lists::grown(random, &all, 40, 60),
        5 => lists::chain(random.byte(), random.between(1, 200)),
        6 => lists::mirror(b'a', b'b', random.between(1, 200)),
        7 => lists::grown(random, lists::PARTS_OF_LETTERS, 40, 12),
        _ => lists::fan(&random.string(b"ab", 1, 5)),
    };
    match random.below(3) {
        0 => by_turns(&lists::sorted_for(BookKind::Folded, names)),
        _ => names_respelt(random, kind, &names),
    }
}

/// The two builds of this kind.
type Build<Answer> = fn(&[u8], usize, &mut [u8]) -> Answer;
fn builds(kind: BookKind) -> (Build<reference::Answer>, Build<model::Answer>) {
    match kind {
        BookKind::Plain | BookKind::Columns => (reference::book_build, model::book_build),
        BookKind::Folded => (reference::book_build_folded, model::book_build_folded),
    }
}

/// Everything that can be asked of bytes, whatever they are.
fn same_answers(random: &mut Random, book: &[u8], names: &Names) {
    assert_eq!(
        ours(reference::book_check(book)),
        theirs(model::book_check(book))
    );
    let position = random.below(names.len() + 2);
    let (mut one, mut other) = ([7; 200], [7; 200]);
    let room = random.between(0, 200);
    let read = reference::book_read(book, position, &mut one[..room]);
    assert_eq!(
        ours(read),
        theirs(model::book_read(book, position, &mut other[..room]))
    );
    assert_eq!(one, other, "the room of a read");
    let question = any_question(random, names);
    let question = respelt(random, &question);
    same_questions(book, &question);
    same_conversions(book);
}

/// Both conversions, into a room that is long enough and into one that is not. What
/// they give is converted back.
fn same_conversions(book: &[u8]) {
    for space in [(book.len() + 1), book.len().saturating_sub(1)] {
        let (mut one, mut other) = (vec![7; space], vec![7; space]);
        let answer = reference::book_to_columns(book, &mut one);
        let expected = model::book_to_columns(book, &mut other);
        assert_eq!((ours(answer), &one), (theirs(expected), &other));
        if answer.code == 0 {
            let mut back = vec![7; book.len()];
            let answer = reference::book_from_columns(&one[..book.len()], &mut back);
            assert_eq!((answer.code, &back[..]), (0, book));
        }
        let (mut one, mut other) = (vec![7; space], vec![7; space]);
        let answer = reference::book_from_columns(book, &mut one);
        let expected = model::book_from_columns(book, &mut other);
        assert_eq!((ours(answer), one), (theirs(expected), other));
    }
}

/// A question in all five kinds, with how far each of them looked.
fn same_questions(book: &[u8], question: &[u8]) {
    let kinds = [
        (
            ours_counted(reference::book_exact(book, question)),
            theirs_counted(model::book_exact(book, question)),
        ),
        (
            ours_counted(reference::book_place(book, question)),
            theirs_counted(model::book_place(book, question)),
        ),
        (
            ours_counted(reference::book_range(book, question)),
            theirs_counted(model::book_range(book, question)),
        ),
        (
            ours_counted(reference::book_nearest(book, question)),
            theirs_counted(model::book_nearest(book, question)),
        ),
        (
            ours_counted(reference::book_width(book, question)),
            theirs_counted(model::book_width(book, question)),
        ),
    ];
    for (one, other) in kinds {
        assert_eq!(one, other, "{question:?}");
    }
}

#[test]
fn builds_the_same_books() {
    let mut random = Random::from_seed(1);
    for _ in 0..1200 {
        let kind = *random.one_of(&BookKind::FULL);
        let mut names = any_names(&mut random, kind);
        let block = random.below(67);
        if random.once_in(4) {
            spoil_names(&mut random, &mut names);
        }
        let mut list = model::write_list(&names);
        if random.once_in(4) {
            spoil_bytes(&mut random, &mut list);
        }
        let length = book_of(kind, block.max(1), &names).len();
        let room = random.between(length.saturating_sub(2), length + 2);
        let (mut one, mut other) = (vec![7; room], vec![7; room]);
        let (ours_builds, theirs_builds) = builds(kind);
        let built = ours_builds(&list, block, &mut one);
        assert_eq!(ours(built), theirs(theirs_builds(&list, block, &mut other)));
        assert_eq!(one, other, "the book");
    }
}

#[test]
fn builds_the_largest_books() {
    let lists = [
        lists::pairs(2000),
        lists::pairs(2001),
        lists::binary(lists::MOST_BINARY),
        lists::long(300),
        lists::long(320),
        lists::with_book_length(BookKind::Plain, &lists::binary(1800), 16, 65_535),
        lists::with_book_length(BookKind::Plain, &lists::binary(1800), 16, 65_536),
    ];
    for (names, kind) in lists
        .iter()
        .flat_map(|names| BookKind::FULL.map(|kind| (names, kind)))
    {
        let list = model::write_list(&lists::sorted_for(kind, names.clone()));
        let (mut one, mut other) = (vec![7; 65_536], vec![7; 65_536]);
        let (ours_builds, theirs_builds) = builds(kind);
        let built = ours_builds(&list, 16, &mut one);
        assert_eq!(ours(built), theirs(theirs_builds(&list, 16, &mut other)));
        assert_eq!(one, other, "the book");
        let book = &one[..built.first];
        assert_eq!(
            ours(reference::book_check(book)),
            theirs(model::book_check(book))
        );
        same_conversions(book);
    }
}

#[test]
fn answers_the_same_of_sound_and_of_damaged_books() {
    let mut random = Random::from_seed(2);
    for _ in 0..3000 {
        let kind = any_kind(&mut random);
        let names = any_names(&mut random, kind);
        let block = random.between(1, 64);
        let mut book = match random.below(4) {
            0 => book_of(kind, block, &names),
            1 if names.len() > 1 => hostile::any(&mut random, kind, block, &names).bytes(),
            _ => spoil_book(&mut random, kind, block, &names),
        };
        if random.once_in(6) {
            swap_mark(&mut book);
        }
        same_answers(&mut random, &book, &names);
    }
}

#[test]
fn refuses_every_change_that_the_second_program_refuses() {
    let mut random = Random::from_seed(3);
    let by_turns = by_turns(&lists::sorted_for(BookKind::Folded, lists::stops()));
    for (kind, block, names) in [
        (BookKind::Plain, 2, lists::example()),
        (BookKind::Plain, 16, lists::stops()),
        (BookKind::Columns, 2, lists::example()),
        (BookKind::Columns, 16, lists::stops()),
        (BookKind::Folded, 16, by_turns),
    ] {
        let pieces = Pieces::of(kind, block, &names);
        let book = pieces.bytes();
        let mut spoilt = damage::changed_bytes(&book);
        spoilt.extend(damage::cut_bytes(&book));
        for change in [
            damage::other_counts,
            damage::large_counts,
            damage::other_rests,
            damage::other_entries,
            damage::other_starts,
            damage::other_nodes,
            damage::other_widths,
            damage::gaps,
            damage::old_books,
        ] {
            spoilt.extend(change(&pieces));
        }
        for (how, bytes) in spoilt {
            let one = ours(reference::book_check(&bytes));
            assert_eq!(one, theirs(model::book_check(&bytes)), "{how}");
            if random.once_in(20) {
                same_answers(&mut random, &bytes, &names);
            }
        }
    }
}

#[test]
fn refuses_every_hostile_table() {
    for kind in hostile::kinds() {
        for book in [kind.with_names(hostile::DEEPER_THAN_ANY), kind.largest()] {
            for as_kind in [BookKind::Plain, BookKind::Columns] {
                let bytes = book.clone().in_kind(as_kind).bytes();
                let one = ours(reference::book_check(&bytes));
                assert_eq!(one, theirs(model::book_check(&bytes)), "{}", kind.how);
            }
        }
    }
}

#[test]
fn answers_all_around_every_name() {
    let by_turns = by_turns(&lists::sorted_for(BookKind::Folded, lists::stops()));
    for (kind, block, names) in [
        (BookKind::Plain, 2, lists::example()),
        (BookKind::Plain, 7, lists::stops()),
        (BookKind::Columns, 7, lists::stops()),
        (BookKind::Folded, 7, by_turns),
    ] {
        let book = book_of(kind, block, &names);
        for question in around_all(&names) {
            same_questions(&book, &question);
            same_questions(&book, &question.to_ascii_uppercase());
        }
        for length in [0, 199, 200, 201, 300] {
            same_questions(&book, &vec![b'M'; length]);
        }
    }
}

#[test]
fn looks_as_far_down_the_deepest_trees_whatever_the_block_size() {
    let mut chain = lists::chain(b'a', 200);
    chain.push(b"b".to_vec());
    let mirror = lists::mirror(b'a', b'b', 200);
    for (kind, names, block) in [
        (BookKind::Plain, &chain, 1),
        (BookKind::Plain, &chain, 7),
        (BookKind::Plain, &mirror, 64),
        (BookKind::Columns, &chain, 7),
        (BookKind::Columns, &mirror, 64),
    ] {
        let book = book_of(kind, block, names);
        for length in [0, 1, 2, 63, 64, 65, 198, 199] {
            let stem = vec![b'a'; length];
            for tail in [&b""[..], b"a", b"b", b"c"] {
                same_questions(&book, &[&stem, tail].concat());
            }
        }
    }
    let deepest = reference::book_place(&book_of(BookKind::Plain, 64, &chain), &[b'a'; 200]);
    assert_eq!((deepest.visits, deepest.entries), (201, 199 % 64 + 1));
}

#[test]
fn lights_as_much_of_every_question_about_letters() {
    let longest = [b"a", &[128; 199][..]].concat();
    let lists = lists::lettered().into_iter().map(|(_, names)| names);
    for names in lists.chain([vec![longest]]) {
        for kind in BookKind::ALL {
            let names = lists::sorted_for(kind, names.clone());
            let book = book_of(kind, 2, &names);
            for question in about_letters(&names) {
                same_questions(&book, &question);
            }
        }
    }
}

#[test]
fn answers_a_batch_row_by_row() {
    let mut random = Random::from_seed(4);
    for _ in 0..300 {
        let kind = any_kind(&mut random);
        let names = any_names(&mut random, kind);
        let book = book_of(kind, random.between(1, 64), &names);
        let batch = batches::any_batch(&mut random, &names);
        let rows = batch.rows();
        let places = batches::any_places(&mut random, rows.len());
        let mut other = vec![model::Answer::default(); places];
        let expected = model::book_batch(&book, &batch.questions, &rows, &mut other);
        let rows: Vec<reference::Row> = rows
            .iter()
            .map(|row| reference::Row {
                kind: row.kind,
                start: row.start,
                length: row.length,
            })
            .collect();
        let mut one = vec![reference::Answer::default(); places];
        let answer = reference::book_batch(&book, &batch.questions, &rows, &mut one);
        assert_eq!(ours(answer), theirs(expected));
        let one: Vec<Numbers> = one.into_iter().map(ours).collect();
        let other: Vec<Numbers> = other.into_iter().map(theirs).collect();
        assert_eq!(one, other);
    }
}
