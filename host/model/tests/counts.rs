//! Document 02, change request 8: how far a single question looked. Sentence by
//! sentence, on lists of which each way down is told by hand.

mod common;

use common::{
    built, built_as, many_names, names, no, unlooked, yes, BOOK_BY_2, BOOK_BY_4, EMPTY_BOOK,
    QUESTIONS,
};
use model::questions::{look, look_from, way_down, Look};
use model::tree::tree;
use model::{
    book_batch, book_exact, book_nearest, book_place, book_range, Answer, BookKind, Counted, Row,
    Rule,
};

/// So many visits and entries.
fn looked(visits: usize, entries: usize) -> Look {
    Look { visits, entries }
}

/// What all five kinds tell of how far they looked, if they tell the same.
fn look_of_all(book: &[u8], question: &[u8]) -> Look {
    let told = QUESTIONS.map(|ask| {
        let Counted {
            code,
            visits,
            entries,
            ..
        } = ask(book, question);
        assert_eq!(code, 0, "{question:?}");
        looked(visits, entries)
    });
    assert_eq!(told, [told[0]; 5], "{question:?}");
    told[0]
}

/// The names a, aa, aaa and so on, up to this length.
fn chain(longest: usize) -> Vec<Vec<u8>> {
    (1..=longest).map(|length| vec![b'a'; length]).collect()
}

// "Each accepted single question also gives the nodes visited going down, root and
// last node counted"

#[test]
fn the_root_and_the_last_node_are_counted() {
    // Forks at M, Ma and Mar; the root has depth 0, because of Bar.
    let list = names(&["Bar", "Mar", "Marina", "Max", "Moor"]);
    let book = built(&list, 8);
    for (question, visits) in [
        // the root: no child has Z, and none the end
        ("Zoo", 1),
        ("", 1),
        // the leaf of Bar
        ("B", 2),
        ("Bar", 2),
        ("Bus stop", 2),
        // the fork at M: no child has i, and none the end
        ("Mill", 2),
        ("M", 2),
        // the leaf of Moor
        ("Mo", 3),
        ("Moor", 3),
        // the fork at Ma
        ("Man", 3),
        ("Ma", 3),
        // the leaf of Max
        ("Max", 4),
        ("Maxim", 4),
        // the fork at Mar, then a leaf of it
        ("Mark", 4),
        ("Mar", 5),
        ("Marina", 5),
        ("Marinas", 5),
    ] {
        let found = look_of_all(&book, question.as_bytes()).visits;
        assert_eq!(found, visits, "{question}");
    }
}

#[test]
fn a_way_that_ends_where_the_depth_exceeds_the_length_counts_that_node() {
    // The only fork has depth 3.
    for question in ["", "M", "Ma"] {
        let found = look_of_all(&BOOK_BY_2, question.as_bytes());
        assert_eq!(found, looked(1, 1), "{question}");
    }
    assert_eq!(look_of_all(&BOOK_BY_2, b"Mar"), looked(2, 1));
}

#[test]
fn a_way_goes_down_by_the_symbols_at_the_depths_alone() {
    // Of Maxim only the i is looked at, and of Zoology only the l.
    assert_eq!(look_of_all(&BOOK_BY_2, b"Maxim"), looked(2, 2));
    assert_eq!(look_of_all(&BOOK_BY_2, b"Zoology"), looked(1, 1));
    assert_eq!(look_of_all(&BOOK_BY_2, b"Zooi"), looked(2, 2));
}

#[test]
fn the_way_down_holds_the_nodes_that_are_visited() {
    let list = names(&["a", "ab", "b"]);
    let root = tree(Rule::Plain, &list).expect("there are names");
    let way = way_down(Rule::Plain, &root, b"a");
    let nodes: Vec<[usize; 3]> = way
        .iter()
        .map(|node| [node.symbol, node.depth, node.names])
        .collect();
    assert_eq!(nodes, [[0, 0, 3], [98, 1, 2], [0, 2, 1]]);
    assert_eq!(look_from(Rule::Plain, 2, &root, b"a"), looked(3, 1));
    assert_eq!(look(Rule::Plain, 2, &list, b"a"), looked(3, 1));
}

// "and the entries read to rebuild the one name compared"

#[test]
fn entries_are_read_from_the_first_of_the_block_on() {
    for (question, by_2, by_4) in [
        ("Mar", 1, 1),
        ("Marina", 2, 2),
        ("Market Square", 1, 3),
        ("Mark", 1, 3),
        ("Mango", 1, 1),
    ] {
        let question = question.as_bytes();
        assert_eq!(look_of_all(&BOOK_BY_2, question).entries, by_2);
        assert_eq!(look_of_all(&BOOK_BY_4, question).entries, by_4);
    }
}

#[test]
fn entries_are_the_reached_position_modulo_k_plus_1_for_every_k() {
    let list = chain(150);
    for block in 1..=64 {
        let book = built(&list, block);
        for position in [0, 1, 2, 15, 16, 62, 63, 64, 65, 127, 128, 149] {
            let question = &list[position];
            let found = book_nearest(&book, question);
            assert_eq!(found.answer(), yes(position, position + 1));
            assert_eq!(found.entries, position % block + 1, "{block} {position}");
        }
    }
}

#[test]
fn a_block_of_1_has_one_entry_to_read_and_one_of_64_up_to_64() {
    let list = many_names(128);
    let (ones, largest) = (built(&list, 1), built(&list, 64));
    for (position, name) in list.iter().enumerate() {
        assert_eq!(look_of_all(&ones, name), looked(2, 1));
        assert_eq!(look_of_all(&largest, name), looked(2, 1 + position % 64));
    }
}

// "Every kind is counted by the one descent that document 01 gives for nearest."

#[test]
fn all_kinds_look_equally_far() {
    // Their positions differ: the entries go by nearest's, whatever the answer is.
    let maxim = QUESTIONS.map(|ask| ask(&BOOK_BY_4, b"Maxim"));
    let answers = [yes(0, 0), yes(3, 0), yes(3, 0), yes(1, 2), yes(0, 0)];
    let expected = answers.map(|answer| Counted::of(answer, looked(2, 2)));
    assert_eq!(maxim, expected);
    let marj = QUESTIONS.map(|ask| ask(&BOOK_BY_4, b"Marj"));
    let answers = [yes(0, 0), yes(2, 0), yes(2, 0), yes(0, 3), yes(0, 0)];
    let expected = answers.map(|answer| Counted::of(answer, looked(1, 1)));
    assert_eq!(marj, expected);
}

#[test]
fn the_twelve_checked_rows_say_how_far_they_looked() {
    type Asked = (common::Ask, &'static str, [usize; 2], usize, [usize; 2]);
    // first and second, visits, entries in blocks of 2 and of 4
    let rows: [Asked; 12] = [
        (book_exact, "Marina", [1, 1], 2, [2, 2]),
        (book_exact, "Marin", [0, 0], 2, [2, 2]),
        (book_place, "", [0, 0], 1, [1, 1]),
        (book_place, "Mark", [2, 0], 2, [1, 3]),
        (book_place, "Maxim", [3, 0], 2, [2, 2]),
        (book_range, "Mar", [0, 3], 2, [1, 1]),
        (book_range, "Mark", [2, 1], 2, [1, 3]),
        (book_range, "Mas", [3, 0], 2, [1, 1]),
        (book_nearest, "Mango", [0, 2], 1, [1, 1]),
        (book_nearest, "Maxim", [1, 2], 2, [2, 2]),
        (book_nearest, "Zoo", [0, 0], 2, [1, 1]),
        (book_nearest, "M", [0, 1], 1, [1, 1]),
    ];
    for (ask, question, [first, second], visits, entries) in rows {
        for (book, entries) in [&BOOK_BY_2[..], &BOOK_BY_4].into_iter().zip(entries) {
            let expected = Counted::of(yes(first, second), looked(visits, entries));
            assert_eq!(ask(book, question.as_bytes()), expected, "{question}");
        }
    }
}

// "Both .. leave the book's check aside."

#[test]
fn names_beside_the_way_are_not_counted() {
    let few = built(&names(&["Mar", "Marina"]), 64);
    let mut list = names(&["Mar", "Marina"]);
    list.extend((0..200).map(|number| format!("Mark{number:03}").into_bytes()));
    let many = built(&list, 64);
    for question in ["Mar", "Marina", "Max", ""] {
        let question = question.as_bytes();
        assert_eq!(look_of_all(&few, question), look_of_all(&many, question));
    }
}

#[test]
fn visits_do_not_depend_on_the_block_size() {
    let list = many_names(300);
    let questions = [
        vec![0, 7],
        vec![1, 49],
        vec![1],
        vec![0, 255],
        vec![2],
        vec![],
    ];
    let visits = |block| {
        let book = built(&list, block);
        questions
            .each_ref()
            .map(|question| look_of_all(&book, question).visits)
    };
    let expected = visits(1);
    for block in [2, 3, 16, 63, 64] {
        assert_eq!(visits(block), expected, "{block}");
    }
}

// "Batch rows keep their three numbers."

#[test]
fn a_batch_row_has_the_three_numbers_of_its_question_alone() {
    let question = b"Market";
    let rows = [1, 2, 3, 4, 5].map(|kind| Row {
        kind,
        start: 0,
        length: question.len(),
    });
    let mut answers = [Answer::default(); 5];
    assert_eq!(
        book_batch(&BOOK_BY_4, question, &rows, &mut answers),
        yes(5, 0)
    );
    let alone = QUESTIONS.map(|ask| ask(&BOOK_BY_4, question));
    assert_eq!(alone.map(Counted::answer), answers);
    assert_eq!(look_of_all(&BOOK_BY_4, question), looked(2, 3));
}

// "With n at least 1: visits are at most the question's length plus 2 and at most n"

#[test]
fn three_visits_are_both_n_and_the_length_plus_2() {
    let book = built(&names(&["a", "ab", "b"]), 4);
    assert_eq!(look_of_all(&book, b"a"), looked(3, 1));
    assert_eq!(look_of_all(&book, b"ab"), looked(3, 2));
    assert_eq!(look_of_all(&book, b"b"), looked(2, 3));
}

#[test]
fn the_length_plus_2_is_reached_by_every_length_up_to_199() {
    // A fork at each depth from 0 on, and a leaf behind the last of them.
    let mut list = chain(200);
    list.push(b"b".to_vec());
    let book = built(&list, 64);
    for length in 1..=199 {
        let found = book_nearest(&book, &vec![b'a'; length]);
        assert_eq!(found.visits, length + 2);
        assert_eq!(found.entries, (length - 1) % 64 + 1);
    }
    // No name is longer than 200, so there is no fork at depth 200.
    assert_eq!(look_of_all(&book, &[b'a'; 200]), looked(201, 199 % 64 + 1));
    assert_eq!(look_of_all(&book, b""), looked(1, 1));
}

#[test]
fn the_empty_question_visits_the_root_alone() {
    // A child with the end symbol would be the leaf of a name without bytes.
    for list in [
        names(&["a"]),
        names(&["a", "b"]),
        vec![vec![0], vec![0, 0]],
        chain(9),
    ] {
        assert_eq!(look_of_all(&built(&list, 2), b""), looked(1, 1));
    }
}

#[test]
fn n_is_reached_by_every_n_up_to_200() {
    for names in 1..=200 {
        let book = built(&chain(names), 64);
        let found = look_of_all(&book, &vec![b'a'; names]);
        assert_eq!(found, looked(names, (names - 1) % 64 + 1));
    }
}

#[test]
fn one_name_gives_one_visit_and_one_entry_whatever_is_asked() {
    for block in [1, 2, 64] {
        for name in [&b"Mar"[..], &[0], &[255; 200]] {
            let book = built(&[name.to_vec()], block);
            for question in [&b""[..], b"M", b"Mar", b"Marina", b"Zoo", &[0], &[255; 200]] {
                assert_eq!(look_of_all(&book, question), looked(1, 1));
            }
        }
    }
}

// "With no names both are 0."

#[test]
fn without_names_nothing_is_looked_at() {
    for empty in [&EMPTY_BOOK[..], &built_as(BookKind::Folded, &[], 64)] {
        for question in [&b""[..], b"Mar", &[b'M'; 200]] {
            let five = QUESTIONS.map(|ask| ask(empty, question));
            let answers = [yes(0, 0), yes(0, 0), yes(0, 0), no(10), yes(0, 0)];
            assert_eq!(five, answers.map(unlooked));
        }
    }
}

// "Refused questions give 0 and 0."

#[test]
fn a_refused_question_has_looked_at_nothing() {
    for ask in QUESTIONS {
        assert_eq!(ask(&BOOK_BY_2[1..], b"Mar"), unlooked(no(2)));
        assert_eq!(ask(b"", &[b'M'; 201]), unlooked(no(2)));
        assert_eq!(ask(&BOOK_BY_2, &[b'M'; 201]), unlooked(no(1)));
        assert_eq!(ask(&EMPTY_BOOK, &[b'M'; 201]), unlooked(no(1)));
        let accepted = ask(&BOOK_BY_2, &[b'M'; 200]);
        assert_eq!((accepted.visits, accepted.entries), (1, 1));
    }
    assert_eq!(book_nearest(&EMPTY_BOOK, b"Mar"), unlooked(no(10)));
}

// Folded books: their nodes go by symbols, and so does the way down.

#[test]
fn a_folded_book_is_gone_down_in_any_case() {
    let list = names(&["mar", "Marina", "MARKET Square", "Moor"]);
    let book = built_as(BookKind::Folded, &list, 2);
    for (question, visits, entries) in [
        ("", 1, 1),
        ("m", 1, 1),
        ("mA", 2, 1),
        ("MAR", 3, 1),
        ("marina", 3, 2),
        ("MARINA", 3, 2),
        ("mARKt", 3, 1),
        ("mAXIM", 3, 2),
        ("mOOr", 2, 2),
        ("M[", 1, 1),
        ("[", 1, 1),
    ] {
        let found = look_of_all(&book, question.as_bytes());
        assert_eq!(found, looked(visits, entries), "{question}");
    }
}

#[test]
fn a_folded_book_looks_as_far_as_the_plain_one_in_small_letters() {
    let list = names(&["Abbey", "aBBot", "ABC", "b", "BA", "Bad", "c"]);
    let small: Vec<Vec<u8>> = list.iter().map(|name| name.to_ascii_lowercase()).collect();
    let questions = [
        "", "A", "aB", "ABBE", "abbot", "Abz", "bA", "BAD", "d", "B@",
    ];
    for block in [1, 3, 64] {
        let folded = built_as(BookKind::Folded, &list, block);
        let plain = built(&small, block);
        for question in questions {
            let found = look_of_all(&folded, question.as_bytes());
            let expected = look_of_all(&plain, &question.to_ascii_lowercase().into_bytes());
            assert_eq!(found, expected, "{question}");
        }
    }
}

#[test]
fn a_plain_book_does_not_fold_on_its_way() {
    let book = built(&names(&["MAR", "mar", "marina"]), 4);
    assert_eq!(look_of_all(&book, b"MARINA"), looked(2, 1));
    assert_eq!(look_of_all(&book, b"marina"), looked(3, 3));
}
