//! Document 01, "Questions", and width of document 02, asked one at a time. How far
//! they look stands in `counts.rs`.

mod common;

use common::answers::{book_exact, book_nearest, book_place, book_range, book_width};
use common::{built, many_names, mar_names, names, no, yes, BOOK_BY_2, EMPTY_BOOK};
use model::questions::{node_reached, Kind};
use model::tree::tree;
use model::{Answer, Rule};

/// All five answers to one question, in the order of the kinds.
fn all_five(book: &[u8], question: &[u8]) -> [Answer; 5] {
    [
        book_exact(book, question),
        book_place(book, question),
        book_range(book, question),
        book_nearest(book, question),
        book_width(book, question),
    ]
}

// Exact

#[test]
fn exact_finds_every_name_at_its_position() {
    for (position, name) in mar_names().iter().enumerate() {
        assert_eq!(book_exact(&BOOK_BY_2, name), yes(position, 1));
    }
}

#[test]
fn exact_at_position_0_differs_from_not_found_by_its_second_number() {
    assert_eq!(book_exact(&BOOK_BY_2, b"Mar"), yes(0, 1));
    assert_eq!(book_exact(&BOOK_BY_2, b"Max"), yes(0, 0));
}

#[test]
fn exact_does_not_take_beginnings_or_extensions() {
    for question in ["", "M", "Ma", "Marin", "Marinas", "Market", "Mar "] {
        let answer = book_exact(&BOOK_BY_2, question.as_bytes());
        assert_eq!(answer, yes(0, 0), "{question}");
    }
}

#[test]
fn exact_tells_a_name_from_itself_with_a_zero_byte_behind() {
    let book = built(&[b"Mar".to_vec(), b"Mar\0".to_vec()], 2);
    assert_eq!(book_exact(&book, b"Mar"), yes(0, 1));
    assert_eq!(book_exact(&book, b"Mar\0"), yes(1, 1));
    assert_eq!(book_exact(&book, b"Mar\0\0"), yes(0, 0));
}

// Place

#[test]
fn the_place_of_a_name_is_its_position() {
    for (position, name) in mar_names().iter().enumerate() {
        assert_eq!(book_place(&BOOK_BY_2, name), yes(position, 0));
    }
}

#[test]
fn place_between_before_and_behind_the_names() {
    let rows = [
        ("A", 0),
        ("Mango", 0),
        ("Maq", 0),
        ("Mara", 1),
        ("Marinas", 2),
        ("Marj", 2),
        ("Market Squard", 2),
        ("Market Squares", 3),
        ("Maxim", 3),
        ("Zoo", 3),
    ];
    for (question, less) in rows {
        let answer = book_place(&BOOK_BY_2, question.as_bytes());
        assert_eq!(answer, yes(less, 0), "{question}");
    }
}

#[test]
fn place_above_names_of_255() {
    let book = built(&[vec![255], vec![255, 255]], 2);
    assert_eq!(book_place(&book, &[254]), yes(0, 0));
    assert_eq!(book_place(&book, &[255]), yes(0, 0));
    assert_eq!(book_place(&book, &[255, 0]), yes(1, 0));
    assert_eq!(book_place(&book, &[255, 255]), yes(1, 0));
    assert_eq!(book_place(&book, &[255, 255, 255]), yes(2, 0));
}

// Range

#[test]
fn an_empty_question_begins_every_name() {
    assert_eq!(book_range(&BOOK_BY_2, b""), yes(0, 3));
}

#[test]
fn a_range_is_the_question_s_place_and_the_names_that_begin_with_it() {
    let rows = [
        ("M", 0, 3),
        ("Mar", 0, 3),
        ("Mari", 1, 1),
        ("Marina", 1, 1),
        ("Marinas", 2, 0),
        ("Mark", 2, 1),
        ("Market Square", 2, 1),
        ("Market Squares", 3, 0),
        ("A", 0, 0),
        ("Z", 3, 0),
    ];
    for (question, less, beginning) in rows {
        let answer = book_range(&BOOK_BY_2, question.as_bytes());
        assert_eq!(answer, yes(less, beginning), "{question}");
    }
}

#[test]
fn a_range_without_names_still_gives_the_place() {
    assert_eq!(book_range(&BOOK_BY_2, b"Mas"), yes(3, 0));
    assert_eq!(book_range(&BOOK_BY_2, b"Mara"), yes(1, 0));
}

// Nearest

#[test]
fn nearest_gives_every_name_for_itself() {
    for (position, name) in mar_names().iter().enumerate() {
        assert_eq!(book_nearest(&BOOK_BY_2, name), yes(position, name.len()));
    }
}

#[test]
fn nearest_stops_where_no_child_fits() {
    // d is 3; no name has x, q or another byte than i or k there.
    assert_eq!(book_nearest(&BOOK_BY_2, b"Marx"), yes(0, 3));
    assert_eq!(book_nearest(&BOOK_BY_2, b"Mango"), yes(0, 2));
}

#[test]
fn nearest_stops_where_the_depth_exceeds_the_question_s_length() {
    assert_eq!(book_nearest(&BOOK_BY_2, b""), yes(0, 0));
    assert_eq!(book_nearest(&BOOK_BY_2, b"Ma"), yes(0, 2));
}

#[test]
fn nearest_takes_the_end_symbol_where_the_depth_is_the_question_s_length() {
    // The node of Mar and Marina has depth 3, and so many bytes has Mar. Its
    // end symbol still leads to the leaf. Both nodes begin with the same name,
    // so only the node itself tells, not the answer.
    let list = names(&["Lar", "Mar", "Marina", "Nar"]);
    let root = tree(Rule::Plain, &list).expect("there are names");
    let leaf = node_reached(Rule::Plain, &root, b"Mar");
    assert_eq!((leaf.symbol, leaf.depth, leaf.first), (0, 4, 1));
    let inner = node_reached(Rule::Plain, &root, b"Ma");
    assert_eq!((inner.symbol, inner.depth, inner.first), (78, 3, 1));
    let book = built(&list, 4);
    assert_eq!(book_nearest(&book, b"Mar"), yes(1, 3));
    assert_eq!(book_nearest(&book, b"Ma"), yes(1, 2));
}

#[test]
fn nearest_gives_the_first_name_of_the_node_reached() {
    // At depth 2 no child of the node of Mar and Max fits y.
    let book = built(&names(&["Lar", "Mar", "Max", "Nar"]), 4);
    assert_eq!(book_nearest(&book, b"Mxy"), yes(1, 1));
    // But x fits, though the byte before it was never looked at.
    assert_eq!(book_nearest(&book, b"Mxx"), yes(2, 1));
    // No child of the root fits; the root's first name is given.
    assert_eq!(book_nearest(&book, b"Zoo"), yes(0, 0));
}

#[test]
fn nearest_in_a_book_of_one_name_is_that_name() {
    let book = built(&names(&["Mar"]), 1);
    for (question, shared) in [("", 0), ("M", 1), ("Mar", 3), ("Marina", 3), ("Zoo", 0)] {
        let answer = book_nearest(&book, question.as_bytes());
        assert_eq!(answer, yes(0, shared), "{question}");
    }
}

#[test]
fn nearest_goes_down_the_longest_path() {
    let mut list: Vec<Vec<u8>> = (1..=200).map(|length| vec![b'a'; length]).collect();
    list.push(b"b".to_vec());
    let book = built(&list, 64);
    assert_eq!(book_nearest(&book, &[b'a'; 200]), yes(199, 200));
    assert_eq!(book_nearest(&book, &[b'a'; 100]), yes(99, 100));
    let mut question = vec![b'a'; 199];
    question.push(b'c');
    // 199 symbols fit; at depth 199 there is no child for c.
    assert_eq!(book_nearest(&book, &question), yes(198, 199));
}

// Width

#[test]
fn the_width_of_the_empty_question_is_that_of_the_longest_name_of_all() {
    assert_eq!(book_width(&BOOK_BY_2, b""), yes(13, 0));
    let book = built(&names(&["Bar", "Bark", "Mar", "Max"]), 4);
    assert_eq!(book_width(&book, b""), yes(4, 0));
    assert_eq!(book_width(&EMPTY_BOOK, b""), yes(0, 0));
}

#[test]
fn the_longest_name_counts_wherever_it_stands_in_the_range() {
    for list in [
        ["Maaaa", "Mb", "Mcc"],
        ["Ma", "Mbbbb", "Mcc"],
        ["Ma", "Mbb", "Mcccc"],
    ] {
        let book = built(&names(&list), 2);
        assert_eq!(book_width(&book, b"M"), yes(5, 0), "{list:?}");
    }
}

#[test]
fn a_longer_name_outside_the_range_does_not_count() {
    let book = built(
        &names(&[
            "Bartholomew Road",
            "Mar",
            "Marina",
            "Max",
            "Zoological Garden",
        ]),
        2,
    );
    assert_eq!(book_width(&book, b"M"), yes(6, 0));
    assert_eq!(book_width(&book, b"Ma"), yes(6, 0));
    assert_eq!(book_width(&book, b"Max"), yes(3, 0));
    assert_eq!(book_width(&book, b"Zoo"), yes(17, 0));
    assert_eq!(book_width(&book, b""), yes(17, 0));
}

#[test]
fn the_width_of_a_range_is_not_the_length_of_the_name_nearest_to_it() {
    // Mar is reached by each of these, and only the last range is Mar alone.
    let book = built(&names(&["Mar", "Marina", "Market Square"]), 2);
    assert_eq!(book_width(&book, b"M"), yes(13, 0));
    assert_eq!(book_width(&book, b"Mar"), yes(13, 0));
    assert_eq!(book_width(&book, b"Marx"), yes(0, 0));
    let alone = built(&names(&["Mar"]), 2);
    assert_eq!(book_width(&alone, b"Mar"), yes(3, 0));
}

#[test]
fn an_empty_range_has_width_0_also_where_a_node_is_reached() {
    // Maxim reaches the leaf of Marina, and Mango the root.
    for question in [
        "Maxim",
        "Mango",
        "Mara",
        "Marinas",
        "Market Squares",
        "A",
        "Zoo",
    ] {
        let answer = book_width(&BOOK_BY_2, question.as_bytes());
        assert_eq!(answer, yes(0, 0), "{question}");
    }
}

#[test]
fn a_width_may_be_1_and_200() {
    let book = built(&[vec![1], vec![2; 200]], 1);
    assert_eq!(book_width(&book, &[1]), yes(1, 0));
    assert_eq!(book_width(&book, &[2]), yes(200, 0));
    assert_eq!(book_width(&book, &[2; 200]), yes(200, 0));
    assert_eq!(book_width(&book, b""), yes(200, 0));
}

#[test]
fn a_width_under_255_takes_every_name_that_begins_with_it() {
    let book = built(
        &[
            vec![254, 1, 1, 1, 1],
            vec![255],
            vec![255, 255],
            vec![255, 255, 255],
        ],
        2,
    );
    assert_eq!(book_width(&book, &[255]), yes(3, 0));
    assert_eq!(book_width(&book, &[255, 255]), yes(3, 0));
    assert_eq!(book_width(&book, &[255, 254]), yes(0, 0));
    assert_eq!(book_width(&book, &[254]), yes(5, 0));
}

// Deep and wide trees

#[test]
fn questions_to_the_chain_a_aa_aaa() {
    let list: Vec<Vec<u8>> = (1..=200).map(|length| vec![b'a'; length]).collect();
    let book = built(&list, 64);
    for length in [1, 2, 63, 64, 65, 128, 199, 200] {
        let at = length - 1;
        let expected = [
            yes(at, 1),
            yes(at, 0),
            yes(at, 201 - length),
            yes(at, length),
            yes(200, 0),
        ];
        assert_eq!(all_five(&book, &vec![b'a'; length]), expected, "{length}");
    }
    for length in [1, 2, 64, 127, 198, 199] {
        // Every name is below it; at depth `length` no child fits b.
        let question = [vec![b'a'; length], vec![b'b']].concat();
        let expected = [
            yes(0, 0),
            yes(200, 0),
            yes(200, 0),
            yes(length - 1, length),
            yes(0, 0),
        ];
        assert_eq!(all_five(&book, &question), expected, "{length}");
    }
}

#[test]
fn questions_to_the_mirror_of_the_chain() {
    // 199 a's and b, .., aab, ab, b: the name with so many a's stands at 199
    // less their number.
    let with_tail = |length: usize, byte: u8| [vec![b'a'; length], vec![byte]].concat();
    let list: Vec<Vec<u8>> = (0..200)
        .rev()
        .map(|length| with_tail(length, b'b'))
        .collect();
    let book = built(&list, 64);
    for length in [0, 1, 2, 63, 64, 127, 198, 199] {
        let at = 199 - length;
        let long = length + 1;
        let name = [
            yes(at, 1),
            yes(at, 0),
            yes(at, 1),
            yes(at, long),
            yes(long, 0),
        ];
        assert_eq!(all_five(&book, &with_tail(length, b'b')), name, "{length}");
        // All names with as many a's begin with them and stand behind them;
        // the first name of all is among them, and it has 200 bytes.
        let stem = [
            yes(0, 0),
            yes(0, 0),
            yes(0, 200 - length),
            yes(0, length),
            yes(200, 0),
        ];
        assert_eq!(all_five(&book, &vec![b'a'; length]), stem, "{length}");
        // The names with as many a's stand before c, the others behind it.
        let less = at + 1;
        let above = [
            yes(0, 0),
            yes(less, 0),
            yes(less, 0),
            yes(0, length),
            yes(0, 0),
        ];
        assert_eq!(all_five(&book, &with_tail(length, b'c')), above, "{length}");
    }
}

#[test]
fn questions_to_256_siblings() {
    let list: Vec<Vec<u8>> = (0..=255).map(|byte| vec![byte]).collect();
    let book = built(&list, 16);
    for byte in 0..=255u8 {
        let at = usize::from(byte);
        let name = [yes(at, 1), yes(at, 0), yes(at, 1), yes(at, 1), yes(1, 0)];
        assert_eq!(all_five(&book, &[byte]), name, "{byte}");
        let behind = [
            yes(0, 0),
            yes(at + 1, 0),
            yes(at + 1, 0),
            yes(at, 1),
            yes(0, 0),
        ];
        assert_eq!(all_five(&book, &[byte, 0]), behind, "{byte}");
    }
    let all = [yes(0, 0), yes(0, 0), yes(0, 256), yes(0, 0), yes(1, 0)];
    assert_eq!(all_five(&book, b""), all);
}

#[test]
fn questions_to_2000_names_of_two_bytes() {
    // 250 names for each of the first bytes 0 to 7.
    let book = built(&many_names(2000), 64);
    for (first, second) in [(0, 0), (0, 249), (3, 100), (7, 0), (7, 249)] {
        let at = 250 * first + second;
        let question = [first as u8, second as u8];
        let name = [yes(at, 1), yes(at, 0), yes(at, 1), yes(at, 2), yes(2, 0)];
        assert_eq!(all_five(&book, &question), name, "{question:?}");
    }
    for first in 0..8 {
        let at = 250 * first;
        let stem = [yes(0, 0), yes(at, 0), yes(at, 250), yes(at, 1), yes(2, 0)];
        assert_eq!(all_five(&book, &[first as u8]), stem, "{first}");
        let above = [
            yes(0, 0),
            yes(at + 250, 0),
            yes(at + 250, 0),
            yes(at, 1),
            yes(0, 0),
        ];
        assert_eq!(all_five(&book, &[first as u8, 250]), above, "{first}");
    }
    let past = [yes(0, 0), yes(2000, 0), yes(2000, 0), yes(0, 0), yes(0, 0)];
    assert_eq!(all_five(&book, &[8]), past);
}

// The empty question

#[test]
fn the_empty_question_where_the_root_has_depth_0() {
    let book = built(&names(&["Bar", "Mar"]), 1);
    let expected = [yes(0, 0), yes(0, 0), yes(0, 2), yes(0, 0), yes(3, 0)];
    assert_eq!(all_five(&book, b""), expected);
}

#[test]
fn the_empty_question_where_the_root_is_deeper() {
    let expected = [yes(0, 0), yes(0, 0), yes(0, 3), yes(0, 0), yes(13, 0)];
    assert_eq!(all_five(&BOOK_BY_2, b""), expected);
}

// The book without names

#[test]
fn only_nearest_is_refused_of_a_book_without_names() {
    for question in [&b""[..], b"Mar"] {
        let expected = [yes(0, 0), yes(0, 0), yes(0, 0), no(10), yes(0, 0)];
        assert_eq!(all_five(&EMPTY_BOOK, question), expected);
    }
}

// Kinds

#[test]
fn kinds_are_numbered_in_the_order_exact_place_range_nearest_width() {
    assert_eq!(Kind::of_number(1), Some(Kind::Exact));
    assert_eq!(Kind::of_number(2), Some(Kind::Place));
    assert_eq!(Kind::of_number(3), Some(Kind::Range));
    assert_eq!(Kind::of_number(4), Some(Kind::Nearest));
    assert_eq!(Kind::of_number(5), Some(Kind::Width));
    for number in [0, 6, 255, 257, 261, usize::MAX] {
        assert_eq!(Kind::of_number(number), None);
    }
}
