//! Questions stand to the names as their functions say.

mod common;

use common::{lit, shared};
use model::BookKind;
use vectors::lists;
use vectors::questions::{
    about_letters, all_short, any_question, around_all, of_shape, Shape, SHAPES,
};
use vectors::random::Random;

#[test]
fn what_stands_around_a_name_is_what_is_said() {
    let questions = around_all(&lists::texts(&["Mar"]));
    let expected: [&[u8]; 14] = [
        b"",
        b"\0",
        b"M",
        b"Ma",
        b"Maq",
        b"Mar",
        b"Mar\0",
        b"Mare",
        b"Mar\xFF",
        b"Mas",
        b"Mqr",
        b"Mr",
        b"\xFF",
        b"\xFF\xFF\xFF",
    ];
    assert_eq!(questions, expected);
}

#[test]
fn what_is_about_the_letters_of_a_name_is_what_is_said() {
    let questions = about_letters(&lists::texts(&["né"]));
    let expected: [&[u8]; 11] = [
        b"",
        b"l",
        b"n",
        b"n\x80",
        b"n\xC1",
        b"n\xC3",
        b"n\xC3e",
        b"n\xC3\xA9",
        b"n\xC3\xA9\x80",
        b"n\xC3\xAB",
        b"\x80",
    ];
    assert_eq!(questions, expected);
}

#[test]
fn many_questions_part_from_all_names_inside_a_letter() {
    // Also where the names themselves have no letter of several bytes.
    let stops = lists::stops();
    let mut random = Random::from_seed(3);
    let parts = lists::grown(&mut random, lists::PARTS_OF_LETTERS, 40, 9);
    for (names, least) in [(stops, 60), (parts, 200)] {
        let inside = (0..1000).filter(|_| {
            let question = any_question(&mut random, &names);
            let counts = names
                .iter()
                .map(|name| shared(BookKind::Plain, name, &question));
            let count = counts.max().unwrap();
            lit(&question, count) < count
        });
        let inside = inside.count();
        assert!(inside > least, "{inside}");
    }
}

#[test]
fn short_questions_are_all_there() {
    assert_eq!(all_short(b"ab", 1), lists::texts(&["", "a", "b"]));
    assert_eq!(all_short(b"abc", 4).len(), 1 + 3 + 9 + 27 + 81);
}

#[test]
fn questions_have_their_shape() {
    let names = lists::stops();
    let mut random = Random::from_seed(1);
    for turn in 0..1000 {
        let shape = SHAPES[turn % SHAPES.len()];
        let question = of_shape(&mut random, &names, shape);
        let mut names = names.iter();
        assert!(match shape {
            Shape::Name => names.any(|name| *name == question),
            Shape::Beginning => names.any(|name| name.starts_with(&question) && *name != question),
            Shape::Extension => names.any(|name| question.starts_with(name) && *name != question),
            Shape::Miss => names.any(|name| name.len().abs_diff(question.len()) <= 1),
            Shape::Stranger => true,
        });
    }
}

#[test]
fn any_names_will_do() {
    let empty = vec![vec![]];
    let longest = vec![vec![b'x'; 255]];
    for names in [vec![], empty, longest, lists::stops()] {
        let mut random = Random::from_seed(2);
        let questions = (0..2000).map(|_| any_question(&mut random, &names).len());
        let lengths: Vec<usize> = questions.collect();
        for length in [0, 200, 201] {
            assert!(lengths.contains(&length), "{length}");
        }
        assert!(lengths.iter().any(|&length| length > 300));
        for shape in SHAPES {
            assert!(of_shape(&mut random, &names, shape).len() <= 200);
        }
    }
}
