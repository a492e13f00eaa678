//! Names spelt anew are the same letters, in the order of their kind of book.

use model::names::{is_sound_list, leading_equal, shared_symbols};
use model::{book_check, book_of, BookKind, Rule};
use std::collections::BTreeSet;
use vectors::damage::swap_mark;
use vectors::lists::{self, compared, sorted_for, Names};
use vectors::random::Random;
use vectors::spelling::{by_turns, names_respelt, other_case, respelt};

/// Lists of several shapes, plainly sorted.
fn some_lists(random: &mut Random) -> Vec<Names> {
    vec![
        lists::example(),
        lists::stops(),
        lists::single_bytes(),
        lists::pairs(300),
        lists::grown(random, &lists::all_bytes(), 60, 9),
        lists::grown(random, b"aAbB[`", 60, 9),
    ]
}

#[test]
fn spelt_anew_the_letters_are_the_same() {
    let mut random = Random::from_seed(1);
    let name = "Market Square [Ä] @9".as_bytes();
    let spellings: BTreeSet<Vec<u8>> = (0..100).map(|_| respelt(&mut random, name)).collect();
    assert!(spellings.len() > 20);
    for spelling in spellings {
        assert!(spelling.eq_ignore_ascii_case(name));
    }
}

#[test]
fn only_letters_have_another_case() {
    for byte in 0..=255u8 {
        let other = other_case(byte);
        assert_eq!(other != byte, byte.is_ascii_alphabetic(), "{byte}");
        assert_eq!(Rule::Folded.symbol(other), Rule::Folded.symbol(byte));
        assert_eq!(other_case(other), byte);
    }
}

#[test]
fn lists_are_sorted_for_their_kind_of_book() {
    let mut random = Random::from_seed(2);
    for names in some_lists(&mut random) {
        for kind in BookKind::ALL {
            let sorted = sorted_for(kind, names.clone());
            assert!(is_sound_list(kind.rule(), &sorted));
            let respelt = names_respelt(&mut random, kind, &names);
            assert!(is_sound_list(kind.rule(), &respelt));
            // as it is compared, a list rises as bytes do
            assert!(is_sound_list(Rule::Plain, &compared(kind, &sorted)));
        }
    }
}

#[test]
fn of_names_that_fold_to_one_the_first_stays() {
    let names = lists::texts(&["b", "MAR", "mar", "a", "B", "Mar"]);
    let sorted = sorted_for(BookKind::Folded, names.clone());
    assert_eq!(sorted, lists::texts(&["a", "b", "MAR"]));
    assert_eq!(sorted_for(BookKind::Plain, names).len(), 6);
}

#[test]
fn by_turns_neighbours_share_letters_and_no_bytes() {
    let names = by_turns(&lists::chain(b'a', 20));
    assert!(is_sound_list(Rule::Folded, &names));
    for (at, pair) in names.windows(2).enumerate() {
        assert_eq!(leading_equal(&pair[0], &pair[1]), 0);
        assert_eq!(shared_symbols(Rule::Folded, &pair[0], &pair[1]), at + 1);
    }
}

#[test]
fn marks_are_swapped_there_and_back() {
    for kind in BookKind::FULL {
        let book = book_of(kind, 2, &lists::texts(&["mar", "marina"]));
        let mut swapped = book.clone();
        swap_mark(&mut swapped);
        assert_ne!(swapped, book);
        assert_eq!(book_check(&swapped).code, 0, "small letters alone");
        swap_mark(&mut swapped);
        assert_eq!(swapped, book);
    }
    swap_mark(&mut []);
    swap_mark(&mut [1, 2, 3]);
}
