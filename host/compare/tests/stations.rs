//! What the names promise.

use compare::stations::{stations, BLOCK, COUNT};
use format::LONGEST_BOOK;
use model::layout::node_count;
use model::names::is_sound_list;
use model::{book_of, write_list, BookKind, Rule};

#[test]
fn the_names_are_sound_and_the_same_each_time() {
    let names = stations();
    assert_eq!(names.len(), COUNT);
    assert!(is_sound_list(Rule::Plain, &names));
    assert_eq!(stations(), names);
}

#[test]
fn they_are_those_that_the_table_over_them_describes() {
    let names = stations();
    let mut lengths: Vec<usize> = names.iter().map(Vec::len).collect();
    lengths.sort();
    let at = |tenths: usize| lengths[tenths * COUNT / 10];
    assert_eq!((at(1), at(5), at(9)), (6, 19, 33));
    assert_eq!(write_list(&names).len(), 37_257);
    assert_eq!(node_count(Rule::Plain, &names), 2451);
}

#[test]
fn their_book_is_nearly_the_longest() {
    let length = book_of(BookKind::Plain, BLOCK, &stations()).len();
    assert!((60_000..=LONGEST_BOOK).contains(&length));
    assert_eq!(length, 63_549);
}
