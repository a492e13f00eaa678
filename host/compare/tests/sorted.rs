//! The plain sorted array gives the second program's answers.

use compare::mix::questions;
use compare::sorted::Sorted;
use compare::stations;
use model::questions::{exact, nearest, nearest_from, place, range, width};
use model::tree::tree;
use model::{write_list, Rule};
use vectors::lists::{self, Names};
use vectors::questions::{about_letters, around_all};

/// Asks these questions of the names in all five kinds.
fn hold_to_the_model(names: &Names, questions: &Names) {
    let list = write_list(names);
    let mut starts = [0; 2000];
    let sorted = Sorted::build(&list, &mut starts).unwrap();
    let root = tree(Rule::Plain, names);
    for question in questions {
        let nearest = root
            .as_ref()
            .map(|root| nearest_from(Rule::Plain, root, names, question));
        assert_eq!(sorted.exact(question), exact(Rule::Plain, names, question));
        assert_eq!(sorted.place(question), place(Rule::Plain, names, question));
        assert_eq!(sorted.range(question), range(Rule::Plain, names, question));
        assert_eq!(sorted.nearest(question), nearest, "{question:?}");
        assert_eq!(sorted.width(question), width(Rule::Plain, names, question));
    }
}

#[test]
fn all_questions_of_the_mix_get_the_models_answers() {
    let names = stations();
    let questions = questions(&names);
    assert_eq!(questions.len(), 100);
    hold_to_the_model(&names, &questions);
    // The short way to nearest above is the second program's own.
    let mut starts = [0; 2000];
    let list = write_list(&names);
    let sorted = Sorted::build(&list, &mut starts).unwrap();
    for question in questions.iter().step_by(20) {
        assert_eq!(
            sorted.nearest(question),
            nearest(Rule::Plain, &names, question)
        );
    }
}

#[test]
fn all_that_stands_around_the_names_of_other_lists_gets_them_too() {
    for names in [
        Names::new(),
        lists::example(),
        lists::stops(),
        lists::single_bytes(),
        lists::fan(b"xy"),
        lists::chain(b'a', 12),
        lists::mirror(b'a', b'b', 12),
        lists::binary(64),
    ] {
        hold_to_the_model(&names, &around_all(&names));
    }
}

#[test]
fn no_half_letter_is_lit() {
    for (_, names) in lists::lettered() {
        hold_to_the_model(&names, &about_letters(&names));
    }
}

#[test]
fn every_name_is_read_back() {
    let names = stations();
    let list = write_list(&names);
    let mut starts = [0; 2000];
    let sorted = Sorted::build(&list, &mut starts).unwrap();
    let mut room = [0; 200];
    for (position, name) in names.iter().enumerate() {
        assert_eq!(sorted.read(position, &mut room), Some(name.len()));
        assert_eq!(&room[..name.len()], name);
        assert_eq!(sorted.read(position, &mut room[..name.len() - 1]), None);
    }
    assert_eq!(sorted.read(names.len(), &mut room), None);
    assert_eq!(sorted.size(), list.len() + 4 * names.len());
}

#[test]
fn a_list_that_is_no_list_is_not_built() {
    let mut starts = [0; 3];
    let lists: [&[u8]; 5] = [b"\0", b"\x02a", b"\x01b\x01a", b"\x01a\x01a", &[201; 202]];
    for list in lists {
        assert!(Sorted::build(list, &mut starts).is_none(), "{list:?}");
    }
    let four = write_list(&lists::chain(b'a', 4));
    assert!(Sorted::build(&four, &mut starts).is_none());
}
