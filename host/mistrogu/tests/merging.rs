//! Two lists merged and followed through the typed calls.

use mistrogu::{build, check, heads, judge, merge, BookKind, Checked, Head, List};
use model::write_list;
use std::collections::BTreeSet;
use vectors::lists::{self, Names};
use vectors::random::Random;

/// Two operators' stops; Mar and Park are in both.
const FIRST: [&str; 3] = ["Mar", "Market Square", "Park"];
const SECOND: [&str; 4] = ["Mar", "Marina", "Park", "Zoo"];

/// The list of these stops.
fn list_of(stops: &[&str]) -> Vec<u8> {
    let mut room = [0; 100];
    let mut list = List::new(&mut room);
    for stop in stops {
        list.push(stop.as_bytes()).unwrap();
    }
    list.records().to_vec()
}

/// What two lists are merged to.
fn merged(first: &[u8], second: &[u8]) -> Vec<u8> {
    let mut room = vec![0; first.len() + second.len()];
    let length = merge(first, second, &mut room).unwrap();
    room.truncate(length);
    room
}

/// Whether a part lies in a list.
fn lies_in(part: &[u8], list: &[u8]) -> bool {
    let (part, list) = (part.as_ptr_range(), list.as_ptr_range());
    list.start <= part.start && part.end <= list.end
}

#[test]
fn a_book_is_built_from_what_two_lists_are_merged_to() {
    let [first, second] = [list_of(&FIRST), list_of(&SECOND)];
    let merged = merged(&first, &second);
    let stops = ["Mar", "Marina", "Market Square", "Park", "Zoo"];
    assert_eq!(merged, list_of(&stops));
    let mut room = [0; 200];
    let length = build(&merged, 4, &mut room).unwrap();
    let checked = check(&room[..length]);
    let expected = Checked {
        names: 5,
        block: 4,
        kind: BookKind::Plain,
    };
    assert_eq!(checked, Ok(expected));
}

#[test]
fn a_merge_leaves_the_room_behind_it_as_it_was() {
    let list = list_of(&FIRST);
    let mut room = [0xAA; 40];
    assert_eq!(merge(&list, &list, &mut room), Ok(23));
    assert_eq!(room[..23], list);
    assert_eq!(room[23..], [0xAA; 17]);
    assert_eq!(merge(&[], &[], &mut room[..0]), Ok(0));
}

#[test]
fn the_heads_are_the_merged_names_where_they_stand() {
    let [first, second] = [list_of(&FIRST), list_of(&SECOND)];
    let expected = [
        Head::First(&b"Mar"[..]),
        Head::Second(b"Marina"),
        Head::First(b"Market Square"),
        Head::First(b"Park"),
        Head::Second(b"Zoo"),
    ];
    let shown: Vec<Head> = heads(&first, &second).unwrap().collect();
    assert_eq!(shown, expected);
    for head in shown {
        let list = match head {
            Head::First(_) => &first,
            Head::Second(_) => &second,
        };
        assert!(lies_in(head.name(), list), "{head:?}");
    }
}

#[test]
fn heads_end_once_and_for_all() {
    let list = list_of(&FIRST);
    let mut shown = heads(&list, &list).unwrap();
    assert_eq!(shown.by_ref().count(), 3);
    assert_eq!(shown.next(), None);
    assert_eq!(shown.next(), None);
    assert_eq!(heads(&[], &[]).unwrap().next(), None);
}

#[test]
fn no_number_of_names_is_too_many_to_judge_or_to_show() {
    let [many, more] = [2001, 2002].map(|count| write_list(&lists::pairs(count)));
    assert_eq!(judge(&many, &more), Ok(()));
    assert_eq!(heads(&many, &[]).unwrap().count(), 2001);
    assert_eq!(
        heads(&[], &more).unwrap().last(),
        Some(Head::Second(&[8, 1]))
    );
}

/// Two lists with names in common.
fn any_lists(random: &mut Random) -> [Names; 2] {
    let names = match random.below(3) {
        0 => lists::random(random, b"ab", 30, 1, 5),
        1 => lists::grown(random, &lists::all_bytes(), 30, 8),
        _ => lists::chain(random.byte(), random.between(1, 30)),
    };
    [0, 1].map(|other| {
        let mut kept = names.clone();
        kept.retain(|_| random.below(3) != other);
        kept
    })
}

#[test]
fn heads_and_merge_give_the_names_of_both_lists_in_order() {
    let mut random = Random::from_seed(7);
    for _ in 0..300 {
        let both = any_lists(&mut random);
        let names: BTreeSet<&[u8]> = both.iter().flatten().map(|name| &name[..]).collect();
        let [first, second] = [0, 1].map(|number: usize| write_list(&both[number]));
        let shown: Vec<Head> = heads(&first, &second).unwrap().collect();
        let shown_names: Vec<&[u8]> = shown.iter().map(|head| head.name()).collect();
        assert_eq!(shown_names, names.iter().copied().collect::<Vec<_>>());
        for head in shown {
            let in_first = both[0].iter().any(|name| name == head.name());
            assert_eq!(matches!(head, Head::First(_)), in_first);
        }
        let all: Names = names.into_iter().map(<[u8]>::to_vec).collect();
        assert_eq!(merged(&first, &second), write_list(&all));
    }
}
