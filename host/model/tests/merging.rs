//! Document 02, change request 2: two lists merged into one, the step that
//! follows along, and their refusals. A brute force stands in
//! `merging_brute_force.rs`.

mod common;

use common::{answer, head, many_names, names, no, yes, EMPTY_PART, FILLING, MAR_LIST};
use model::{list_head, list_judge, list_merge, list_step, read_list, write_list, Answer, Rule};

/// The list of the second operator: Harbour, Marina, Mill.
const MILL_LIST: &[u8] = b"\x07Harbour\x06Marina\x04Mill";

/// The two operators' list: Marina, which both have, is there once.
const BOTH_LIST: &[u8] = b"\x07Harbour\x03Mar\x06Marina\x0DMarket Square\x04Mill";

/// The records of names given as texts.
fn records(texts: &[&str]) -> Vec<u8> {
    write_list(&names(texts))
}

/// So many records of two bytes, from this one on.
fn many_records(from: usize, count: usize) -> Vec<u8> {
    write_list(&many_names(from + count)[from..])
}

/// Merges into a room that is large enough, asserts that the room past the
/// merged list is untouched, and gives the merged list.
fn merged(first: &[u8], second: &[u8]) -> Vec<u8> {
    let mut room = vec![FILLING; first.len() + second.len() + 9];
    let answer = list_merge(first, second, &mut room);
    assert_eq!((answer.code, answer.second), (0, 0), "{answer:?}");
    assert!(room[answer.first..].iter().all(|&byte| byte == FILLING));
    room.truncate(answer.first);
    room
}

/// Asserts that the merge of these lists is this one, whichever comes first.
fn assert_merged(one: &[u8], other: &[u8], expected: &[u8]) {
    assert_eq!(merged(one, other), expected);
    assert_eq!(merged(other, one), expected);
}

/// Asserts that a merge is refused like this and leaves its room as it was.
fn assert_merge_refused(first: &[u8], second: &[u8], room_length: usize, expected: Answer) {
    let mut room = vec![FILLING; room_length];
    assert_eq!(list_merge(first, second, &mut room), expected);
    assert_eq!(room, vec![FILLING; room_length]);
}

/// Asserts that all calls refuse one of the two lists like this, whatever the
/// room and whatever was passed.
fn assert_lists_refused(first: &[u8], second: &[u8], expected: Answer) {
    assert_eq!(list_judge(first, second), expected);
    for room_length in [0, 20_000] {
        assert_merge_refused(first, second, room_length, expected);
    }
    for passed in [0, 1, usize::MAX] {
        assert_eq!(list_head(first, second, passed, passed), EMPTY_PART);
        assert_eq!(list_step(first, second, passed, passed), b"");
    }
}

// Merge

#[test]
fn the_merged_list_has_the_names_of_both_and_strictly_rises() {
    assert_merged(MAR_LIST, MILL_LIST, BOTH_LIST);
    let names = names(&["Harbour", "Mar", "Marina", "Market Square", "Mill"]);
    assert_eq!(read_list(Rule::Plain, BOTH_LIST), Ok(names));
}

#[test]
fn a_name_in_both_lists_is_written_once() {
    assert_merged(b"\x03Mar", b"\x03Mar", b"\x03Mar");
    assert_merged(b"\x03Mar\x04Mill", b"\x03Mar", b"\x03Mar\x04Mill");
    assert_merged(b"\x03Mar\x04Mill", b"\x04Mill", b"\x03Mar\x04Mill");
    assert_merged(MAR_LIST, MAR_LIST, MAR_LIST);
}

#[test]
fn lists_without_a_shared_name_keep_all_their_names() {
    let all = records(&["a", "b", "c", "d", "e"]);
    assert_merged(&records(&["a", "b"]), &records(&["c", "d", "e"]), &all);
    assert_merged(&records(&["a", "c", "e"]), &records(&["b", "d"]), &all);
    assert_merged(&records(&["a", "d", "e"]), &records(&["b", "c"]), &all);
}

#[test]
fn a_list_merged_with_the_empty_list_is_that_list() {
    assert_merged(MAR_LIST, b"", MAR_LIST);
    assert_merged(b"", b"", b"");
}

#[test]
fn a_name_is_merged_before_the_names_that_it_begins() {
    let all = records(&["Mar", "Mari", "Marina", "Marina Square"]);
    let one = records(&["Mar", "Marina"]);
    let other = records(&["Mari", "Marina Square"]);
    assert_merged(&one, &other, &all);
    assert_merged(b"\x01a", b"\x02a\0", b"\x01a\x02a\0");
}

#[test]
fn bytes_0_and_255_are_merged_as_any_others() {
    let highest = b"\x01\xFE\x02\xFE\xFF\x01\xFF\x02\xFF\0\x02\xFF\xFF";
    assert_merged(
        b"\x01\xFE\x01\xFF",
        b"\x02\xFE\xFF\x02\xFF\0\x02\xFF\xFF",
        highest,
    );
    let lowest = b"\x01\0\x02\0\0\x01\x01";
    assert_merged(b"\x01\0\x01\x01", b"\x02\0\0", lowest);
}

#[test]
fn merge_and_step_go_by_the_plain_order_of_bytes() {
    let (small, large) = (records(&["mar", "mill"]), records(&["Mill", "Zoo"]));
    assert_merged(&small, &large, &records(&["Mill", "Zoo", "mar", "mill"]));
    assert_eq!(list_step(&small, &large, 0, 1), b"Zoo");
    assert_eq!(list_step(&large, &small, 1, 0), b"Zoo");
}

#[test]
fn names_of_200_bytes_are_merged() {
    let (one, other) = (vec![b'n'; 200], [vec![b'n'; 199], vec![b'o']].concat());
    let both = write_list(&[one.clone(), other.clone()]);
    let (one, other) = (write_list(&[one]), write_list(&[other]));
    assert_merged(&one, &other, &both);
    assert_eq!(list_head(&other, &one, 0, 0), head(2, 1, 200));
}

#[test]
fn a_name_of_201_bytes_is_not_merged() {
    let long = write_list(&[vec![b'n'; 201]]);
    assert_lists_refused(&long, MAR_LIST, answer(5, 0, 1));
    assert_lists_refused(MAR_LIST, &long, answer(5, 0, 2));
}

// The room

#[test]
fn an_accepted_merge_gives_code_0_and_the_bytes_written() {
    let mut room = [FILLING; 100];
    assert_eq!(list_merge(MAR_LIST, MILL_LIST, &mut room), yes(38, 0));
    assert_eq!(room[..38], *BOTH_LIST);
    assert_eq!(list_merge(b"", b"", &mut room), yes(0, 0));
}

#[test]
fn the_room_past_a_merged_list_is_untouched() {
    let mut room = [FILLING; 100];
    list_merge(MAR_LIST, MILL_LIST, &mut room);
    assert_eq!(room[38..], [FILLING; 62]);
}

#[test]
fn a_room_of_just_its_length_holds_the_merged_list() {
    let mut room = [FILLING; 38];
    assert_eq!(list_merge(MAR_LIST, MILL_LIST, &mut room), yes(38, 0));
    assert_eq!(room, *BOTH_LIST);
    assert_eq!(list_merge(b"", b"", &mut []), yes(0, 0));
}

#[test]
fn a_room_shorter_than_the_merged_list_is_refused_with_4_and_zeros() {
    for room_length in 0..38 {
        assert_merge_refused(MAR_LIST, MILL_LIST, room_length, no(4));
    }
    assert_merge_refused(b"\x01a", b"\x01a", 1, no(4));
}

// Refusals 5 and 6: of the first list, then of the second

#[test]
fn refusal_5_of_a_list_brings_the_record_and_the_list() {
    for (bad, record) in [
        (&b"\0"[..], 0),
        (b"\x03Mar\0", 1),
        (b"\x03Mar\xC9", 1),
        (b"\x03Mar\x06Marin", 1),
        (b"\x03Mar\x06Marina\x0D", 2),
    ] {
        assert_lists_refused(bad, MILL_LIST, answer(5, record, 1));
        assert_lists_refused(MILL_LIST, bad, answer(5, record, 2));
        assert_lists_refused(bad, b"", answer(5, record, 1));
        assert_lists_refused(b"", bad, answer(5, record, 2));
    }
}

#[test]
fn refusal_6_of_a_list_brings_the_record_and_the_list() {
    for (bad, record) in [
        (&b"\x03Mar\x03Mar"[..], 1),
        (b"\x06Marina\x03Mar", 1),
        (b"\x01a\x01b\x01c\x01a", 3),
    ] {
        assert_lists_refused(bad, MILL_LIST, answer(6, record, 1));
        assert_lists_refused(MILL_LIST, bad, answer(6, record, 2));
        assert_lists_refused(bad, b"", answer(6, record, 1));
        assert_lists_refused(b"", bad, answer(6, record, 2));
    }
}

#[test]
fn the_first_bad_record_of_a_list_is_the_one_that_is_told() {
    assert_lists_refused(b"\x01b\x01a\0", b"", answer(6, 1, 1));
    assert_lists_refused(b"", b"\x01b\0\x01a", answer(5, 1, 2));
    // cut short, and what is there of it falls: 5 before 6
    assert_lists_refused(b"\x03Mar\x04Lar", b"", answer(5, 1, 1));
    assert_lists_refused(b"", b"\x03Mar\x04Lar", answer(5, 1, 2));
}

#[test]
fn all_of_the_first_list_is_judged_before_the_second() {
    // A late 6 of the first list comes before an early 5 of the second.
    let late = b"\x01a\x01b\x01c\x01c";
    assert_lists_refused(late, b"\0", answer(6, 3, 1));
    assert_lists_refused(b"\0", late, answer(5, 0, 1));
    assert_lists_refused(late, late, answer(6, 3, 1));
    assert_lists_refused(b"\0", b"\0", answer(5, 0, 1));
}

#[test]
fn sound_lists_are_judged_with_zeros() {
    for (first, second) in [
        (MAR_LIST, MILL_LIST),
        (MAR_LIST, MAR_LIST),
        (MAR_LIST, b""),
        (b"", MILL_LIST),
        (b"", b""),
    ] {
        assert_eq!(list_judge(first, second), yes(0, 0));
    }
}

// Refusal 7: of the merged list alone

#[test]
fn a_list_to_be_merged_has_no_limit_of_its_own() {
    let list = many_records(0, 2001);
    assert_eq!(list_judge(&list, &list), yes(0, 0));
    assert_eq!(list_step(&list, b"", 2000, 0), [8, 0]);
    assert_eq!(list_head(b"", &list, 0, 2000), head(2, 6001, 2));
    // What is wrong behind the 2,000th record is told as anywhere else.
    let cut = [&list[..], b"\x05Mar"].concat();
    assert_lists_refused(&cut, b"", answer(5, 2001, 1));
    let falling = [&list[..], &[1, 0]].concat();
    assert_lists_refused(b"", &falling, answer(6, 2001, 2));
}

#[test]
fn a_list_of_2001_names_and_an_empty_one_are_refused_with_7() {
    let list = many_records(0, 2001);
    assert_merge_refused(&list, b"", 7000, answer(7, 2000, 0));
    assert_merge_refused(b"", &list, 7000, answer(7, 2000, 0));
}

#[test]
fn a_merged_list_of_2001_names_is_refused_with_7_and_2000_and_list_0() {
    // (names of the first list from 0 on, names of the second up to the last)
    for (first, second) in [
        (1000, 1001),
        (2000, 1),
        (1, 2000),
        (2000, 2000),
        (2001, 2001),
    ] {
        let one = many_records(0, first);
        let other = many_records(2001 - second, second);
        assert_merge_refused(&one, &other, 7000, answer(7, 2000, 0));
        assert_merge_refused(&other, &one, 7000, answer(7, 2000, 0));
    }
    let (one, other) = (many_records(0, 3000), many_records(3000, 3000));
    assert_merge_refused(&one, &other, 20_000, answer(7, 2000, 0));
}

#[test]
fn a_merged_list_of_2000_names_is_written() {
    let all = many_records(0, 2000);
    for (first, second) in [
        (1000, 1000),
        (2000, 0),
        (1999, 1),
        (1500, 1500),
        (2000, 2000),
    ] {
        let one = many_records(0, first);
        let other = many_records(2000 - second, second);
        assert_merged(&one, &other, &all);
    }
}

#[test]
fn a_step_and_the_judging_have_no_7_and_no_4() {
    let (one, other) = (many_records(0, 2000), many_records(2000, 2000));
    assert_eq!(list_judge(&one, &other), yes(0, 0));
    assert_eq!(list_step(&one, &other, 1999, 0), [7, 249]);
    assert_eq!(list_step(&one, &other, 2000, 0), [8, 0]);
    assert_eq!(list_step(&one, &other, 2000, 1999), [15, 249]);
}

// Order. Merge: 5 and 6 of the first list, then of the second; then 7; then 4

#[test]
fn merge_gives_5_and_6_of_both_lists_before_7() {
    let many = many_records(0, 2001);
    assert_lists_refused(&many, b"\0", answer(5, 0, 2));
    assert_lists_refused(&many, b"\x01b\x01a", answer(6, 1, 2));
    assert_lists_refused(b"\0", &many, answer(5, 0, 1));
    assert_lists_refused(b"\x01b\x01a", &many, answer(6, 1, 1));
}

#[test]
fn merge_gives_7_before_4_whatever_the_room() {
    let (one, other) = (many_records(0, 2000), many_records(2000, 1));
    for room_length in [0, 6002, 6003, 70_000] {
        assert_merge_refused(&one, &other, room_length, answer(7, 2000, 0));
    }
    let same = many_records(0, 1);
    assert_merge_refused(&one, &same, 5999, no(4));
}

// The step

#[test]
fn a_step_shows_the_lesser_of_the_two_heads() {
    // Mar and Harbour, then Mar and Marina, then Market Square and Mill
    assert_eq!(list_step(MAR_LIST, MILL_LIST, 0, 0), b"Harbour");
    assert_eq!(list_step(MAR_LIST, MILL_LIST, 0, 1), b"Mar");
    assert_eq!(list_step(MAR_LIST, MILL_LIST, 2, 2), b"Market Square");
    assert_eq!(list_head(MAR_LIST, MILL_LIST, 0, 0), head(2, 1, 7));
    assert_eq!(list_head(MAR_LIST, MILL_LIST, 0, 1), head(1, 1, 3));
    assert_eq!(list_head(MAR_LIST, MILL_LIST, 2, 2), head(1, 12, 13));
    // a head that begins the other is the lesser
    assert_eq!(list_head(b"\x06Marina", b"\x03Mar", 0, 0), head(2, 1, 3));
}

#[test]
fn a_shown_head_is_a_part_of_the_list_it_stands_in() {
    let (first, second) = (MAR_LIST, MILL_LIST);
    for (passed_first, passed_second, part) in [
        (0, 0, &second[1..8]),
        (0, 1, &first[1..4]),
        (2, 2, &first[12..25]),
        (3, 2, &second[16..20]),
        (3, 3, &first[..0]),
    ] {
        let shown = list_step(first, second, passed_first, passed_second);
        assert!(std::ptr::eq(shown, part), "{shown:?} {part:?}");
    }
}

#[test]
fn of_equal_heads_a_step_shows_the_first_list_s() {
    assert_eq!(list_head(MAR_LIST, MILL_LIST, 1, 1), head(1, 5, 6));
    assert_eq!(list_head(MILL_LIST, MAR_LIST, 1, 1), head(1, 9, 6));
    for passed in 0..3 {
        assert_eq!(list_head(MAR_LIST, MAR_LIST, passed, passed).list, 1);
    }
}

#[test]
fn a_head_is_the_name_s_bytes_without_the_length_byte() {
    let list = b"\x01\x01\x02\x02\x02";
    assert_eq!(list_step(list, b"", 0, 0), [1]);
    assert_eq!(list_step(b"", list, 0, 1), [2, 2]);
    assert_eq!(list_head(list, b"", 1, 0), head(1, 3, 2));
    assert_eq!(list_head(b"", list, 0, 1), head(2, 3, 2));
}

#[test]
fn an_exhausted_list_gives_the_other_s_head() {
    assert_eq!(list_head(MAR_LIST, MILL_LIST, 3, 2), head(2, 16, 4));
    assert_eq!(list_head(MAR_LIST, MILL_LIST, 0, 3), head(1, 1, 3));
    assert_eq!(list_head(b"", MILL_LIST, 0, 0), head(2, 1, 7));
    assert_eq!(list_head(MAR_LIST, b"", 1, 0), head(1, 5, 6));
}

#[test]
fn two_exhausted_lists_give_the_empty_part_of_the_first() {
    for (first, second) in [(MAR_LIST, MILL_LIST), (MAR_LIST, b""), (b"", b"")] {
        assert_eq!(list_head(first, second, 3, 3), EMPTY_PART);
        assert_eq!(list_step(first, second, 3, 3), b"");
    }
    assert_eq!(list_head(b"", b"", 0, 0), EMPTY_PART);
}

#[test]
fn a_count_at_or_above_the_list_s_own_means_exhausted() {
    let above = [3, 4, 255, 256, 259, 65_536, usize::MAX / 2 + 2, usize::MAX];
    for passed in above {
        assert_eq!(list_head(MAR_LIST, MILL_LIST, passed, 0), head(2, 1, 7));
        assert_eq!(list_head(MAR_LIST, MILL_LIST, 2, passed), head(1, 12, 13));
        for other in above {
            assert_eq!(list_head(MAR_LIST, MILL_LIST, passed, other), EMPTY_PART);
        }
    }
}

#[test]
fn a_step_judges_all_of_both_lists() {
    // A sound head is there to be shown, but a later record is bad, or one that
    // has been passed, or one of the list that is not shown.
    let late = [MAR_LIST, b"\0"].concat();
    let early = [b"\x01Z", MAR_LIST].concat();
    for bad in [&late[..], &early] {
        for passed in [0, 1, 2, usize::MAX] {
            for other in [0, usize::MAX] {
                assert_eq!(list_head(bad, MILL_LIST, passed, other), EMPTY_PART);
                assert_eq!(list_head(MILL_LIST, bad, other, passed), EMPTY_PART);
            }
        }
    }
}

#[test]
fn a_refused_step_gives_the_empty_part_of_the_first_list() {
    let bad = b"\x03Mar\x03Mar";
    for (first, second) in [
        (&bad[..], MILL_LIST),
        (MILL_LIST, bad),
        (bad, bad),
        (b"", bad),
    ] {
        assert_eq!(list_head(first, second, 0, 0), EMPTY_PART);
        assert!(std::ptr::eq(list_step(first, second, 0, 0), &first[..0]));
    }
}

#[test]
fn a_step_does_not_advance_and_shows_an_equal_head_again_from_the_second() {
    for _ in 0..2 {
        assert_eq!(list_head(MAR_LIST, MILL_LIST, 1, 1), head(1, 5, 6));
    }
    // Marina is passed in the first list alone, then in the second alone.
    assert_eq!(list_head(MAR_LIST, MILL_LIST, 2, 1), head(2, 9, 6));
    assert_eq!(list_head(MAR_LIST, MILL_LIST, 1, 2), head(1, 5, 6));
    assert_eq!(list_step(MAR_LIST, MILL_LIST, 2, 1), b"Marina");
}

#[test]
fn steps_from_0_and_0_on_show_the_merged_names_and_then_the_empty_part() {
    let [mine, theirs] = [MAR_LIST, MILL_LIST].map(|list| read_list(Rule::Plain, list).unwrap());
    let (mut passed_mine, mut passed_theirs) = (0, 0);
    for name in read_list(Rule::Plain, BOTH_LIST).unwrap() {
        let shown = list_step(MAR_LIST, MILL_LIST, passed_mine, passed_theirs);
        assert_eq!(shown, name);
        passed_mine += usize::from(mine.get(passed_mine) == Some(&name));
        passed_theirs += usize::from(theirs.get(passed_theirs) == Some(&name));
    }
    assert_eq!((passed_mine, passed_theirs), (3, 3));
    assert_eq!(list_step(MAR_LIST, MILL_LIST, 3, 3), b"");
}
