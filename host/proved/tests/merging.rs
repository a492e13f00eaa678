//! Document 02's request 2, sentence by sentence, through the linked archive.

use proved::{list_head, list_judge, list_merge, Answer, Head};

/// Two operators' lists; Mar and Park are in both.
const FIRST: &[u8] = b"\x03Mar\x0DMarket Square\x04Park";
const SECOND: &[u8] = b"\x02Ma\x03Mar\x06Marina\x04Park\x03Zoo";

/// An answer.
fn answer(code: usize, first: usize, second: usize) -> Answer {
    Answer {
        code,
        first,
        second,
    }
}

/// The list of these names, in the order given.
fn list(names: &[&str]) -> Vec<u8> {
    let records = names.iter().map(|name| {
        let length = u8::try_from(name.len()).expect("a length is a byte");
        [&[length], name.as_bytes()].concat()
    });
    records.collect::<Vec<_>>().concat()
}

/// So many names of four digits, from this one on.
fn digits(from: usize, count: usize) -> Vec<u8> {
    let records = (from..from + count).map(|number| format!("\x04{number:04}"));
    records.collect::<String>().into_bytes()
}

/// Merges into a room of so many bytes, and gives the whole room.
fn merge(first: &[u8], second: &[u8], space: usize) -> (Answer, Vec<u8>) {
    let mut room = vec![0xAA; space];
    let answer = list_merge(first, second, &mut room);
    (answer, room)
}

/// Holds a merge to this list, and all of the room behind it to what it was.
fn assert_merged(first: &[u8], second: &[u8], merged: &[u8]) {
    for more in [0, 1, 300] {
        let (answer, room) = merge(first, second, merged.len() + more);
        assert_eq!(answer, self::answer(0, merged.len(), 0));
        assert_eq!(room, [merged, &vec![0xAA; more]].concat());
    }
}

/// Holds a merge to a refusal, whatever the room is, and the room to what it was.
fn assert_refused(first: &[u8], second: &[u8], refused: Answer) {
    for space in [0, 1, 30_000] {
        let expected = (refused, vec![0xAA; space]);
        assert_eq!(merge(first, second, space), expected);
    }
}

/// The head, as the list's number and its bytes there.
fn head(lists: [&[u8]; 2], passed: [usize; 2]) -> (usize, &[u8]) {
    let [first, second] = lists;
    let Head {
        list,
        start,
        length,
    } = list_head(first, second, passed[0], passed[1]);
    (list, &lists[list - 1][start..start + length])
}

/// No head: the empty part of the first list.
const EMPTY: Head = Head {
    list: 1,
    start: 0,
    length: 0,
};

/// Counts of passed records that are at or above that of any list here.
const ALL: [usize; 4] = [5, 6, 5000, usize::MAX];

/// Bad lists, each with its refusal and the number of the bad record.
fn bad_lists() -> [(Vec<u8>, usize, usize); 9] {
    let mut long = list(&["L"]);
    long.push(201);
    long.extend([b'M'; 201]);
    [
        (vec![0], 5, 0),
        (vec![3], 5, 0),
        (b"\x03Mar\x04Lar".to_vec(), 5, 1),
        (b"\x03Mar\x00".to_vec(), 5, 1),
        (long, 5, 1),
        (list(&["Mar", "Mar"]), 6, 1),
        (list(&["Mar", "Marina", "Mar"]), 6, 2),
        (list(&["Marina", "Mar", ""]), 6, 1),
        ([digits(0, 2001), list(&["0"])].concat(), 6, 2001),
    ]
}

#[test]
fn two_lists_become_one_strictly_rising_list() {
    let merged = list(&["Ma", "Mar", "Marina", "Market Square", "Park", "Zoo"]);
    assert_merged(FIRST, SECOND, &merged);
    assert_merged(SECOND, FIRST, &merged);
    assert_merged(FIRST, &[], FIRST);
    assert_merged(&[], SECOND, SECOND);
    assert_merged(&[], &[], &[]);
    let bytes = b"\x01\x00\x02\x00\x00\x01\x7F\x01\x80\x01\xFF\x02\xFF\xFF";
    let (odd, even) = (
        b"\x01\x00\x01\x7F\x01\xFF",
        b"\x02\x00\x00\x01\x80\x02\xFF\xFF",
    );
    assert_merged(odd, even, bytes);
}

#[test]
fn a_name_in_both_is_written_once() {
    assert_merged(FIRST, FIRST, FIRST);
    assert_merged(&list(&["A", "B"]), &list(&["B"]), &list(&["A", "B"]));
    let most = digits(0, 2000);
    assert_merged(&most, &most, &most);
    // What begins another name is not that name.
    let long = [b'M'; 200];
    let [shorter, longer] = [&long[1..], &long].map(|name| list(&[str::from_utf8(name).unwrap()]));
    assert_merged(&longer, &shorter, &[&shorter[..], &longer].concat());
}

#[test]
fn an_accepted_merge_gives_the_bytes_written_and_list_0() {
    let (answer, room) = merge(FIRST, SECOND, 100);
    assert_eq!(answer, self::answer(0, 37, 0));
    assert_eq!(room[37..], [0xAA; 63]);
}

#[test]
fn a_step_shows_the_lesser_of_the_two_heads() {
    let lists = [FIRST, SECOND];
    assert_eq!(head(lists, [0, 0]), (2, &b"Ma"[..]));
    assert_eq!(head(lists, [1, 1]), (2, &b"Mar"[..]));
    assert_eq!(head(lists, [1, 2]), (2, &b"Marina"[..]));
    assert_eq!(head(lists, [1, 3]), (1, &b"Market Square"[..]));
    assert_eq!(head(lists, [3, 4]), (2, &b"Zoo"[..]));
}

#[test]
fn a_head_is_a_part_of_the_list_it_stands_in_without_the_length_byte() {
    let shown = list_head(FIRST, SECOND, 1, 3);
    let part = Head {
        list: 1,
        start: 5,
        length: 13,
    };
    assert_eq!(shown, part);
    let shown = list_head(FIRST, SECOND, 0, 0);
    let part = Head {
        list: 2,
        start: 1,
        length: 2,
    };
    assert_eq!(shown, part);
}

#[test]
fn of_equal_heads_the_first_lists_is_shown() {
    assert_eq!(head([FIRST, SECOND], [0, 1]), (1, &b"Mar"[..]));
    assert_eq!(head([SECOND, FIRST], [1, 0]), (1, &b"Mar"[..]));
    assert_eq!(head([FIRST, SECOND], [2, 3]), (1, &b"Park"[..]));
    // Once that is passed, the second list's is the lesser.
    assert_eq!(head([FIRST, SECOND], [1, 1]), (2, &b"Mar"[..]));
}

#[test]
fn an_exhausted_list_gives_the_others_head() {
    for all in ALL {
        assert_eq!(head([FIRST, SECOND], [all, 0]), (2, &b"Ma"[..]));
        assert_eq!(head([FIRST, SECOND], [all, 4]), (2, &b"Zoo"[..]));
        assert_eq!(head([FIRST, SECOND], [0, all]), (1, &b"Mar"[..]));
        assert_eq!(head([&[], SECOND], [all, 1]), (2, &b"Mar"[..]));
        assert_eq!(head([FIRST, &[]], [2, all]), (1, &b"Park"[..]));
    }
    assert_eq!(head([&[], SECOND], [0, 0]), (2, &b"Ma"[..]));
}

#[test]
fn two_exhausted_lists_give_an_empty_part_of_the_first() {
    for one in ALL {
        for other in ALL {
            assert_eq!(list_head(FIRST, SECOND, one, other), EMPTY);
        }
    }
    assert_eq!(list_head(&[], &[], 0, 0), EMPTY);
}

#[test]
fn a_count_at_the_lists_own_means_exhausted_and_one_less_does_not() {
    assert_eq!(list_head(FIRST, SECOND, 3, 5), EMPTY);
    assert_eq!(head([FIRST, SECOND], [3, 4]), (2, &b"Zoo"[..]));
    assert_eq!(head([FIRST, SECOND], [2, 5]), (1, &b"Park"[..]));
}

#[test]
fn steps_show_the_merged_list_name_by_name() {
    let mut passed = [0, 0];
    let mut shown: Vec<&[u8]> = Vec::new();
    loop {
        let (list, name) = head([FIRST, SECOND], passed);
        if name.is_empty() {
            break;
        }
        passed[list - 1] += 1;
        // An equal head of the second list is shown once more: it is passed, too.
        if shown.last() != Some(&name) {
            shown.push(name);
        }
    }
    let expected: [&[u8]; 6] = [b"Ma", b"Mar", b"Marina", b"Market Square", b"Park", b"Zoo"];
    assert_eq!(shown, expected);
    assert_eq!(passed, [3, 5]);
}

#[test]
fn merge_and_step_judge_all_of_both_lists_first() {
    for (bad, code, record) in bad_lists() {
        let first = answer(code, record, 1);
        let second = answer(code, record, 2);
        for (lists, refused) in [([&bad, FIRST], first), ([FIRST, &bad], second)] {
            assert_refused(lists[0], lists[1], refused);
            assert_eq!(list_judge(lists[0], lists[1]), refused);
            // Also where the head is not the bad record, or there is none left.
            for passed in [[0, 0], [1, 1], [usize::MAX; 2], [usize::MAX, 0]] {
                let shown = list_head(lists[0], lists[1], passed[0], passed[1]);
                assert_eq!(shown, EMPTY);
            }
        }
    }
}

#[test]
fn the_first_lists_refusal_comes_before_the_seconds() {
    let (empty_record, equal) = (b"\x01A\x01B\0".to_vec(), list(&["A", "A"]));
    assert_refused(&empty_record, &equal, answer(5, 2, 1));
    assert_refused(&equal, &empty_record, answer(6, 1, 1));
    assert_eq!(list_judge(&empty_record, &equal), answer(5, 2, 1));
    assert_eq!(list_judge(&equal, &empty_record), answer(6, 1, 1));
}

#[test]
fn over_2000_merged_names_are_refused_with_7() {
    let refused = answer(7, 2000, 0);
    assert_refused(&digits(0, 2000), &digits(2000, 1), refused);
    assert_refused(&digits(0, 1000), &digits(999, 1002), refused);
    assert_merged(&digits(0, 1000), &digits(999, 1001), &digits(0, 2000));
}

#[test]
fn a_list_has_no_limit_of_its_own() {
    let (many, most) = (digits(0, 2001), digits(0, 2000));
    let refused = answer(7, 2000, 0);
    assert_refused(&many, &[], refused);
    assert_refused(&[], &many, refused);
    assert_refused(&many, &many, refused);
    // For a step there is no 7.
    assert_eq!(list_judge(&many, &digits(0, 5000)), answer(0, 0, 0));
    assert_eq!(head([&many, &most], [2000, 2000]), (1, &b"2000"[..]));
    assert_eq!(head([&most, &many], [2000, 2000]), (2, &b"2000"[..]));
}

#[test]
fn refusals_of_the_lists_come_before_7_and_7_before_4() {
    let many = digits(0, 2001);
    for (bad, code, record) in bad_lists() {
        assert_refused(&bad, &many, answer(code, record, 1));
        assert_refused(&many, &bad, answer(code, record, 2));
    }
    let (refused, _) = merge(&many, &[], 0);
    assert_eq!(refused, answer(7, 2000, 0));
}

#[test]
fn a_room_one_byte_short_is_refused_with_4_and_nothing_is_written() {
    for (first, second) in [(FIRST, SECOND), (FIRST, FIRST), (&[], SECOND)] {
        let (accepted, _) = merge(first, second, 100);
        let expected = (answer(4, 0, 0), vec![0xAA; accepted.first - 1]);
        assert_eq!(merge(first, second, accepted.first - 1), expected);
        assert_eq!(merge(first, second, 0).0, answer(4, 0, 0));
    }
    assert_eq!(merge(&[], &[], 0).0, answer(0, 0, 0));
}

#[test]
fn two_sound_lists_are_judged_with_0() {
    for (first, second) in [(FIRST, SECOND), (FIRST, FIRST), (&[], &[])] {
        assert_eq!(list_judge(first, second), answer(0, 0, 0));
    }
}
