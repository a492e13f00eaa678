//! Document 01, "Names, symbols and order".

mod common;

use common::{mar_names, names, MAR_LIST};
use model::names::{
    is_less, is_sound_list, is_strictly_rising, leading_equal, read_names, symbols,
};
use model::{read_list, write_list, Rule};

// Symbols

#[test]
fn a_byte_is_the_symbol_one_above_it_and_the_end_symbol_comes_last() {
    assert_eq!(symbols(Rule::Plain, b"Mar"), [78, 98, 115, 0]);
    assert_eq!(symbols(Rule::Plain, &[0, 255]), [1, 256, 0]);
}

#[test]
fn the_empty_question_is_the_end_symbol_alone() {
    assert_eq!(symbols(Rule::Plain, b""), [0]);
}

// Order

#[test]
fn the_first_differing_symbol_decides() {
    assert!(is_less(Rule::Plain, b"Marina", b"Market Square"));
    assert!(!is_less(Rule::Plain, b"Market Square", b"Marina"));
    assert!(is_less(Rule::Plain, b"Mb", b"Nab"));
}

#[test]
fn a_name_comes_before_its_own_extensions() {
    assert!(is_less(Rule::Plain, b"Mar", b"Marina"));
    assert!(!is_less(Rule::Plain, b"Marina", b"Mar"));
}

#[test]
fn a_name_comes_before_itself_with_a_zero_byte_behind() {
    // The end symbol is 0 and the byte 0 is the symbol 1: not the same.
    assert!(is_less(Rule::Plain, b"Mar", b"Mar\0"));
    assert!(!is_less(Rule::Plain, b"Mar\0", b"Mar"));
}

#[test]
fn byte_255_is_ordinary_and_has_extensions_above_it() {
    assert!(is_less(Rule::Plain, &[254, 255], &[255]));
    assert!(is_less(Rule::Plain, &[255], &[255, 0]));
    assert!(is_less(Rule::Plain, &[255, 254], &[255, 255]));
    assert!(is_less(Rule::Plain, &[255, 255], &[255, 255, 255]));
}

#[test]
fn bytes_above_127_are_above_those_below() {
    assert!(is_less(Rule::Plain, &[127], &[128]));
    assert!(!is_less(Rule::Plain, &[128], &[127]));
}

#[test]
fn nothing_is_less_than_itself() {
    assert!(!is_less(Rule::Plain, b"Mar", b"Mar"));
    assert!(!is_less(Rule::Plain, b"", b""));
}

#[test]
fn the_order_of_symbols_is_the_usual_order_of_byte_strings() {
    let alphabet = [0u8, 1, 97, 254, 255];
    let mut strings: Vec<Vec<u8>> = vec![vec![]];
    for length in 0..3 {
        let shorter = strings.clone();
        for string in shorter.iter().filter(|string| string.len() == length) {
            for &byte in &alphabet {
                strings.push([string.as_slice(), &[byte]].concat());
            }
        }
    }
    assert_eq!(strings.len(), 1 + 5 + 25 + 125);
    for one in &strings {
        for other in &strings {
            assert_eq!(
                is_less(Rule::Plain, one, other),
                one < other,
                "{one:?} {other:?}"
            );
        }
    }
}

#[test]
fn shared_counts_stop_at_the_first_difference_and_at_either_end() {
    assert_eq!(leading_equal(b"Marina", b"Market Square"), 3);
    assert_eq!(leading_equal(b"Mar", b"Marina"), 3);
    assert_eq!(leading_equal(b"Marina", b"Mar"), 3);
    assert_eq!(leading_equal(b"Mar", b"Bar"), 0);
    assert_eq!(leading_equal(b"", b"Mar"), 0);
    assert_eq!(leading_equal(b"Mar", b"Mar"), 3);
}

#[test]
fn a_list_rises_strictly_or_not_at_all() {
    assert!(is_strictly_rising(Rule::Plain, &[]));
    assert!(is_strictly_rising(Rule::Plain, &names(&["Mar"])));
    assert!(is_strictly_rising(Rule::Plain, &mar_names()));
    assert!(!is_strictly_rising(Rule::Plain, &names(&["Mar", "Mar"])));
    assert!(!is_strictly_rising(Rule::Plain, &names(&["Marina", "Mar"])));
    assert!(!is_strictly_rising(
        Rule::Plain,
        &names(&["a", "c", "b", "d"])
    ));
}

#[test]
fn a_sound_list_has_names_of_1_to_200_bytes() {
    assert!(is_sound_list(Rule::Plain, &[]));
    assert!(is_sound_list(Rule::Plain, &mar_names()));
    assert!(is_sound_list(Rule::Plain, &[vec![7; 200]]));
    assert!(!is_sound_list(Rule::Plain, &[vec![7; 201]]));
    assert!(!is_sound_list(Rule::Plain, &[vec![]]));
}

#[test]
fn a_sound_list_has_at_most_2000_names() {
    assert!(is_sound_list(Rule::Plain, &common::many_names(2000)));
    assert!(!is_sound_list(Rule::Plain, &common::many_names(2001)));
}

// Lists

#[test]
fn a_list_is_read_record_by_record() {
    assert_eq!(read_list(Rule::Plain, MAR_LIST), Ok(mar_names()));
}

#[test]
fn the_empty_list_is_a_list_of_no_names() {
    assert_eq!(read_list(Rule::Plain, b""), Ok(vec![]));
}

#[test]
fn writing_a_list_puts_a_length_byte_before_each_name() {
    assert_eq!(write_list(&mar_names()), MAR_LIST);
    assert_eq!(write_list(&[]), b"");
}

#[test]
fn names_may_hold_every_byte() {
    let every: Vec<Vec<u8>> = (0..=255).map(|byte| vec![byte]).collect();
    assert_eq!(read_list(Rule::Plain, &write_list(&every)), Ok(every));
}

// Refusal 5

#[test]
fn refusal_5_for_a_record_of_length_0() {
    assert_eq!(read_list(Rule::Plain, b"\0"), Err((5, 0)));
    assert_eq!(read_list(Rule::Plain, b"\x03Mar\0"), Err((5, 1)));
    assert_eq!(read_list(Rule::Plain, b"\x03Mar\0\x03Nar"), Err((5, 1)));
}

#[test]
fn refusal_5_for_a_record_above_200() {
    for length in 201..=255u8 {
        let mut list = vec![length];
        list.extend(vec![b'a'; 300]);
        assert_eq!(
            read_list(Rule::Plain, &list),
            Err((5, 0)),
            "length {length}"
        );
    }
}

#[test]
fn a_record_of_200_is_read() {
    let name = vec![b'a'; 200];
    assert_eq!(
        read_list(Rule::Plain, &write_list(std::slice::from_ref(&name))),
        Ok(vec![name])
    );
}

#[test]
fn refusal_5_for_a_record_that_runs_past_the_list() {
    assert_eq!(read_list(Rule::Plain, b"\x04Mar"), Err((5, 0)));
    assert_eq!(read_list(Rule::Plain, b"\x03Mar\x07Marina"), Err((5, 1)));
}

#[test]
fn refusal_5_for_a_bare_length_byte_at_the_end() {
    assert_eq!(read_list(Rule::Plain, b"\x01"), Err((5, 0)));
    assert_eq!(read_list(Rule::Plain, b"\x03Mar\x06"), Err((5, 1)));
}

#[test]
fn every_cut_inside_a_record_is_refused_with_that_record() {
    // Records of the worked example begin at 0, 4 and 11 and end at 25.
    for length in 0..MAR_LIST.len() {
        let read = read_list(Rule::Plain, &MAR_LIST[..length]);
        match length {
            0 | 4 | 11 => assert!(read.is_ok(), "cut at {length}"),
            1..=3 => assert_eq!(read, Err((5, 0)), "cut at {length}"),
            5..=10 => assert_eq!(read, Err((5, 1)), "cut at {length}"),
            _ => assert_eq!(read, Err((5, 2)), "cut at {length}"),
        }
    }
}

// Refusal 6

#[test]
fn refusal_6_for_equal_neighbours() {
    assert_eq!(read_list(Rule::Plain, b"\x03Mar\x03Mar"), Err((6, 1)));
}

#[test]
fn refusal_6_for_a_name_below_the_one_before() {
    assert_eq!(read_list(Rule::Plain, b"\x06Marina\x03Mar"), Err((6, 1)));
    assert_eq!(
        read_list(Rule::Plain, b"\x03Mar\x06Marina\x03Max\x03Mas"),
        Err((6, 3))
    );
}

#[test]
fn refusal_6_looks_at_the_name_before_only() {
    // The fourth name equals the first, but it is below the third as well.
    assert_eq!(read_list(Rule::Plain, b"\x01a\x01b\x01c\x01a"), Err((6, 3)));
}

// Refusal 7

#[test]
fn refusal_7_for_a_2001st_name() {
    let list = write_list(&common::many_names(2001));
    assert_eq!(read_list(Rule::Plain, &list), Err((7, 2000)));
}

#[test]
fn the_2000th_name_is_read() {
    let names = common::many_names(2000);
    assert_eq!(read_list(Rule::Plain, &write_list(&names)), Ok(names));
}

#[test]
fn refusal_7_for_a_name_more_than_a_list_may_have() {
    assert_eq!(read_names(Rule::Plain, MAR_LIST, 3), Ok(mar_names()));
    assert_eq!(read_names(Rule::Plain, MAR_LIST, 2), Err((7, 2)));
    assert_eq!(read_names(Rule::Plain, MAR_LIST, 0), Err((7, 0)));
    assert_eq!(read_names(Rule::Plain, b"", 0), Ok(vec![]));
}

// Order of 5, 6 and 7

#[test]
fn in_one_record_5_comes_before_6() {
    // The second record is cut, and what is visible of it falls.
    assert_eq!(read_list(Rule::Plain, b"\x03Mar\x04Lar"), Err((5, 1)));
    assert_eq!(read_list(Rule::Plain, b"\x03Mar\0"), Err((5, 1)));
}

#[test]
fn in_the_2001st_record_5_and_6_come_before_7() {
    let good = write_list(&common::many_names(2000));
    let with = |record: &[u8]| read_list(Rule::Plain, &[&good[..], record].concat());
    assert_eq!(with(b"\0"), Err((5, 2000)));
    assert_eq!(with(b"\xC9"), Err((5, 2000)));
    assert_eq!(with(b"\x05Mar"), Err((5, 2000)));
    assert_eq!(with(&[2, 7, 249]), Err((6, 2000)));
    assert_eq!(with(&[2, 7, 248]), Err((6, 2000)));
    assert_eq!(with(&[2, 8, 0]), Err((7, 2000)));
}

#[test]
fn the_first_bad_record_ends_the_reading() {
    // A falling record hides a later one of length 0, and the other way round.
    assert_eq!(read_list(Rule::Plain, b"\x01b\x01a\0"), Err((6, 1)));
    assert_eq!(read_list(Rule::Plain, b"\x01b\0\x01a"), Err((5, 1)));
    let mut list = write_list(&common::many_names(2001));
    list.push(0);
    assert_eq!(read_list(Rule::Plain, &list), Err((7, 2000)));
}
