//! Document 01, "Easy errors here", in its order.

mod common;

use common::answers::{book_exact, book_nearest, book_place, book_range};
use common::{built, names, no, yes, BOOK_BY_2, BOOK_BY_4};
use model::book_check;

#[test]
fn a_leaf_reached_by_maxim_is_no_match() {
    // The descent looks at the fourth byte only, finds i and reaches Marina.
    assert_eq!(book_nearest(&BOOK_BY_2, b"Maxim"), yes(1, 2));
    assert_eq!(book_exact(&BOOK_BY_2, b"Maxim"), yes(0, 0));
    assert_eq!(book_range(&BOOK_BY_2, b"Maxim"), yes(3, 0));
    // The same with a name of the same length.
    assert_eq!(book_exact(&BOOK_BY_2, b"Maxina"), yes(0, 0));
}

#[test]
fn a_range_of_255_ends_where_the_names_end() {
    // No byte can be raised here, yet each range has an end.
    let list = vec![
        vec![254, 255],
        vec![255],
        vec![255, 254],
        vec![255, 255],
        vec![255, 255, 255],
    ];
    let book = built(&list, 2);
    assert_eq!(book_range(&book, &[254]), yes(0, 1));
    assert_eq!(book_range(&book, &[254, 255]), yes(0, 1));
    assert_eq!(book_range(&book, &[255]), yes(1, 4));
    assert_eq!(book_range(&book, &[255, 255]), yes(3, 2));
    assert_eq!(book_range(&book, &[255, 255, 255]), yes(4, 1));
    assert_eq!(book_range(&book, &[255, 255, 255, 255]), yes(5, 0));
}

#[test]
fn a_range_of_254_does_not_take_the_names_of_255() {
    let book = built(&[vec![254], vec![254, 255], vec![255]], 3);
    assert_eq!(book_range(&book, &[254]), yes(0, 2));
}

#[test]
fn a_shared_count_smaller_than_it_could_be_is_no_book() {
    // Mar, Marina in one block, but Marina written as 02 04 rina.
    #[rustfmt::skip]
    let bytes = [
        0x00, 0x03, 0x4D, 0x61, 0x72,
        0x02, 0x04, 0x72, 0x69, 0x6E, 0x61,
        0x00, 0x00,
        0x00, 0x00, 0x03, 0x00, 0x00, 0x00, 0x02, 0x00, 0x03, 0x00, 0x06, 0x00,
        0x00, 0x00, 0x04, 0x00, 0x00, 0x00, 0x01, 0x00, 0x01, 0x00, 0x03, 0x00,
        0x6A, 0x00, 0x07, 0x00, 0x01, 0x00, 0x01, 0x00, 0x01, 0x00, 0x06, 0x00,
        0x02, 0x00, 0x02, 0x00, 0x0B, 0x00, 0x0D, 0x00, 0x03, 0x00, 0x41, 0x00,
        0x4E, 0x42, 0x4B, 0x32,
    ];
    assert_eq!(bytes.len(), 65);
    assert_eq!(book_check(&bytes), no(2));
    // With 03 03 ina, and everything behind it one byte earlier, it is one.
    let good = built(&names(&["Mar", "Marina"]), 2);
    assert_eq!(good.len(), 64);
    assert_eq!(good[10..48], bytes[11..49]);
}

#[test]
fn a_block_s_first_name_stores_count_0() {
    assert_eq!(BOOK_BY_2[10], 0);
    assert_eq!(built(&common::mar_names(), 2)[10], 0);
    // In one block the same name stores 3.
    assert_eq!(BOOK_BY_4[10], 3);
}

#[test]
fn place_maxim_is_behind_the_names_that_a_mismatch_inside_an_edge_leaves_below() {
    assert_eq!(book_place(&BOOK_BY_2, b"Maxim"), yes(3, 0));
    // And a smaller question is before all of them.
    assert_eq!(book_place(&BOOK_BY_2, b"Maaim"), yes(0, 0));
    // The same inside the edge of a leaf: Marina against Marixa and Mariaa.
    assert_eq!(book_place(&BOOK_BY_2, b"Marixa"), yes(2, 0));
    assert_eq!(book_place(&BOOK_BY_2, b"Mariaa"), yes(1, 0));
}

#[test]
fn mar_is_present_although_it_is_an_inner_path_of_others() {
    assert_eq!(book_exact(&BOOK_BY_2, b"Mar"), yes(0, 1));
    assert_eq!(book_nearest(&BOOK_BY_2, b"Mar"), yes(0, 3));
    // Without the name itself, the inner path is no match.
    let book = built(&names(&["Marina", "Market Square"]), 2);
    assert_eq!(book_exact(&book, b"Mar"), yes(0, 0));
    assert_eq!(book_range(&book, b"Mar"), yes(0, 2));
}
