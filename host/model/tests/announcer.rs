//! Document 02, change request 9: the clip of a typed text and the clips of a route,
//! sentence by sentence, with their refusals. A brute force stands in
//! `announcer_brute_force.rs`.

mod common;

use common::{
    answer, built, built_as, many_names, marked_as, names, no, yes, BOOK_BY_2, BOOK_BY_4,
    EMPTY_BOOK,
};
use model::{announce_clip, announce_route, book_exact, book_range, Answer, BookKind};

/// The clips of Mar, Marina and Market Square.
const CLIPS: [u16; 3] = [11, 12, 13];

/// Bytes that are no book.
const NO_BOOK: &[u8] = b"no book";

/// What a room holds before a call, so that every change shows.
const FILLING: u16 = 0xAAAA;

/// So many clips, of which no two are the same that stand less than 65,536 apart.
fn many_clips(wanted: usize) -> Vec<u16> {
    (0..wanted)
        .map(|position| (5000 + position) as u16)
        .collect()
}

/// The clip call's answer to a text, with the worked example's book and clips.
fn clip_of(text: &str) -> Answer {
    announce_clip(&BOOK_BY_2, &CLIPS, text.as_bytes())
}

/// Makes the route call with a room of this length; its answer, and the room.
fn route(
    book: &[u8],
    clips: &[u16],
    positions: &[usize],
    room_length: usize,
) -> (Answer, Vec<u16>) {
    let mut room = vec![FILLING; room_length];
    let answer = announce_route(book, clips, positions, &mut room);
    (answer, room)
}

/// Asserts that a route gives these clips, in a room of just their length and in
/// longer ones, whose rest is as it was.
fn assert_row(book: &[u8], clips: &[u16], positions: &[usize], row: &[u16]) {
    for spare in [0, 1, 300] {
        let (answer, room) = route(book, clips, positions, row.len() + spare);
        assert_eq!(answer, yes(2 * row.len(), 0), "{positions:?}");
        assert_eq!(room, [row, &vec![FILLING; spare]].concat());
    }
}

/// Asserts that a route is refused like this and leaves its room as it was.
fn assert_refused(
    book: &[u8],
    clips: &[u16],
    positions: &[usize],
    room_length: usize,
    expected: Answer,
) {
    let (answer, room) = route(book, clips, positions, room_length);
    assert_eq!(answer, expected, "{positions:?}");
    assert_eq!(room, vec![FILLING; room_length]);
}

// "An exact name gives its clip"

#[test]
fn an_exact_name_gives_its_clip() {
    assert_eq!(clip_of("Mar"), yes(1, 11));
    assert_eq!(clip_of("Marina"), yes(1, 12));
    assert_eq!(clip_of("Market Square"), yes(1, 13));
    assert_eq!(announce_clip(&BOOK_BY_4, &CLIPS, b"Marina"), yes(1, 12));
}

#[test]
fn mar_gives_its_own_clip_though_three_names_begin_so() {
    assert_eq!(book_range(&BOOK_BY_2, b"Mar").answer(), yes(0, 3));
    assert_eq!(clip_of("Mar"), yes(1, 11));
}

#[test]
fn every_name_that_begins_the_next_gives_its_own_clip() {
    let chain: Vec<Vec<u8>> = (1..=200).map(|length| vec![b'a'; length]).collect();
    let (book, clips) = (built(&chain, 7), many_clips(200));
    for (name, &clip) in chain.iter().zip(&clips) {
        assert_eq!(announce_clip(&book, &clips, name), yes(1, clip.into()));
    }
}

// "otherwise a range of exactly one name gives that clip"

#[test]
fn a_range_of_exactly_one_name_gives_its_clip() {
    for text in ["Mari", "Marin"] {
        assert_eq!(clip_of(text), yes(1, 12));
    }
    for text in ["Mark", "Market", "Market ", "Market Squar"] {
        assert_eq!(clip_of(text), yes(1, 13));
    }
}

#[test]
fn the_only_name_of_a_range_may_be_the_first_or_the_last() {
    let book = built(&names(&["Abbey", "Mill", "Moor", "Zoo"]), 2);
    let clips = [7, 8, 9, 10];
    for (text, expected) in [
        ("A", yes(1, 7)),
        ("Mi", yes(1, 8)),
        ("Mo", yes(1, 9)),
        ("Z", yes(1, 10)),
        ("M", yes(0, 2)),
    ] {
        assert_eq!(announce_clip(&book, &clips, text.as_bytes()), expected);
    }
}

#[test]
fn a_range_of_byte_255_gives_the_clip_of_its_only_name() {
    let book = built(&[vec![254], vec![255, 255, 0]], 2);
    assert_eq!(announce_clip(&book, &[5, 6], &[255]), yes(1, 6));
    assert_eq!(announce_clip(&book, &[5, 6], &[255, 255]), yes(1, 6));
    assert_eq!(announce_clip(&book, &[5, 6], &[255, 255, 255]), yes(0, 0));
}

// "otherwise it answers how many names begin with the text"

#[test]
fn a_range_of_several_names_gives_their_number() {
    for text in ["", "M", "Ma"] {
        assert_eq!(clip_of(text), yes(0, 3));
    }
    let book = built(&names(&["Marina", "Market Square"]), 2);
    assert_eq!(announce_clip(&book, &[12, 13], b"Mar"), yes(0, 2));
}

#[test]
fn a_text_that_no_name_begins_with_gives_0() {
    for text in ["X", "Mas", "Marinas", "Maxim", "mar", "Zoo", "A"] {
        assert_eq!(clip_of(text), yes(0, 0), "{text}");
    }
}

#[test]
fn the_empty_text_gives_an_only_name_s_clip_and_otherwise_the_number_of_names() {
    assert_eq!(announce_clip(&EMPTY_BOOK, &[], b""), yes(0, 0));
    let one = built(&names(&["Mar"]), 2);
    assert_eq!(announce_clip(&one, &[11], b""), yes(1, 11));
    let two = built(&names(&["Mar", "Marina"]), 2);
    assert_eq!(announce_clip(&two, &[11, 12], b""), yes(0, 2));
    assert_eq!(announce_clip(&BOOK_BY_2, &CLIPS, b""), yes(0, 3));
    let many = built(&many_names(2000), 64);
    assert_eq!(announce_clip(&many, &many_clips(2000), b""), yes(0, 2000));
}

#[test]
fn a_book_without_names_answers_0_and_not_10() {
    for text in [&b""[..], b"Mar", &[b'M'; 200]] {
        assert_eq!(announce_clip(&EMPTY_BOOK, &[], text), yes(0, 0));
    }
}

#[test]
fn a_clip_and_a_number_of_names_are_told_apart() {
    // Clips that are 0, 1 and 3, as numbers of names are.
    let clips = [3, 0, 1];
    assert_eq!(announce_clip(&BOOK_BY_2, &clips, b"Mar"), yes(1, 3));
    assert_eq!(announce_clip(&BOOK_BY_2, &clips, b"M"), yes(0, 3));
    assert_eq!(announce_clip(&BOOK_BY_2, &clips, b"Mari"), yes(1, 0));
    assert_eq!(announce_clip(&BOOK_BY_2, &clips, b"X"), yes(0, 0));
    assert_eq!(announce_clip(&BOOK_BY_2, &clips, b"Mark"), yes(1, 1));
}

#[test]
fn a_clip_is_any_number_of_two_bytes() {
    for clip in [0, 1, 255, 256, 32_768, 65_535] {
        let clips = [clip, 9, clip];
        let expected = yes(1, clip.into());
        assert_eq!(announce_clip(&BOOK_BY_2, &clips, b"Mar"), expected);
        assert_eq!(announce_clip(&BOOK_BY_2, &clips, b"Mark"), expected);
        assert_row(&BOOK_BY_2, &clips, &[0, 1, 2], &[clip, 9, clip]);
    }
}

#[test]
fn clips_may_be_the_same_and_need_not_rise() {
    let clips = [13, 13, 11];
    assert_eq!(announce_clip(&BOOK_BY_2, &clips, b"Marina"), yes(1, 13));
    assert_eq!(announce_clip(&BOOK_BY_2, &clips, b"Mark"), yes(1, 11));
    assert_row(&BOOK_BY_2, &clips, &[2, 1, 0], &[11, 13, 13]);
}

#[test]
fn the_last_of_2000_names_has_its_clip() {
    let list = many_names(2000);
    let (book, clips) = (built(&list, 64), many_clips(2000));
    for position in [0, 1, 249, 250, 1998, 1999] {
        let expected = yes(1, clips[position].into());
        assert_eq!(announce_clip(&book, &clips, &list[position]), expected);
    }
    assert_eq!(announce_clip(&book, &clips, &[7]), yes(0, 250));
    assert_row(&book, &clips, &[1999, 0], &[6999, 5000]);
    assert_refused(&book, &clips, &[1999, 2000], 9, answer(3, 1, 0));
}

// "It takes a book of either symbol rule"

#[test]
fn a_folded_book_gives_clips_by_its_own_rule() {
    let list = names(&["MAR", "marina", "Market Square"]);
    let book = built_as(BookKind::Folded, &list, 2);
    for text in ["MAR", "mar", "Mar", "mAr"] {
        let asked = announce_clip(&book, &CLIPS, text.as_bytes());
        assert_eq!(asked, yes(1, 11), "{text}");
    }
    for (text, expected) in [
        ("MARINA", yes(1, 12)),
        ("mari", yes(1, 12)),
        ("MARI", yes(1, 12)),
        ("mark", yes(1, 13)),
        ("MARKET SQUARE", yes(1, 13)),
        ("ma", yes(0, 3)),
        ("MA", yes(0, 3)),
        ("x", yes(0, 0)),
        ("[", yes(0, 0)),
    ] {
        let asked = announce_clip(&book, &CLIPS, text.as_bytes());
        assert_eq!(asked, expected, "{text}");
    }
    assert_row(&book, &CLIPS, &[2, 0, 1], &[13, 11, 12]);
}

#[test]
fn a_plain_book_tells_capitals_from_small_letters() {
    let book = built(&names(&["MAR", "Mar", "Marina", "mar"]), 2);
    let clips = [1, 2, 3, 4];
    for (text, expected) in [
        ("MAR", yes(1, 1)),
        ("Mar", yes(1, 2)),
        ("mar", yes(1, 4)),
        ("MA", yes(1, 1)),
        ("Ma", yes(0, 2)),
        ("ma", yes(1, 4)),
        ("M", yes(0, 3)),
        ("mari", yes(0, 0)),
    ] {
        let asked = announce_clip(&book, &clips, text.as_bytes());
        assert_eq!(asked, expected, "{text}");
    }
}

#[test]
fn a_folded_book_without_names_and_one_with_a_single_name() {
    let none = built_as(BookKind::Folded, &[], 2);
    assert_eq!(announce_clip(&none, &[], b"mar"), yes(0, 0));
    assert_row(&none, &[], &[], &[]);
    let one = built_as(BookKind::Folded, &names(&["MAR"]), 2);
    assert_eq!(announce_clip(&one, &[11], b""), yes(1, 11));
    assert_eq!(announce_clip(&one, &[11], b"ma"), yes(1, 11));
    assert_eq!(announce_clip(&one, &[11], b"mari"), yes(0, 0));
}

#[test]
fn the_mark_tells_the_rule_and_under_the_other_mark_it_is_no_book() {
    let list = names(&["MAR", "marina"]);
    let book = built_as(BookKind::Folded, &list, 2);
    let other = marked_as(BookKind::Plain, &book);
    assert_eq!(announce_clip(&book, &[1, 2], b"mar"), yes(1, 1));
    assert_eq!(announce_clip(&other, &[1, 2], b"mar"), no(2));
    assert_refused(&other, &[1, 2], &[0], 9, no(2));
    // In small letters both kinds have the same names, nodes and clips.
    let small = built(&names(&["mar", "marina"]), 2);
    let folded = marked_as(BookKind::Folded, &small);
    assert_eq!(announce_clip(&small, &[1, 2], b"MAR"), yes(0, 0));
    assert_eq!(announce_clip(&folded, &[1, 2], b"MAR"), yes(1, 1));
}

// Refusals of the clip call: 2; 16; 1

#[test]
fn a_text_to_bytes_that_are_no_book_is_refused_with_2() {
    for bytes in [NO_BOOK, b"", &BOOK_BY_2[1..], &BOOK_BY_2[..92]] {
        assert_eq!(announce_clip(bytes, &CLIPS, b"Mar"), no(2));
        assert_eq!(announce_clip(bytes, &[], b"Mar"), no(2));
    }
}

#[test]
fn a_table_that_has_not_n_clips_is_refused_with_16() {
    for length in [0, 1, 2, 4, 5, 6, 256 + 3, 65_536 + 3] {
        let clips = many_clips(length);
        for text in ["Mar", "Mari", "M", "X", ""] {
            let asked = announce_clip(&BOOK_BY_2, &clips, text.as_bytes());
            assert_eq!(asked, no(16), "{length}");
        }
        assert_refused(&BOOK_BY_2, &clips, &[0], 9, no(16));
        assert_refused(&BOOK_BY_2, &clips, &[], 0, no(16));
    }
    for length in [1, 2, 65_536] {
        let clips = many_clips(length);
        assert_eq!(announce_clip(&EMPTY_BOOK, &clips, b""), no(16));
        assert_refused(&EMPTY_BOOK, &clips, &[], 9, no(16));
    }
    let many = built(&many_names(2000), 64);
    for length in [1999, 2001] {
        assert_eq!(announce_clip(&many, &many_clips(length), b""), no(16));
        assert_refused(&many, &many_clips(length), &[0], 9, no(16));
    }
}

#[test]
fn a_text_of_201_bytes_is_refused_with_1_and_one_of_200_is_answered() {
    for length in [201, 202, 255, 256, 259, 65_539] {
        let text = vec![b'M'; length];
        assert_eq!(announce_clip(&BOOK_BY_2, &CLIPS, &text), no(1));
        assert_eq!(announce_clip(&EMPTY_BOOK, &[], &text), no(1));
    }
    let long = vec![b'n'; 200];
    let book = built(std::slice::from_ref(&long), 2);
    assert_eq!(announce_clip(&book, &[7], &long), yes(1, 7));
    assert_eq!(announce_clip(&book, &[7], &long[..199]), yes(1, 7));
    assert_eq!(announce_clip(&book, &[7], &[b'n'; 201]), no(1));
    assert_eq!(announce_clip(&BOOK_BY_2, &CLIPS, &long), yes(0, 0));
}

#[test]
fn the_clip_call_gives_2_before_16_and_1() {
    assert_eq!(announce_clip(NO_BOOK, &CLIPS[..2], b"Mar"), no(2));
    assert_eq!(announce_clip(NO_BOOK, &CLIPS, &[b'M'; 201]), no(2));
    assert_eq!(announce_clip(NO_BOOK, &[], &[b'M'; 201]), no(2));
    // also with more clips than any book has names
    assert_eq!(announce_clip(NO_BOOK, &many_clips(2001), b"Mar"), no(2));
}

#[test]
fn the_clip_call_gives_16_before_1() {
    for clips in [&CLIPS[..2], &[11, 12, 13, 14], &[]] {
        assert_eq!(announce_clip(&BOOK_BY_2, clips, &[b'M'; 201]), no(16));
    }
    assert_eq!(announce_clip(&EMPTY_BOOK, &[11], &[b'M'; 201]), no(16));
}

// "A second call turns a route, up to 120 positions, into a row of clips"

#[test]
fn a_route_gives_the_clips_in_its_own_order() {
    assert_row(&BOOK_BY_2, &CLIPS, &[0, 1, 2], &[11, 12, 13]);
    assert_row(&BOOK_BY_2, &CLIPS, &[2, 1, 0], &[13, 12, 11]);
    assert_row(&BOOK_BY_4, &CLIPS, &[1], &[12]);
}

#[test]
fn positions_may_come_again() {
    assert_row(&BOOK_BY_2, &CLIPS, &[1, 1, 0, 1], &[12, 12, 11, 12]);
    assert_row(&BOOK_BY_2, &CLIPS, &[2; 120], &[13; 120]);
}

#[test]
fn an_accepted_route_gives_two_bytes_for_each_position() {
    for length in [0, 1, 2, 60, 119, 120] {
        let (answer, _) = route(&BOOK_BY_2, &CLIPS, &vec![0; length], 120);
        assert_eq!(answer, yes(2 * length, 0));
    }
}

#[test]
fn an_empty_route_is_accepted_and_writes_nothing() {
    assert_row(&BOOK_BY_2, &CLIPS, &[], &[]);
    assert_row(&EMPTY_BOOK, &[], &[], &[]);
}

#[test]
fn a_route_of_120_positions_is_taken_and_one_of_121_is_refused_with_12() {
    let positions: Vec<usize> = (0..121).map(|index| index % 3).collect();
    let row: Vec<u16> = (0..120).map(|index| 11 + index % 3).collect();
    assert_row(&BOOK_BY_2, &CLIPS, &positions[..120], &row);
    assert_refused(&BOOK_BY_2, &CLIPS, &positions, 300, no(12));
    for length in [122, 128, 240, 256, 256 + 3, 65_536 + 3] {
        assert_refused(&BOOK_BY_2, &CLIPS, &vec![0; length], 9, no(12));
    }
}

// "stops at the first bad position with its index and nothing written"

#[test]
fn a_bad_position_at_every_place_brings_its_index() {
    for length in [1, 2, 5, 120] {
        for index in 0..length {
            for bad in [3, 4, 255, 256, 65_536, 65_537, usize::MAX - 1, usize::MAX] {
                let mut positions = vec![1; length];
                positions[index] = bad;
                let expected = answer(3, index, 0);
                assert_refused(&BOOK_BY_2, &CLIPS, &positions, 120, expected);
            }
        }
    }
}

#[test]
fn of_several_bad_positions_the_first_is_told_whatever_stands_behind_it() {
    for (positions, index) in [
        (&[3, 0, 0][..], 0),
        (&[3, 4, 5], 0),
        (&[0, 3, 9], 1),
        (&[0, 9, 3], 1),
        (&[2, 2, usize::MAX, 0, 3], 2),
        (&[usize::MAX, 0], 0),
    ] {
        assert_refused(&BOOK_BY_2, &CLIPS, positions, 9, answer(3, index, 0));
    }
    assert_refused(&BOOK_BY_2, &CLIPS, &[3; 120], 120, answer(3, 0, 0));
}

#[test]
fn every_position_of_a_book_without_names_is_bad() {
    for position in [0, 1, usize::MAX] {
        assert_refused(&EMPTY_BOOK, &[], &[position], 9, answer(3, 0, 0));
    }
}

// The room

#[test]
fn a_room_of_fewer_clips_than_positions_is_refused_with_4() {
    for length in [1, 2, 3, 119, 120] {
        let positions = vec![1; length];
        for room_length in 0..length {
            assert_refused(&BOOK_BY_2, &CLIPS, &positions, room_length, no(4));
        }
        assert_row(&BOOK_BY_2, &CLIPS, &positions, &vec![12; length]);
    }
}

#[test]
fn the_room_past_the_row_is_untouched() {
    let (answer, room) = route(&BOOK_BY_2, &CLIPS, &[2, 0], 9);
    assert_eq!(answer, yes(4, 0));
    assert_eq!(room[..2], [13, 11]);
    assert_eq!(room[2..], [FILLING; 7]);
}

// Order of a route: 2; 16; 12; 3; 4

#[test]
fn a_route_gives_2_before_16_12_3_and_4() {
    assert_refused(NO_BOOK, &CLIPS, &[0], 9, no(2));
    assert_refused(NO_BOOK, &CLIPS[..2], &[0], 9, no(2));
    assert_refused(NO_BOOK, &CLIPS, &[0; 121], 121, no(2));
    assert_refused(NO_BOOK, &CLIPS, &[3], 9, no(2));
    assert_refused(NO_BOOK, &CLIPS, &[0], 0, no(2));
    assert_refused(NO_BOOK, &[], &[usize::MAX; 121], 0, no(2));
    assert_refused(NO_BOOK, &many_clips(2001), &[0], 9, no(2));
}

#[test]
fn a_route_gives_16_before_12_3_and_4() {
    for clips in [&CLIPS[..2], &[11, 12, 13, 14]] {
        assert_refused(&BOOK_BY_2, clips, &[0; 121], 121, no(16));
        assert_refused(&BOOK_BY_2, clips, &[3], 9, no(16));
        assert_refused(&BOOK_BY_2, clips, &[2], 9, no(16));
        assert_refused(&BOOK_BY_2, clips, &[0], 0, no(16));
        assert_refused(&BOOK_BY_2, clips, &[usize::MAX; 121], 0, no(16));
    }
}

#[test]
fn a_route_gives_12_before_3_and_4() {
    for index in [0, 60, 119, 120] {
        let mut positions = [0; 121];
        positions[index] = 3;
        assert_refused(&BOOK_BY_2, &CLIPS, &positions, 121, no(12));
    }
    assert_refused(&BOOK_BY_2, &CLIPS, &[0; 121], 120, no(12));
    assert_refused(&BOOK_BY_2, &CLIPS, &[3; 121], 0, no(12));
}

#[test]
fn a_route_gives_3_before_4() {
    for room_length in 0..3 {
        let expected = answer(3, 2, 0);
        assert_refused(&BOOK_BY_2, &CLIPS, &[0, 1, 3], room_length, expected);
    }
    // also where the room ends before the bad position
    let mut positions = [0; 120];
    positions[119] = usize::MAX;
    assert_refused(&BOOK_BY_2, &CLIPS, &positions, 1, answer(3, 119, 0));
}

// Both calls beside the book's own

#[test]
fn the_clip_is_that_of_exact_s_or_range_s_position() {
    let list = names(&["Abbey", "Mar", "Marina", "Market Square", "Mill", "Zoo"]);
    for kind in BookKind::FULL {
        let (book, clips) = (built_as(kind, &list, 3), many_clips(6));
        for text in [
            "", "A", "M", "Mar", "mar", "Mari", "MARK", "Mil", "Zoo", "q",
        ] {
            let text = text.as_bytes();
            let [exact, range] = [book_exact, book_range].map(|ask| ask(&book, text));
            let expected = match (exact.second, range.second) {
                (1, _) => yes(1, clips[exact.first].into()),
                (_, 1) => yes(1, clips[range.first].into()),
                (_, count) => yes(0, count),
            };
            assert_eq!(announce_clip(&book, &clips, text), expected, "{text:?}");
        }
    }
}

#[test]
fn a_route_is_its_positions_one_by_one() {
    let positions = [2, 0, 0, 1, 2];
    let (_, whole) = route(&BOOK_BY_2, &CLIPS, &positions, 5);
    for (position, clip) in positions.into_iter().zip(whole) {
        assert_row(&BOOK_BY_2, &CLIPS, &[position], &[clip]);
    }
}
