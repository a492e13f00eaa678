//! Document 02's request 9, sentence by sentence, through the linked archive; and
//! the stored cases of it. The cases, what to do with them and what is expected
//! stand in `data`, written by `cargo run -p vectors -- announce FOLDER`.
//!
//! All that is lent stands between a fence, which ends the test where it is touched,
//! and numbers that are watched: once with the fence before it, once behind it.

use fenced::{Fence, Fenced};
use proved::{
    announce_clip, announce_route, book_build, book_build_folded, book_exact, book_range, Answer,
};
use std::fmt::Debug;
use std::ops::Range;

/// Mar, Marina, Market Square, and their clips.
const LIST: &[u8] = b"\x03Mar\x06Marina\x0DMarket Square";
const CLIPS: [u16; 3] = [11, 12, 13];

/// The book without names.
const EMPTY: &[u8] = b"\0\0\x02\0\0\0\0\0\0\0\x10\0NBK2";

/// A number of a room before a call.
const UNSET: u16 = 0xAAAA;

/// How many items are watched beside what is lent.
const WATCHED: usize = 2;

/// An answer.
fn answer(code: usize, first: usize, second: usize) -> Answer {
    Answer {
        code,
        first,
        second,
    }
}

/// A call that builds a book.
type Build = fn(&[u8], usize, &mut [u8]) -> Answer;

/// The book of a list in blocks of 2.
fn built(build: Build, list: &[u8]) -> Vec<u8> {
    let mut room = vec![0; 65_535];
    let built = build(list, 2, &mut room);
    assert_eq!(built.code, 0);
    room.truncate(built.first);
    room
}

/// The plain book of the example.
fn book() -> Vec<u8> {
    built(book_build, LIST)
}

/// The list of these names, in the order given.
fn list(names: &[&str]) -> Vec<u8> {
    let records = names.iter().map(|name| {
        let length = u8::try_from(name.len()).expect("a length is a byte");
        [&[length], name.as_bytes()].concat()
    });
    records.collect::<Vec<_>>().concat()
}

/// Items to be lent, between a fence on one side and watched ones on the other.
struct Lent<T> {
    items: Fenced<T>,
    lent: Range<usize>,
    watched: T,
}

impl<T: Copy + PartialEq + Debug> Lent<T> {
    /// Lends a copy of these, beside items of this value.
    fn of(items: &[T], watched: T, fence: Fence) -> Lent<T> {
        let beside = vec![watched; WATCHED];
        let (all, start) = match fence {
            Fence::Before => ([items, &beside].concat(), 0),
            Fence::Behind => ([&beside, items].concat(), WATCHED),
        };
        Lent {
            items: Fenced::of(&all, fence),
            lent: start..start + items.len(),
            watched,
        }
    }

    /// What is lent.
    fn lent(&self) -> &[T] {
        &self.items[self.lent.clone()]
    }

    /// The same, to be written.
    fn room(&mut self) -> &mut [T] {
        &mut self.items[self.lent.clone()]
    }

    /// Asserts that what is lent holds these, and that the items beside it are as they
    /// were.
    fn assert_holds(&self, items: &[T]) {
        assert_eq!(self.lent(), items);
        let beside = [&self.items[..self.lent.start], &self.items[self.lent.end..]];
        assert_eq!(beside.concat(), [self.watched; WATCHED]);
    }
}

/// What both calls take.
struct Taken {
    book: Lent<u8>,
    clips: Lent<u16>,
}

impl Taken {
    /// Lends both. A clip that stands beside the table is in no table here.
    fn of(book: &[u8], clips: &[u16], fence: Fence) -> Taken {
        Taken {
            book: Lent::of(book, 0x4E, fence),
            clips: Lent::of(clips, 0xDEAD, fence),
        }
    }

    /// Asserts that a call has changed neither.
    fn assert_kept(&self, book: &[u8], clips: &[u16]) {
        self.book.assert_holds(book);
        self.clips.assert_holds(clips);
    }
}

/// What a call gives with the fence before all that is lent, which has to be what it
/// gives with the fence behind.
fn on_both_sides<R: PartialEq + Debug>(call: impl Fn(Fence) -> R) -> R {
    let [one, other] = [Fence::Before, Fence::Behind].map(call);
    assert_eq!(one, other);
    one
}

/// Asks for the clip of a text; all that is lent is as it was.
fn clip(book: &[u8], clips: &[u16], text: &[u8]) -> Answer {
    on_both_sides(|fence| {
        let taken = Taken::of(book, clips, fence);
        let lent = Lent::of(text, b'M', fence);
        let answer = announce_clip(taken.book.lent(), taken.clips.lent(), lent.lent());
        taken.assert_kept(book, clips);
        lent.assert_holds(text);
        answer
    })
}

/// Announces a route into this room: the answer, and the room afterwards. All else
/// that is lent is as it was, and so is what stands beside the room.
fn route_into(book: &[u8], clips: &[u16], positions: &[usize], room: &[u16]) -> (Answer, Vec<u16>) {
    on_both_sides(|fence| {
        let taken = Taken::of(book, clips, fence);
        let lent = Lent::of(positions, 0, fence);
        let mut written = Lent::of(room, 0xBEEF, fence);
        let answer = announce_route(
            taken.book.lent(),
            taken.clips.lent(),
            lent.lent(),
            written.room(),
        );
        taken.assert_kept(book, clips);
        lent.assert_holds(positions);
        let room = written.lent().to_vec();
        written.assert_holds(&room);
        (answer, room)
    })
}

/// The same with a room for so many clips.
fn route(book: &[u8], clips: &[u16], positions: &[usize], space: usize) -> (Answer, Vec<u16>) {
    route_into(book, clips, positions, &vec![UNSET; space])
}

/// Asserts that these clips come out, in a room that is just long enough and in a
/// longer one, and a refusal in one that is for a clip less.
fn assert_row(book: &[u8], clips: &[u16], positions: &[usize], row: &[u16]) {
    let length = row.len();
    for space in [length, length + 1, length + 300] {
        let room = [row, &vec![UNSET; space - length]].concat();
        let expected = (answer(0, 2 * length, 0), room);
        assert_eq!(route(book, clips, positions, space), expected);
    }
    if length > 0 {
        assert_refused(book, clips, positions, length - 1, answer(4, 0, 0));
    }
}

/// Asserts that a route is refused like this, and that the room is as it was.
fn assert_refused(book: &[u8], clips: &[u16], positions: &[usize], space: usize, refused: Answer) {
    let expected = (refused, vec![UNSET; space]);
    assert_eq!(route(book, clips, positions, space), expected);
}

#[test]
fn an_exact_name_gives_its_clip() {
    for (text, expected) in [(&b"Mar"[..], 11), (b"Marina", 12), (b"Market Square", 13)] {
        assert_eq!(clip(&book(), &CLIPS, text), answer(0, 1, expected));
    }
}

#[test]
fn mar_gives_its_own_clip_though_three_names_begin_so() {
    assert_eq!(book_range(&book(), b"Mar").second, 3);
    assert_eq!(clip(&book(), &CLIPS, b"Mar"), answer(0, 1, 11));
}

#[test]
fn otherwise_a_range_of_exactly_one_name_gives_that_clip() {
    assert_eq!(clip(&book(), &CLIPS, b"Mari"), answer(0, 1, 12));
    assert_eq!(clip(&book(), &CLIPS, b"Mark"), answer(0, 1, 13));
    assert_eq!(clip(&book(), &CLIPS, b"Market Squar"), answer(0, 1, 13));
}

#[test]
fn otherwise_it_answers_how_many_names_begin_with_the_text() {
    for (text, count) in [
        (&b""[..], 3),
        (b"M", 3),
        (b"Ma", 3),
        (b"X", 0),
        (b"mar", 0),
        (b"Marinas", 0),
        (&[b'M'; 200], 0),
    ] {
        assert_eq!(clip(&book(), &CLIPS, text), answer(0, 0, count));
    }
}

#[test]
fn the_empty_text_gives_an_only_name_s_clip_and_otherwise_the_number_of_names() {
    assert_eq!(clip(EMPTY, &[], b""), answer(0, 0, 0));
    assert_eq!(clip(EMPTY, &[], b"Mar"), answer(0, 0, 0));
    let one = built(book_build, &list(&["Mar"]));
    assert_eq!(clip(&one, &[11], b""), answer(0, 1, 11));
    let two = built(book_build, &list(&["Mar", "Marina"]));
    assert_eq!(clip(&two, &[11, 12], b""), answer(0, 0, 2));
}

#[test]
fn a_clip_is_any_number_of_two_bytes() {
    for number in [0, 1, 3, 255, 256, 65_535] {
        let clips = [number; 3];
        for text in [&b"Mar"[..], b"Mari"] {
            let expected = answer(0, 1, number.into());
            assert_eq!(clip(&book(), &clips, text), expected);
        }
        assert_eq!(clip(&book(), &clips, b"Ma"), answer(0, 0, 3));
        assert_row(&book(), &clips, &[2, 0], &[number; 2]);
    }
}

#[test]
fn folded_books_are_served_by_their_own_rule() {
    let folded = built(
        book_build_folded,
        &list(&["MAR", "marina", "Market Square"]),
    );
    for (text, expected) in [
        ("MAR", answer(0, 1, 11)),
        ("mar", answer(0, 1, 11)),
        ("Mar", answer(0, 1, 11)),
        ("MARI", answer(0, 1, 12)),
        ("mARK", answer(0, 1, 13)),
        ("ma", answer(0, 0, 3)),
        ("x", answer(0, 0, 0)),
    ] {
        assert_eq!(clip(&folded, &CLIPS, text.as_bytes()), expected, "{text}");
    }
    assert_row(&folded, &CLIPS, &[2, 0, 1], &[13, 11, 12]);
    // under the plain mark its nodes are none
    let mut other = folded;
    let end = other.len();
    other[end - 4..].copy_from_slice(b"NBK2");
    assert_eq!(clip(&other, &CLIPS, b"mar"), answer(2, 0, 0));
    assert_refused(&other, &CLIPS, &[0], 9, answer(2, 0, 0));
}

#[test]
fn a_route_becomes_a_row_of_clips_in_its_own_order() {
    assert_row(&book(), &CLIPS, &[0, 1, 2], &[11, 12, 13]);
    assert_row(&book(), &CLIPS, &[2, 1, 0, 2, 2], &[13, 12, 11, 13, 13]);
    assert_row(&book(), &CLIPS, &[], &[]);
    assert_row(EMPTY, &[], &[], &[]);
}

#[test]
fn a_route_has_up_to_120_positions() {
    let positions: Vec<usize> = (0..121).map(|index| index % 3).collect();
    let row: Vec<u16> = (0..120).map(|index| 11 + index % 3).collect();
    assert_row(&book(), &CLIPS, &positions[..119], &row[..119]);
    assert_row(&book(), &CLIPS, &positions[..120], &row);
    for length in [121, 122, 240, 256, 259, 65_536 + 3] {
        let long = vec![0; length];
        for space in [0, 3, 120, length] {
            assert_refused(&book(), &CLIPS, &long, space, answer(12, 0, 0));
        }
    }
}

#[test]
fn it_stops_at_the_first_bad_position_with_its_index_and_nothing_written() {
    for length in [1, 5, 120] {
        for index in 0..length {
            for bad in [3, 4, 256, 65_536, 1 << 32, usize::MAX] {
                let mut positions = vec![1; length];
                positions[index] = bad;
                let refused = answer(3, index, 0);
                assert_refused(&book(), &CLIPS, &positions, length, refused);
                // Whatever stands behind it tells nothing.
                positions[index + 1..].fill(usize::MAX - bad);
                assert_refused(&book(), &CLIPS, &positions, length, refused);
            }
        }
    }
    assert_refused(EMPTY, &[], &[0], 9, answer(3, 0, 0));
}

#[test]
fn bytes_that_are_no_book_are_refused_with_2() {
    let refused = answer(2, 0, 0);
    let book = book();
    for at in 0..book.len() {
        let mut other = book.clone();
        other[at] ^= 0x80;
        // with another letter in a name it may be a book again
        if proved::book_check(&other).code == 2 {
            assert_eq!(clip(&other, &CLIPS, b"Mar"), refused);
            assert_refused(&other, &CLIPS, &[0], 9, refused);
        }
        assert_eq!(clip(&book[..at], &CLIPS, b"Mar"), refused);
        assert_refused(&book[..at], &CLIPS, &[0], 9, refused);
    }
}

#[test]
fn a_table_whose_length_is_not_n_is_refused_with_16() {
    let refused = answer(16, 0, 0);
    for (book, count) in [(book(), 3), (EMPTY.to_vec(), 0)] {
        for length in [0, 1, 2, 3, 4, 6, 256, 259, 65_536, 65_539] {
            let clips = vec![11; length];
            if length != count {
                for text in [&b"Mar"[..], b"Mari", b"M", b"", &[b'M'; 201]] {
                    assert_eq!(clip(&book, &clips, text), refused);
                }
                for positions in [&[][..], &[0], &[2], &[3], &[0; 121]] {
                    assert_refused(&book, &clips, positions, 9, refused);
                }
            }
        }
    }
}

#[test]
fn a_text_longer_than_200_is_refused_with_1() {
    for length in [201, 202, 255, 256, 259, 65_536 + 3] {
        let text = vec![b'M'; length];
        assert_eq!(clip(&book(), &CLIPS, &text), answer(1, 0, 0));
        assert_eq!(clip(EMPTY, &[], &text), answer(1, 0, 0));
    }
    let long = "n".repeat(200);
    let one = built(book_build, &list(&[&long]));
    assert_eq!(clip(&one, &[7], long.as_bytes()), answer(0, 1, 7));
    assert_eq!(clip(&one, &[7], &[b'n'; 201]), answer(1, 0, 0));
}

#[test]
fn a_clip_is_refused_with_2_then_16_then_1() {
    let (book, long) = (book(), [b'M'; 201]);
    assert_eq!(clip(b"no book", &CLIPS[..2], &long), answer(2, 0, 0));
    assert_eq!(clip(b"no book", &CLIPS, &long), answer(2, 0, 0));
    // also with more clips than any book has names
    assert_eq!(clip(b"no book", &[1; 2001], b"Mar"), answer(2, 0, 0));
    assert_eq!(clip(&book, &CLIPS[..2], &long), answer(16, 0, 0));
    assert_eq!(clip(&book, &[1, 2, 3, 4], &long), answer(16, 0, 0));
    assert_eq!(clip(&book, &CLIPS, &long), answer(1, 0, 0));
}

#[test]
fn a_route_is_refused_with_2_then_16_then_12_then_3_then_4() {
    let (book, refused) = (book(), |code| answer(code, 0, 0));
    let (too_many, bad) = ([3; 121], [0, 3]);
    for clips in [&CLIPS[..2], &[1, 2, 3, 4]] {
        assert_refused(b"no book", clips, &too_many, 0, refused(2));
        assert_refused(&book, clips, &too_many, 0, refused(16));
        assert_refused(&book, clips, &bad, 0, refused(16));
        assert_refused(&book, clips, &[0], 0, refused(16));
    }
    assert_refused(b"no book", &CLIPS, &too_many, 0, refused(2));
    assert_refused(b"no book", &[1; 2001], &[0], 9, refused(2));
    assert_refused(&book, &CLIPS, &too_many, 121, refused(12));
    assert_refused(&book, &CLIPS, &too_many, 0, refused(12));
    assert_refused(&book, &CLIPS, &[0; 121], 120, refused(12));
    for space in [0, 1] {
        assert_refused(&book, &CLIPS, &bad, space, answer(3, 1, 0));
    }
    assert_refused(&book, &CLIPS, &[0, 2], 1, refused(4));
}

#[test]
fn both_calls_say_of_the_clips_what_the_book_says_of_the_names() {
    let names = ["Abbey", "Mar", "Marina", "Market Square", "Mill", "Zoo"];
    let clips = [21, 22, 23, 24, 25, 26];
    for build in [book_build, book_build_folded] {
        let book = built(build, &list(&names));
        for text in [
            "", "a", "A", "m", "M", "mar", "Mar", "MARI", "Mil", "Zoo", "q",
        ] {
            let text = text.as_bytes();
            let [exact, range] = [book_exact, book_range].map(|ask| ask(&book, text));
            let expected = match (exact.second, range.second) {
                (1, _) => answer(0, 1, clips[exact.first].into()),
                (_, 1) => answer(0, 1, clips[range.first].into()),
                (_, count) => answer(0, 0, count),
            };
            assert_eq!(clip(&book, &clips, text), expected, "{text:?}");
        }
        for position in 0..6 {
            assert_row(&book, &clips, &[position], &clips[position..=position]);
        }
    }
}

// The stored cases

/// A case as it stands in the file.
struct Case<'file> {
    book: &'file [u8],
    clips: Vec<u16>,
    text: &'file [u8],
    positions: Vec<usize>,
    space: usize,
}

/// Takes a number of so many bytes off the front of the file, low byte first.
fn number(file: &mut &[u8], bytes: usize) -> usize {
    let bytes = part(file, bytes).iter().rev();
    bytes.fold(0, |number, &byte| 256 * number + usize::from(byte))
}

/// Takes so many bytes off the front of the file.
fn part<'file>(file: &mut &'file [u8], bytes: usize) -> &'file [u8] {
    let (front, rest) = file.split_at(bytes);
    *file = rest;
    front
}

/// Takes a case off the front of the file; where it has no book it is that of the
/// case before.
fn case<'file>(file: &mut &'file [u8], before: &'file [u8]) -> Case<'file> {
    let [length, count] = [4; 2].map(|bytes| number(file, bytes));
    let [first, step] = [2; 2].map(|bytes| number(file, bytes));
    let [text, positions, space] = [4; 3].map(|bytes| number(file, bytes));
    let clips = (0..count).map(|at| ((first + step * at) % 65_536) as u16);
    Case {
        book: match length {
            0 => before,
            _ => part(file, length),
        },
        clips: clips.collect(),
        text: part(file, text),
        positions: (0..positions).map(|_| number(file, 8)).collect(),
        space,
    }
}

/// The checksum of clips, as the vectors have it: both halves of Adler-32.
fn checksum(clips: &[u16]) -> [usize; 2] {
    let (mut first, mut second) = (1, 0);
    for &clip in clips {
        first = (first + usize::from(clip) % 65_521) % 65_521;
        second = (second + first) % 65_521;
    }
    [first, second]
}

/// The line for a case: what came of both calls, as numbers. The two numbers behind
/// the room, which the line counts too, were watched.
fn line(number: usize, case: &Case) -> String {
    let mut room: Vec<u16> = (0..case.space + 2).map(|at| 40_000 + at as u16).collect();
    let asked = clip(case.book, &case.clips, case.text);
    let lent = &room[..case.space];
    let (announced, after) = route_into(case.book, &case.clips, &case.positions, lent);
    room[..case.space].copy_from_slice(&after);
    let written = match announced.code {
        0 => announced.first / 2,
        _ => 0,
    };
    let mut line = vec![number];
    for answer in [asked, announced] {
        line.extend([answer.code, answer.first, answer.second]);
    }
    line.extend(checksum(&room[..written]));
    line.extend(checksum(&room));
    let line: Vec<String> = line.iter().map(usize::to_string).collect();
    line.join(" ")
}

#[test]
fn the_stored_cases_give_what_the_second_program_gives() {
    let mut file = &include_bytes!("data/announce.cases")[..];
    let mut expected = include_str!("data/announce.expected").lines();
    let (mut before, mut cases) = (&[][..], 0);
    while !file.is_empty() {
        let case = case(&mut file, before);
        assert_eq!(Some(&line(cases, &case)[..]), expected.next());
        before = case.book;
        cases += 1;
    }
    assert_eq!(expected.next(), None);
    assert!(cases > 1500, "{cases}");
}
