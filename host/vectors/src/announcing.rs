//! The [set](crate::sets) of `announce_clip` and `announce_route`.
//!
//! # A case
//!
//! | Bytes | What |
//! |---|---|
//! | 4 | L, the length of the book; 0 for the book of the case before |
//! | 4 | C, how many clips the table has, at most 67,536 |
//! | 2 | F, the first clip |
//! | 2 | S, the step from one clip to the next |
//! | 4 | T, the length of the text |
//! | 4 | P, how many positions the route has |
//! | 4 | R, for how many clips the room is, at most 400 |
//! | L | the book |
//! | T | the text |
//! | 8 P | the positions, any numbers of 64 bits |
//!
//! # What to do with a case
//!
//! Make a table of C clips: number i, from 0, is F + S i modulo 65,536. Ask for
//! the clip of the text. Take R + 2 numbers of two bytes and fill them: number i,
//! from 0, gets 40,000 + i. Announce the route, and lend it the first R of them as
//! its room. Then print, behind the number of the case:
//!
//! - code, first and second of the text's answer;
//! - code, first and second of the route's answer;
//! - the two numbers of the [checksum](mod@crate::checksum) of the row of clips: of
//!   so many numbers at the front of the room as `first` is bytes, two for each,
//!   where the route's code is 0, of no numbers (1 and 0) where it is not;
//! - the two numbers of the checksum of all R + 2 numbers, so that one that was
//!   touched behind the row, or behind those lent, or in a refused call, shows.

use crate::asking::shown;
use crate::checksum::checksum_of;
use crate::damage::{
    changed_bytes, cut_bytes, gaps, old_books, other_nodes, spoil_book, swap_mark, Spoilt,
};
use crate::folded::{in_both_cases, mar_and_marina, spelt_example, turned};
use crate::lists::{self, sorted_for, texts, Names};
use crate::pieces::Pieces;
use crate::questions::{any_question, around, around_all, beginnings};
use crate::random::Random;
use crate::rooms::printed_answer;
use crate::sets::{length_bytes, word, Call, Case, Set};
use crate::spelling::{names_respelt, respelt};
use format::{LONGEST_NAME, LONGEST_QUESTION, MOST_NAMES, MOST_STOPS};
use model::{announce_clip, announce_route, book_of, BookKind};

/// The most clips of a case's table: for as many names as there can be, and so many
/// more that two bytes could not tell the difference.
pub const MOST_CLIPS: usize = MOST_NAMES + 65_536;

/// The most clips that a case has room for.
pub const LONGEST_ROOM: usize = 400;

/// How many numbers are watched behind the room.
const WATCHED: usize = 2;

/// A clip table, by its length, its first clip and the step to the next.
#[derive(Clone, Copy)]
struct Table {
    count: usize,
    first: u16,
    step: u16,
}

impl Table {
    /// The clips.
    fn clips(self) -> Vec<u16> {
        let steps = (0..self.count).map(|at| (at as u16).wrapping_mul(self.step));
        steps.map(|steps| self.first.wrapping_add(steps)).collect()
    }
}

/// A call of each of the two.
#[derive(Clone)]
pub struct Announce {
    table: Table,
    text: Vec<u8>,
    positions: Vec<u64>,
    room: usize,
}

/// Cases with such calls.
type Cases = Vec<Case<Announce>>;

/// The set.
pub const SET: Set<Announce> = Set {
    name: "announce",
    groups: &[
        no_bytes,
        worked_example,
        routes_of_the_example,
        tables_of_other_lengths,
        clips_of_any_number,
        no_names,
        one_name,
        names_that_begin_others,
        many_names_that_begin_alike,
        seventy_stops,
        lowest_and_highest_bytes,
        lengths_of_texts,
        lengths_of_routes,
        bad_positions,
        several_bad_positions,
        longest_routes_with_bad_positions,
        rooms,
        order_of_refusals,
        most_names,
        folded_examples,
        folded_by_turns,
        most_folded_names,
        the_other_mark,
        spoilt_bytes,
        spoilt_pieces,
        random_books,
        books_spoilt_at_random,
        column_books,
    ],
};

impl Call for Announce {
    fn front(&self) -> Vec<u8> {
        let Table { count, first, step } = self.table;
        let lengths = [self.text.len(), self.positions.len(), self.room];
        [
            &length_bytes(count)[..],
            &first.to_le_bytes(),
            &step.to_le_bytes(),
            &lengths.map(length_bytes).concat(),
        ]
        .concat()
    }

    fn rest(&self) -> Vec<u8> {
        let positions = self.positions.iter();
        let positions: Vec<u8> = positions.flat_map(|at| at.to_le_bytes()).collect();
        [&self.text[..], &positions].concat()
    }

    fn told(&self) -> Vec<String> {
        vec![
            format!("clips {}", self.table.count),
            format!("text {}", shown(&self.text)),
            format!("route {}", self.positions.len()),
            format!("room {}", self.room),
        ]
    }

    fn outcome(&self, book: &[u8]) -> String {
        let clips = self.table.clips();
        let clip = announce_clip(book, &clips, &self.text);
        let positions = self.positions.iter().copied().map(word);
        let positions: Vec<usize> = positions.collect();
        let mut room = filled_clips(self.room + WATCHED);
        let route = announce_route(book, &clips, &positions, &mut room[..self.room]);
        let written = if route.code == 0 { route.first / 2 } else { 0 };
        [
            printed_answer(clip),
            printed_answer(route),
            printed_clips(&room[..written]),
            printed_clips(&room),
        ]
        .join(" ")
    }
}

/// So many numbers as they are before the call.
fn filled_clips(count: usize) -> Vec<u16> {
    (0..count).map(|number| 40_000 + number as u16).collect()
}

/// The checksum of clips, as it is printed.
fn printed_clips(clips: &[u16]) -> String {
    let (first, second) = checksum_of(clips.iter().copied().map(u64::from));
    format!("{first} {second}")
}

impl Announce {
    /// Calls for a book of so many names, with as many clips: the empty text, and
    /// an empty route. The example's clips are 11, 12 and 13.
    fn of(names: usize) -> Announce {
        let table = Table {
            count: names,
            first: 11,
            step: 1,
        };
        Announce {
            table,
            text: vec![],
            positions: vec![],
            room: 1,
        }
    }

    /// The same with this text.
    fn text(self, text: impl Into<Vec<u8>>) -> Announce {
        let text = text.into();
        Announce { text, ..self }
    }

    /// The same with this route, and a room for a clip more.
    fn route(self, positions: impl Into<Vec<u64>>) -> Announce {
        let positions = positions.into();
        let room = positions.len() + 1;
        Announce {
            positions,
            room,
            ..self
        }
    }

    /// The same with a room for so many clips.
    fn room(self, room: usize) -> Announce {
        Announce { room, ..self }
    }

    /// The same with a table of so many clips.
    fn clips(mut self, count: usize) -> Announce {
        self.table.count = count;
        self
    }

    /// The same with a table that begins with this clip and goes on by this step.
    fn clips_from(mut self, first: u16, step: u16) -> Announce {
        self.table.first = first;
        self.table.step = step;
        self
    }
}

/// Calls with one run of bytes.
fn of_bytes(why: &str, book: Vec<u8>, calls: impl IntoIterator<Item = Announce>) -> Cases {
    Case::of_same(why, book, calls)
}

/// Calls with the plain book of these names.
fn of_names(
    why: &str,
    names: &Names,
    block: usize,
    calls: impl IntoIterator<Item = Announce>,
) -> Cases {
    of_bytes(why, book_of(BookKind::Plain, block, names), calls)
}

/// Calls with the folded book of these names.
fn of_folded(
    why: &str,
    names: &Names,
    block: usize,
    calls: impl IntoIterator<Item = Announce>,
) -> Cases {
    of_bytes(why, book_of(BookKind::Folded, block, names), calls)
}

/// A call for each text, to a book of so many names; each with another small route.
fn with_texts(names: usize, texts: Names) -> Vec<Announce> {
    let texts = texts.into_iter().enumerate();
    texts
        .map(|(number, text)| Announce::of(names).text(text).route(turning(names, number)))
        .collect()
}

/// A small route through so many names: which one, and how long it is, goes by a
/// number. Without names it is empty.
fn turning(names: usize, number: usize) -> Vec<u64> {
    let length = if names == 0 { 0 } else { number % 5 };
    (0..length)
        .map(|index| ((7 * number + 3 * index) % names) as u64)
        .collect()
}

/// The example's call, with a text that goes by a number: the clip of an exact name,
/// that of a range, two numbers of names.
fn of_example(number: usize) -> Announce {
    let texts = ["Mar", "Mari", "Ma", "X"];
    Announce::of(3).text(texts[number % texts.len()])
}

/// The example's calls with these routes.
fn with_routes(why: &str, routes: impl IntoIterator<Item = Vec<u64>>) -> Cases {
    let routes = routes.into_iter().enumerate();
    let calls = routes.map(|(number, route)| of_example(number).route(route));
    of_names(why, &lists::example(), 2, calls)
}

/// Nothing, and fewer bytes than a trailer has.
fn no_bytes() -> Cases {
    let calls = |names| {
        [
            Announce::of(names),
            Announce::of(names).text("Mar").route([0]),
        ]
    };
    let mut cases = of_bytes("no bytes", vec![], calls(0));
    cases.extend(of_bytes("one byte", vec![0], calls(0)));
    let book = book_of(BookKind::Plain, 2, &lists::example());
    let end = book[book.len() - 15..].to_vec();
    cases.extend(of_bytes("15 bytes", end, calls(3)));
    cases
}

/// All that stands around the names of the example, in blocks of 2 and of 4.
fn worked_example() -> Cases {
    let names = lists::example();
    let blocks = [2, 4].into_iter();
    blocks
        .flat_map(|block| {
            let calls = with_texts(3, around_all(&names));
            of_names("worked example", &names, block, calls)
        })
        .collect()
}

/// Every route of up to two positions of the example and the one behind them, and
/// longer ones in any order.
fn routes_of_the_example() -> Cases {
    let mut routes = vec![vec![]];
    for first in 0..=3 {
        routes.push(vec![first]);
        routes.extend((0..=3).map(|second| vec![first, second]));
    }
    routes.extend([
        vec![0, 1, 2],
        vec![2, 1, 0],
        vec![1, 1, 1],
        vec![2, 0, 2, 0, 1],
    ]);
    with_routes("routes", routes)
}

/// Tables of a clip more and a clip less, and of numbers that would do if only
/// their low bytes counted. A clip more would serve a bad position, too, and a clip
/// less fails one that is good.
fn tables_of_other_lengths() -> Cases {
    let mut cases = Vec::new();
    for count in [0, 1, 3, 70] {
        let names = lists::stops()[..count].to_vec();
        let last = names.last().cloned().unwrap_or_default();
        let mut lengths = vec![count, count + 1, 2 * count + 2, count + 256, count + 65_536];
        lengths.extend(count.checked_sub(1));
        let calls = lengths.into_iter().flat_map(|length| {
            let call = Announce::of(count).clips(length);
            [
                call.clone().text(&last[..]).route([count as u64]),
                call.clone().text("").route([]),
                call.clone().text("S").route([0, length.max(1) as u64 - 1]),
                call.text([b'M'; 201]).route([u64::MAX]).room(0),
            ]
        });
        let calls: Vec<Announce> = calls.collect();
        let why = format!("tables for {count} names");
        cases.extend(of_names(&why, &names, 4, calls.clone()));
        cases.extend(of_folded(&format!("{why}, folded"), &names, 4, calls));
    }
    cases
}

/// Clips that are all 0, all 65,535, that wrap, and that are like positions or like
/// numbers of names.
fn clips_of_any_number() -> Cases {
    let tables = [
        (0, 0),
        (65_535, 0),
        (65_534, 1),
        (0, 1),
        (2, 65_535),
        (3, 0),
        (1, 0),
        (255, 1),
        (256, 256),
        (32_767, 1),
    ];
    let calls = tables.into_iter().flat_map(|(first, step)| {
        let texts = ["Mar", "Marina", "Mark", "M", "X"].into_iter();
        texts.map(move |text| {
            let call = Announce::of(3).text(text).route([2, 1, 0, 2]);
            call.clips_from(first, step)
        })
    });
    of_names("any clips", &lists::example(), 2, calls)
}

/// Books without names: the count is 0, and every position is bad.
fn no_names() -> Cases {
    let mut cases = Vec::new();
    for block in [1, 64] {
        let texts = vec![
            vec![],
            vec![0],
            b"Mar".to_vec(),
            vec![b'M'; LONGEST_QUESTION],
            vec![b'M'; LONGEST_QUESTION + 1],
        ];
        let mut calls = with_texts(0, texts);
        for position in [0, 1, u64::MAX] {
            calls.push(Announce::of(0).route([position]));
            calls.push(Announce::of(1).route([position]));
        }
        calls.push(Announce::of(0).room(0));
        calls.push(Announce::of(0).route([0; 121]));
        cases.extend(of_names("no names", &Names::new(), block, calls));
    }
    cases
}

/// Books of one name and of two: the empty text has the clip of the one, and the
/// number of the two.
fn one_name() -> Cases {
    let one = texts(&["Marina"]);
    let two = texts(&["Marina", "Market"]);
    let calls = with_texts(1, around_all(&one));
    let mut cases = of_names("one name", &one, 16, calls);
    let calls = with_texts(2, texts(&["", "M", "Mar", "Mari", "Mark", "Marina", "Z"]));
    cases.extend(of_names("two names", &two, 16, calls));
    for (length, position) in [(1, 0), (1, 1), (2, 1), (0, 0)] {
        let call = Announce::of(1).clips(length).route([position]);
        cases.extend(of_names("one name, another table", &one, 1, [call]));
    }
    cases
}

/// Names of which each begins the next: each has its own clip, and only the last
/// also by its range.
fn names_that_begin_others() -> Cases {
    let names = lists::chain(b'a', 40);
    let mut texts = beginnings(&[b'a'; 42]);
    texts.extend([1, 20, 39, 40].map(|length| [vec![b'a'; length], vec![b'b']].concat()));
    let mut cases = of_names("each begins the next", &names, 7, with_texts(40, texts));
    let names = lists::mirror(b'a', b'b', 30);
    let texts = beginnings(&[vec![b'a'; 29], vec![b'b']].concat());
    cases.extend(of_names("mirror", &names, 7, with_texts(30, texts)));
    cases
}

/// A name that 256 others begin with has its own clip; without it there is a number
/// of names. And 256 names that begin alike in nothing.
fn many_names_that_begin_alike() -> Cases {
    let fan = lists::fan(b"x");
    let some = [&b"x"[..], b"x\0", b"x\xFF", b"xx", b"", b"y", b"x\0\0"];
    let some = some.map(<[u8]>::to_vec).to_vec();
    let mut cases = of_names(
        "a name and its fan",
        &fan,
        16,
        with_texts(257, some.clone()),
    );
    let without = fan[1..].to_vec();
    let calls = with_texts(256, some);
    cases.extend(of_names("a fan without its name", &without, 16, calls));
    let bytes = lists::single_bytes();
    let texts = [0, 1, 77, 254, 255].map(|byte| vec![byte]);
    let calls = with_texts(256, [vec![vec![]], texts.to_vec()].concat());
    cases.extend(of_names("names of one byte", &bytes, 16, calls));
    cases
}

/// Seventy stops: all that stands around some of them.
fn seventy_stops() -> Cases {
    let names = lists::stops();
    let some = [0, 15, 16, 42, 69];
    let texts = around_all(some.map(|at| &names[at]));
    of_names("seventy stops", &names, 16, with_texts(70, texts))
}

/// Bytes 0 and 255, of which the latter has no next.
fn lowest_and_highest_bytes() -> Cases {
    let names: [&[u8]; 7] = [
        b"\0",
        b"\0\0",
        b"\0\xFF",
        b"a\xFF",
        b"\xFE",
        b"\xFF\0",
        b"\xFF\xFF\xFF",
    ];
    let names = names.map(<[u8]>::to_vec).to_vec();
    let calls = with_texts(7, around_all(&names));
    of_names("bytes 0 and 255", &names, 3, calls)
}

/// Texts of 200 bytes are answered and longer ones are not, also where the low byte
/// of the length alone would be fine, or where all names begin so.
fn lengths_of_texts() -> Cases {
    let lengths = [199, 200, 201, 202, 255, 256, 259, 262, 456];
    let of = |front: &[u8], byte: u8| -> Names {
        let texts = lengths.iter().map(|&length| {
            let mut text = front.to_vec();
            text.resize(length, byte);
            text
        });
        texts.collect()
    };
    let long = vec![vec![b'n'; LONGEST_NAME - 1], vec![b'n'; LONGEST_NAME]];
    let only = vec![vec![b'n'; LONGEST_NAME]];
    let example = with_texts(3, of(b"Mar", b'a'));
    [
        of_names("long texts", &lists::example(), 2, example),
        of_names(
            "names of 199 and 200",
            &long,
            2,
            with_texts(2, of(b"", b'n')),
        ),
        of_names("a name of 200", &only, 2, with_texts(1, of(b"", b'n'))),
    ]
    .concat()
}

/// Routes of up to 120 positions are taken and longer ones are not, also where the
/// low byte of the number alone would be fine.
fn lengths_of_routes() -> Cases {
    let lengths = [0, 1, 119, 120, 121, 240, 256, 376];
    let routes = lengths.map(|length| (0..length).map(|index| index % 3).collect());
    with_routes("long routes", routes)
}

/// Positions that are at or above three: some of them by their high bytes alone.
const BAD: [u64; 13] = [
    3,
    4,
    255,
    256,
    257,
    65_535,
    65_536,
    65_538,
    1 << 32,
    (1 << 32) + 2,
    1 << 63,
    u64::MAX - 1,
    u64::MAX,
];

/// A bad position at every place of a short route, and each bad position at the
/// first place and at the last.
fn bad_positions() -> Cases {
    let mut routes = Vec::new();
    for length in [1, 2, 5] {
        for index in 0..length {
            routes.push(with_bad(length, &[(index, 3)]));
        }
    }
    for bad in BAD {
        routes.push(with_bad(4, &[(0, bad)]));
        routes.push(with_bad(4, &[(3, bad)]));
    }
    with_routes("a bad position", routes)
}

/// A route of this length through the example, with these positions at these
/// places.
fn with_bad(length: usize, bad: &[(usize, u64)]) -> Vec<u64> {
    let mut route: Vec<u64> = (0..length).map(|index| (2 - index % 3) as u64).collect();
    for &(index, position) in bad {
        route[index] = position;
    }
    route
}

/// Several bad positions, of which the first is told, be it the least of them or the
/// greatest.
fn several_bad_positions() -> Cases {
    let mut routes = Vec::new();
    for first in 0..4 {
        for second in first + 1..5 {
            routes.push(with_bad(5, &[(first, 3), (second, u64::MAX)]));
            routes.push(with_bad(5, &[(first, u64::MAX), (second, 3)]));
        }
    }
    routes.push(vec![3; 5]);
    routes.push(vec![u64::MAX; 120]);
    with_routes("several bad positions", routes)
}

/// A bad position in a route of 120, and in one of 121, which is too long whatever
/// stands in it.
fn longest_routes_with_bad_positions() -> Cases {
    let taken = [0, 1, 59, 118, 119].map(|index| with_bad(120, &[(index, 3)]));
    let too_long = [0, 119, 120].map(|index| with_bad(121, &[(index, 3)]));
    let routes = taken.into_iter().chain(too_long);
    with_routes("a bad position far behind", routes)
}

/// Rooms that are a clip short, just long enough, and longer: for short routes and
/// for the longest.
fn rooms() -> Cases {
    let mut calls = Vec::new();
    for length in [0, 1, 2, 5, 120] {
        let call = of_example(length).route(with_bad(length, &[]));
        let rooms = [0, length / 2, length.saturating_sub(1), length, length + 1];
        calls.extend(rooms.map(|room| call.clone().room(room)));
        calls.push(call.room(LONGEST_ROOM));
    }
    of_names("rooms", &lists::example(), 2, calls)
}

/// Calls that are refused in several ways at once, with a table of so many clips to
/// three names: each two refusals that come one behind the other, and all of them.
fn several_refusals(clips: usize) -> Vec<Announce> {
    let call = Announce::of(3).clips(clips).text("Mar").route([0]);
    let long_text = call.clone().text([b'M'; 201]);
    vec![
        call.clone(),
        call.clone().room(0),
        call.clone().route([1, 3]),
        call.clone().route([1, 3]).room(1),
        call.clone().route([3]).room(0),
        long_text.clone(),
        long_text.clone().route([3]),
        call.clone().route([1; 121]),
        call.clone().route([1; 121]).room(120),
        call.route([3; 121]),
        long_text.route([3; 121]).room(0),
    ]
}

/// Several refusals at once, with good and with bad tables; and then of what is no
/// book, also with tables that no book could have.
fn order_of_refusals() -> Cases {
    let book = book_of(BookKind::Plain, 2, &lists::example());
    let mut no_book = book.clone();
    no_book[92] = b'1';
    let good = several_refusals(3);
    let bad = [2, 4].map(several_refusals).concat();
    let tables = [0, 2, 4, MOST_NAMES + 1, 65_536 + 3];
    let any_table = tables.map(|clips| Announce::of(clips).text("Mar").route([3]));
    [
        of_bytes("a book, and refusals", book.clone(), good.clone()),
        of_bytes("a bad table, and refusals", book, bad),
        of_bytes("no book, and refusals", no_book.clone(), good),
        of_bytes("no book, a bad table", no_book, any_table),
    ]
    .concat()
}

/// Calls for 2,000 names: texts around some of them, tables and positions on both
/// sides of that number.
fn for_most_names(names: &Names) -> Vec<Announce> {
    let most = names.len();
    let some = [0, 999, most - 1].map(|at| around(&names[at])).concat();
    let mut calls = with_texts(most, lists::sorted(some));
    let last = most as u64 - 1;
    for clips in [most - 1, most + 1, most + 65_536, 0] {
        let call = Announce::of(most).clips(clips);
        calls.push(call.clone().text(&names[most - 1][..]).route([last]));
        calls.push(call.text("").route([last + 1]));
    }
    let of_route = |route: Vec<u64>| Announce::of(most).route(route);
    calls.push(of_route(vec![last, 0, last]));
    calls.push(of_route(vec![last, last + 1]));
    calls.push(of_route(vec![last + 1, last + 2]));
    calls.push(of_route((0..120).map(|index| index * 16).collect()));
    calls.push(of_route((0..120).map(|index| last - index).collect()));
    calls
}

/// 2,000 names.
fn most_names() -> Cases {
    let most = lists::pairs(MOST_NAMES);
    of_names("2,000 names", &most, 64, for_most_names(&most))
}

/// All that stands around the names of folded books, in both cases; and capitals to
/// a plain book of small letters.
fn folded_examples() -> Cases {
    let (two, three) = (mar_and_marina(), spelt_example());
    let small = texts(&["mar", "marina", "market square"]);
    let spelt = texts(&[
        "mar", "MAR", "Mar", "mari", "MARI", "ma", "MA", "x", "X", "[",
    ]);
    let around_two = with_texts(2, in_both_cases(around_all(&two)));
    let around_three = with_texts(3, in_both_cases(around_all(&three)));
    let mut cases = of_folded("MAR, marina", &two, 2, around_two);
    cases.extend(of_folded("spelt example", &three, 4, around_three));
    cases.extend(of_names("small letters", &small, 2, with_texts(3, spelt)));
    let none = [b"mar".to_vec(), vec![], vec![b'A'; 201]].to_vec();
    cases.extend(of_folded(
        "no names, folded",
        &vec![],
        2,
        with_texts(0, none),
    ));
    let one = texts(&["MAR"]);
    let calls = with_texts(1, texts(&["", "m", "MA", "mar", "mari", "["]));
    cases.extend(of_folded("one name, folded", &one, 2, calls));
    cases
}

/// Folded names in small letters and in capitals by turns, of which some begin
/// others by their letters alone; near misses of tables and routes.
fn folded_by_turns() -> Cases {
    let stops = turned(lists::stops());
    let chain = turned(lists::chain(b'a', 20));
    let some = [1, 33, 42].map(|at| &stops[at]);
    let calls = with_texts(70, in_both_cases(around_all(some)));
    let mut cases = of_folded("stops by turns", &stops, 16, calls);
    let texts = beginnings(&[b'A'; 21]);
    let calls = with_texts(20, in_both_cases(texts));
    cases.extend(of_folded(
        "each begins the next, by turns",
        &chain,
        3,
        calls,
    ));
    let call = Announce::of(70).text("MARKET");
    let calls = [
        call.clone().clips(69).route([69]),
        call.clone().clips(71).route([70]),
        call.clone().route([69, 70, 71]),
        call.clone().route([0; 121]),
        call.clone().route([0, 69]).room(1),
        call.text([b'm'; 201]).route([69, 0]),
    ];
    cases.extend(of_folded("stops by turns, near misses", &stops, 16, calls));
    cases
}

/// 2,000 names that stay apart when folded.
fn most_folded_names() -> Cases {
    let apart = sorted_for(BookKind::Folded, lists::pairs(2400));
    let most = apart[..MOST_NAMES].to_vec();
    of_folded("2,000 names, folded", &most, 64, for_most_names(&most))
}

/// Books under the mark of the other kind: where they are no book of that kind, and
/// where they are, and then go by its rule.
fn the_other_mark() -> Cases {
    let mut cases = Vec::new();
    for (why, kind, names) in [
        ("small letters", BookKind::Plain, vec!["mar", "marina"]),
        ("small letters", BookKind::Folded, vec!["mar", "marina"]),
        ("another depth", BookKind::Folded, vec!["MAR", "marina"]),
        ("another order", BookKind::Plain, vec!["Zoo", "abbey"]),
        ("equal once folded", BookKind::Plain, vec!["MAR", "mar"]),
        ("no names", BookKind::Plain, vec![]),
    ] {
        let names = texts(&names);
        let mut book = book_of(kind, 2, &names);
        swap_mark(&mut book);
        let calls = with_texts(names.len(), texts(&["mar", "MAR", "MARI", "z"]));
        cases.extend(of_bytes(&format!("the other mark, {why}"), book, calls));
    }
    cases
}

/// A case for each spoilt book: with as many clips as it had names, or a clip more
/// or less.
fn of_spoilt(why: &str, names: usize, spoilt: Spoilt) -> Cases {
    let spoilt = spoilt.into_iter().enumerate();
    spoilt
        .flat_map(|(number, (how, book))| {
            let clips = [names, names, names, names + 1, names - 1][number % 5];
            let text = ["mar", "Mar", "", "Mari"][number % 4];
            let call = Announce::of(names).clips(clips);
            let call = call.text(text).route(turning(names, number));
            of_bytes(&format!("{why}, {how}"), book, [call])
        })
        .collect()
}

/// Every byte of the 93 and of 67 of a folded book one more and one less; and both
/// cut.
fn spoilt_bytes() -> Cases {
    let plain = book_of(BookKind::Plain, 2, &lists::example());
    let folded = book_of(BookKind::Folded, 2, &mar_and_marina());
    let some = |spoilt: Spoilt| spoilt.into_iter().step_by(9).collect();
    [
        of_spoilt("93", 3, changed_bytes(&plain)),
        of_spoilt("93", 3, some(cut_bytes(&plain))),
        of_spoilt("67 folded", 2, changed_bytes(&folded)),
        of_spoilt("67 folded", 2, some(cut_bytes(&folded))),
    ]
    .concat()
}

/// Some of the books whose nodes are not those of their names, that have gaps, or
/// that are of before nodes had widths.
fn spoilt_pieces() -> Cases {
    let kinds: [fn(&Pieces) -> Spoilt; 3] = [other_nodes, gaps, old_books];
    let of = |why, kind, names: Names| {
        let book = Pieces::of(kind, 2, &names);
        let spoilt = kinds.iter().flat_map(|spoil| spoil(&book));
        of_spoilt(why, names.len(), spoilt.step_by(4).collect())
    };
    [
        of("93", BookKind::Plain, lists::example()),
        of("67 folded", BookKind::Folded, mar_and_marina()),
    ]
    .concat()
}

/// How many clips there are for so many names: mostly as many; else one more, one
/// less, none, or a number of which the low bytes alone would do.
pub fn any_clip_count(random: &mut Random, names: usize) -> usize {
    match random.below(16) {
        0 => names + 1,
        1 => names.saturating_sub(1),
        2 => random.below(2 * names + 3),
        3 if random.once_in(4) => names + *random.one_of(&[256, 65_536]),
        4 if random.once_in(4) => 0,
        _ => names,
    }
}

/// A route through so many names: often of about 120 positions. Mostly all of them
/// are good; else the first is not, or the last, or any, or two, or all from one on.
pub fn any_route(random: &mut Random, names: usize) -> Vec<u64> {
    let length = match random.below(16) {
        0 => 0,
        1 => MOST_STOPS,
        2 => MOST_STOPS + 1,
        3 => random.between(MOST_STOPS - 2, MOST_STOPS + 2),
        4 => random.between(MOST_STOPS + 1, 3 * MOST_STOPS),
        5 | 6 => random.below(MOST_STOPS),
        7 => 1,
        _ => random.between(2, 9),
    };
    let good = (0..length).map(|_| random.below(names.max(1)) as u64);
    let mut route: Vec<u64> = good.collect();
    if length > 0 {
        spoil_route(random, names, &mut route);
    }
    route
}

/// Makes some positions of the route bad, or none.
fn spoil_route(random: &mut Random, names: usize, route: &mut [u64]) {
    let last = route.len() - 1;
    let [one, other] = [(); 2].map(|()| random.below(route.len()));
    let places = match random.below(12) {
        0 => vec![0],
        1 => vec![last],
        2 => vec![one],
        3 => vec![one, other],
        4 => (one..=last).collect(),
        _ => vec![],
    };
    for place in places {
        route[place] = bad_position(random, names, route[place]);
    }
}

/// A position at or above the number of names: that number, a greater one, or one
/// whose low bytes alone are a good position.
fn bad_position(random: &mut Random, names: usize, good: u64) -> u64 {
    let names = names as u64;
    match random.below(6) {
        0 | 1 => names,
        2 => names + random.below(300) as u64,
        3 => u64::MAX - random.below(3) as u64,
        4 => random.any().max(names),
        // No book has as many as 65,536 names.
        _ => good | *random.one_of(&[1 << 16, 1 << 32, 1 << 63]),
    }
}

/// Any calls for a book of these names.
fn any_call(random: &mut Random, names: &Names) -> Announce {
    let text = any_question(random, names);
    let text = respelt(random, &text);
    let route = any_route(random, names.len());
    // A clip too few, just enough, or more.
    let room = (route.len() + random.below(4)).saturating_sub(1);
    let clips = any_clip_count(random, names.len());
    let (first, step) = (random.any() as u16, random.any() as u16 | 1);
    let call = Announce::of(names.len()).text(text).route(route).room(room);
    call.clips(clips).clips_from(first, step)
}

/// A small random list for this kind of book.
fn any_names(random: &mut Random, kind: BookKind) -> Names {
    let all = lists::all_bytes();
    let letters = *random.one_of(&[&all[..], b"ab", b"aAbB", b"\0\xFF", b"aA[`{@"]);
    let (count, tail) = (random.between(1, 14), random.between(1, 4));
    let names = lists::grown(random, letters, count, tail);
    names_respelt(random, kind, &names)
}

/// Random books of both kinds, with random texts, tables and routes.
fn random_books() -> Cases {
    let mut random = Random::from_seed(91);
    let mut cases = Vec::new();
    for turn in 0..16 {
        let kind = BookKind::FULL[turn % 2];
        let names = any_names(&mut random, kind);
        let book = book_of(kind, random.between(1, 6), &names);
        let calls: Vec<Announce> = (0..6).map(|_| any_call(&mut random, &names)).collect();
        cases.extend(of_bytes("random", book, calls));
    }
    cases
}

/// The same with books that are spoilt.
fn books_spoilt_at_random() -> Cases {
    let mut random = Random::from_seed(92);
    let mut cases = Vec::new();
    for turn in 0..40 {
        let kind = BookKind::FULL[turn % 2];
        let names = any_names(&mut random, kind);
        let block = random.between(1, 6);
        let book = spoil_book(&mut random, kind, block, &names);
        let call = any_call(&mut random, &names);
        cases.extend(of_bytes("spoilt at random", book, [call]));
    }
    cases
}

/// Sound column books, which the announcer does not serve: 2, before 16, 1, 12 and 3.
fn column_books() -> Cases {
    let mut cases = Vec::new();
    for names in [
        Names::new(),
        texts(&["Mar"]),
        lists::example(),
        lists::stops(),
    ] {
        let count = names.len();
        let book = book_of(BookKind::Columns, 2, &names);
        let calls = [
            Announce::of(count)
                .text("Mar")
                .route(turning(count.max(1), 3)),
            Announce::of(count).clips(count + 1).text("Mari"),
            Announce::of(count)
                .text(vec![b'M'; 201])
                .route(vec![0; 121]),
        ];
        cases.extend(of_bytes("column book", book, calls));
    }
    cases
}
