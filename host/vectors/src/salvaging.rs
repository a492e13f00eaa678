//! The [set](crate::sets) of `book_salvage`.
//!
//! # A case
//!
//! | Bytes | What |
//! |---|---|
//! | 4 | L, the length of the worn book |
//! | 4 | R, the length of the room, at most 402,000 |
//! | 4 | W, how many report rows are lent, at most 2,001 |
//! | L | the worn book |
//!
//! # What to do with a case
//!
//! Take a room of R bytes and fill it: byte number i, from 0, gets i modulo
//! 251. Take W + 2 report rows and fill them: row number i, from 0, gets
//! 10,000 + i and 20,000 + i as kept and names. Salvage, and lend it the first W
//! of them. Then print, behind the number of the case:
//!
//! - code, first and second of the answer;
//! - the two numbers of the [checksum](mod@crate::checksum) of the records: of
//!   the first `first` bytes of the room where the code is 0, of no bytes (1 and
//!   0) where it is not;
//! - the two numbers of the checksum of the whole room, so that a byte that was
//!   touched past the records, or in a refused call, shows;
//! - how many rows say that a block is kept, with a 1, and how many that it is
//!   dropped, with a 0;
//! - the two numbers of the checksum of all W + 2 rows, of each its kept and its
//!   names, so that every row shows, and so does one that was touched past those
//!   lent, or in a refused call.

use crate::checksum::checksum_of;
use crate::damage::{gaps, large_counts, other_counts, other_starts, Spoilt};
use crate::lists::{self, Names};
use crate::pieces::Pieces;
use crate::random::Random;
use crate::rooms::{filled_room, printed_outcome};
use crate::sets::{length_bytes, Call, Case, Set};
use crate::wear::WAYS;
use format::{LONGEST_NAME, MOST_NAMES, NODE, TRAILER};
use model::{book_of, book_salvage, BookKind, Kept};

/// The longest room of a case: for 2,000 records of 200 bytes.
pub const LONGEST_ROOM: usize = MOST_NAMES * (1 + LONGEST_NAME);

/// The most report rows of a case: one more than there can be blocks.
pub const MOST_ROWS: usize = MOST_NAMES + 1;

/// How many report rows are watched behind those lent.
const WATCHED: usize = 2;

/// A call of `book_salvage`.
#[derive(Clone)]
pub struct Salvage {
    room: usize,
    rows: usize,
}

/// Cases with such a call.
type Cases = Vec<Case<Salvage>>;

/// The set.
pub const SET: Set<Salvage> = Set {
    name: "salvage",
    groups: &[
        no_bytes,
        worked_example,
        rooms_and_rows,
        order_of_refusals,
        no_names,
        first_blocks,
        second_blocks,
        first_counts,
        same_names_again,
        counts_and_starts,
        block_starts,
        trailers,
        other_trailers,
        parts_apart,
        bytes_around,
        nodes,
        lengths_of_names,
        block_sizes,
        numbers_of_names,
        most_bytes,
        worn_stops,
        worn_at_random,
    ],
};

impl Call for Salvage {
    fn front(&self) -> Vec<u8> {
        [self.room, self.rows].map(length_bytes).concat()
    }

    fn told(&self) -> Vec<String> {
        vec![format!("room {}", self.room), format!("rows {}", self.rows)]
    }

    fn outcome(&self, data: &[u8]) -> String {
        let mut room = filled_room(self.room);
        let mut report = unset_rows(self.rows + WATCHED);
        let answer = book_salvage(data, &mut room, &mut report[..self.rows]);
        let outcome = printed_outcome(answer, &room);
        format!("{outcome} {}", printed_report(&report))
    }
}

/// So many report rows before the call.
fn unset_rows(count: usize) -> Vec<Kept> {
    (0..count)
        .map(|number| Kept {
            kept: 10_000 + number,
            names: 20_000 + number,
        })
        .collect()
}

/// How many rows say kept and how many dropped, and the checksum of all.
fn printed_report(report: &[Kept]) -> String {
    let [dropped, kept] = [0, 1].map(|what| report.iter().filter(|row| row.kept == what).count());
    let numbers = report.iter().flat_map(|row| [row.kept, row.names]);
    let (first, second) = checksum_of(numbers.map(|number| number as u64));
    format!("{kept} {dropped} {first} {second}")
}

/// A case with a room and a report of these lengths.
fn of_lengths(
    why: impl Into<String>,
    data: impl Into<Vec<u8>>,
    room: usize,
    rows: usize,
) -> Case<Salvage> {
    Case::of(why, data, Salvage { room, rows })
}

/// A case with as many rows as the trailer tells of blocks, and a room that has so
/// many bytes more than the records.
fn with_spare(why: impl Into<String>, data: Vec<u8>, spare: usize) -> Case<Salvage> {
    let rows = blocks_told(&data);
    let room = records_length(&data, rows) + spare;
    of_lengths(why, data, room, rows)
}

/// A case with as many rows as the trailer tells of blocks, and with a byte more
/// room than the records take.
fn fitting(why: impl Into<String>, data: Vec<u8>) -> Case<Salvage> {
    with_spare(why, data, 1)
}

/// A case for each spoilt book.
fn of_spoilt(why: &str, spoilt: Spoilt) -> Cases {
    let spoilt = spoilt.into_iter();
    spoilt
        .map(|(how, data)| fitting(format!("{why}, {how}"), data))
        .collect()
}

/// How many blocks there are where the map makes sense: half as many as there are
/// bytes between the starts of the two tables that the trailer names.
pub fn blocks_told(data: &[u8]) -> usize {
    let Some(trailer) = data.len().checked_sub(TRAILER) else {
        return 0;
    };
    let number =
        |at: usize| usize::from(data[trailer + at]) + 256 * usize::from(data[trailer + at + 1]);
    let between = number(6).saturating_sub(number(4));
    (between / 2).min(MOST_NAMES)
}

/// How many bytes the records take; 40 where the call is refused.
pub fn records_length(data: &[u8], rows: usize) -> usize {
    let mut room = vec![0; LONGEST_ROOM];
    let answer = book_salvage(data, &mut room, &mut vec![Kept::default(); rows]);
    if answer.code == 0 {
        answer.first
    } else {
        40
    }
}

/// The book of 93 bytes.
fn example() -> Vec<u8> {
    book_of(BookKind::Plain, 2, &lists::example())
}

/// The 93 bytes with others from this one on.
fn worn_example(at: usize, bytes: &[u8]) -> Vec<u8> {
    let mut data = example();
    data[at..at + bytes.len()].copy_from_slice(bytes);
    data
}

/// The book of these names without any nodes, which a salvage does not miss.
fn without_nodes(block: usize, names: &Names) -> Pieces {
    let mut pieces = Pieces::of(BookKind::Plain, block, names);
    pieces.nodes.clear();
    pieces.settle_trailer();
    pieces
}

/// Nothing, and fewer bytes than a trailer has.
fn no_bytes() -> Cases {
    let mut cases = vec![of_lengths("no bytes", [], 0, 0)];
    cases.push(of_lengths("one byte", [0], 9, 1));
    cases.push(of_lengths("15 bytes", &example()[93 - 15..], 9, 2));
    cases
}

/// Mar, Marina, Market Square, sound.
fn worked_example() -> Cases {
    [2, 4, 1, 64]
        .map(|block| {
            let book = book_of(BookKind::Plain, block, &lists::example());
            fitting(format!("worked example, k {block}"), book)
        })
        .into()
}

/// The 93 bytes sound, and with either block dropped: rooms on both sides of
/// what the records take, and reports on both sides of two rows.
fn rooms_and_rows() -> Cases {
    let mut cases = Vec::new();
    for (why, data, length) in [
        ("both kept", example(), 25),
        ("first dropped", worn_example(0, &[1]), 14),
        ("second dropped", worn_example(11, &[14]), 11),
    ] {
        for room in [0, length - 1, length] {
            cases.push(of_lengths(why, &data[..], room, 2));
        }
        for rows in [0, 1, 3, MOST_ROWS] {
            cases.push(of_lengths(why, &data[..], length, rows));
        }
    }
    let data = worn_example(0, &[255; 25]);
    cases.push(of_lengths("both dropped", data, 0, 2));
    cases
}

/// Two or three refusals at once.
fn order_of_refusals() -> Cases {
    let no_map = worn_example(92, b"1");
    vec![
        of_lengths("13, 12 and 4", &no_map[..], 0, 1),
        of_lengths("13 and 12", &no_map[..], 100, 3),
        of_lengths("13 and 12", &no_map[..], 100, MOST_ROWS),
        of_lengths("13 and 4", &no_map[..], 24, 2),
        of_lengths("12 and 4", example(), 24, 1),
        of_lengths("12 and 4", example(), 0, 3),
    ]
}

/// Books without names: sound, with a bad k, with rows, with entry bytes, and
/// with nodes.
fn no_names() -> Cases {
    let none = Names::new();
    let mut cases: Cases = [1, 2, 64, 0, 65, 256]
        .map(|block| {
            fitting(
                format!("no names, k {block}"),
                book_of(BookKind::Plain, block, &none),
            )
        })
        .into();
    cases.push(of_lengths(
        "no names, a row",
        book_of(BookKind::Plain, 2, &none),
        9,
        1,
    ));
    let mut pieces = Pieces::of(BookKind::Plain, 4, &lists::example());
    pieces.starts.clear();
    pieces.settle_trailer();
    pieces.trailer.names = 0;
    cases.push(fitting("no names, entry bytes", pieces.bytes()));
    pieces.entries.clear();
    pieces.settle_trailer();
    cases.push(fitting("no names, four nodes", pieces.bytes()));
    let mut empty = Pieces::of(BookKind::Plain, 1, &lists::example());
    empty.entries.clear();
    empty.settle_trailer();
    empty.trailer.names = 3;
    cases.push(fitting("three names, no entry bytes", empty.bytes()));
    cases
}

/// The 93 bytes with another first block, of two names in ten bytes or not.
fn first_blocks() -> Cases {
    let blocks: [(&str, &[u8; 10]); 25] = [
        ("another letter", b"\0\x03Mar\x03\x03inb"),
        ("above the second block", b"\0\x03Zar\x03\x03ina"),
        ("two other names", b"\0\x02ab\x01\x04cdef"),
        ("no shared letter", b"\0\x03Mar\0\x03Nar"),
        ("bytes 0 and 255", b"\0\x03\0\0\0\0\x03\xFF\xFF\xFF"),
        ("all 0", &[0; 10]),
        ("all 255", &[255; 10]),
        ("first count 1", b"\x01\x03Mar\x03\x03ina"),
        ("count one less", b"\0\x03Mar\x02\x03rin"),
        ("count 0, two shared", b"\0\x02Ma\0\x04Mari"),
        ("count above the name before", b"\0\x03Mar\x04\x03ina"),
        ("count 255", b"\0\x03Mar\xFF\x03ina"),
        ("a byte left over", b"\0\x03Mar\x03\x02in\0"),
        ("two bytes left over", b"\0\x03Mar\x03\x01i\0\0"),
        ("an entry too many", b"\0\x01M\x01\x01a\x02\x02ri"),
        ("an entry too few", b"\0\x08Marinade"),
        ("past its end by one", b"\0\x03Mar\x03\x04ina"),
        ("past its end by a rest", b"\0\x06Marina\x06\x01"),
        ("past its end by a length", b"\0\x07Marinas\x07"),
        ("past its end by far", b"\0\x03Mar\x03\xFFina"),
        ("equal names", b"\0\x06Marina\x06\0"),
        ("equal names, count 0", b"\0\x03Mar\0\x03Mar"),
        ("a name, then its beginning", b"\0\x06Marina\x03\0"),
        ("falling names", b"\0\x03Mar\0\x03Lar"),
        ("an empty name", b"\0\0\0\x06Marina"),
    ];
    blocks
        .map(|(why, block)| fitting(format!("first block, {why}"), worn_example(0, block)))
        .into()
}

/// The 93 bytes with another second block, of one name in fifteen bytes or not;
/// and with an n of four.
fn second_blocks() -> Cases {
    let two = b"\0\x05Marke\x05\x06t Squa";
    let mut of_four = worn_example(10, two);
    of_four[77] = 4;
    let blocks = [
        ("below the first block", worn_example(12, b"A")),
        ("two names", worn_example(10, two)),
        ("two names of four", of_four),
        ("one name of four", worn_example(77, &[4])),
        ("first count 3", worn_example(10, &[3])),
        ("length one less", worn_example(11, &[12])),
        ("length one more", worn_example(11, &[14])),
        ("all 0", worn_example(10, &[0; 15])),
    ];
    blocks
        .map(|(why, data)| fitting(format!("second block, {why}"), data))
        .into()
}

/// First names of blocks that share with the name before, across the blocks, and
/// across two of them that are both worn.
fn first_counts() -> Cases {
    let names = lists::texts(&["Mar", "Mara", "Marb", "Marc", "Mard"]);
    let mut cases = Vec::new();
    for position in [2, 4] {
        let mut pieces = Pieces::of(BookKind::Plain, 2, &names);
        pieces.store(position, 3);
        pieces.settle();
        let why = format!("first count 3 of name {position}");
        cases.push(fitting(why, pieces.bytes()));
    }
    let mut across = worn_example(5, &[255; 10]);
    cases.push(fitting("a run across both blocks", across.clone()));
    across[..25].fill(0);
    cases.push(fitting("all entries 0", across));
    cases
}

/// Blocks that do not rise against each other: the same name, and a whole
/// alphabet from its end.
fn same_names_again() -> Cases {
    let same = vec![b"Mar".to_vec(); 5];
    let falling: Names = (0..26).rev().map(|at| vec![b'a' + at]).collect();
    vec![
        fitting("the same name again, k 1", without_nodes(1, &same).bytes()),
        fitting("falling names, k 1", without_nodes(1, &falling).bytes()),
        fitting("falling names, k 2", without_nodes(2, &falling).bytes()),
    ]
}

/// A small book by 2: counts and block starts that are wrong, all moved along.
fn counts_and_starts() -> Cases {
    let pieces = without_nodes(2, &lists::texts(&["ab", "abba", "b", "bad", "c"]));
    [
        of_spoilt("small book", other_counts(&pieces)),
        of_spoilt("small book", large_counts(&pieces)),
        of_spoilt("small book", other_starts(&pieces)),
    ]
    .concat()
}

/// Block starts that are equal, fall, or stand at either end of the entries or past
/// them.
fn block_starts() -> Cases {
    let mut cases = vec![fitting("first start 1", worn_example(25, &[1]))];
    for start in [0, 1, 24, 25, 26] {
        let data = worn_example(27, &[start]);
        cases.push(fitting(format!("second start {start}"), data));
    }
    for starts in [[0, 3, 3], [0, 0, 3], [0, 6, 3]] {
        let mut pieces = without_nodes(1, &lists::texts(&["a", "b", "c"]));
        pieces.starts = starts.to_vec();
        cases.push(fitting(format!("starts {starts:?}"), pieces.bytes()));
    }
    cases
}

/// The 93 bytes with each number of the trailer one more and one less, and with
/// another mark in each byte.
fn trailers() -> Cases {
    let fields = ["n", "k", "block table", "node table", "m", "length"];
    let book = example();
    let mut cases = Vec::new();
    for (field, what) in fields.iter().enumerate() {
        let at = 77 + 2 * field;
        for (step, how) in [(1, "one more"), (255, "one less")] {
            let byte = book[at].wrapping_add(step);
            cases.push(fitting(format!("{what} {how}"), worn_example(at, &[byte])));
        }
        let high = worn_example(at + 1, &[1]);
        cases.push(fitting(format!("{what} 256 more"), high));
    }
    for (at, byte) in BookKind::Plain.mark().iter().enumerate() {
        let data = worn_example(89 + at, &[byte ^ 1]);
        cases.push(fitting(format!("mark, byte {at}"), data));
    }
    cases.push(fitting("old mark", worn_example(89, b"NBK1")));
    let folded = BookKind::Folded.mark();
    cases.push(fitting("folded mark", worn_example(89, &folded)));
    let columns = BookKind::Columns.mark();
    cases.push(fitting("column mark", worn_example(89, &columns)));
    let sound = book_of(BookKind::Columns, 2, &lists::example());
    cases.push(fitting("column book", sound));
    cases
}

/// Trailers that would do if numbers wrapped, and the k of one block.
fn other_trailers() -> Cases {
    let nodes = |number: u16| worn_example(85, &number.to_le_bytes());
    let mut cases = vec![
        fitting("16,384 nodes more", nodes(4 + 16_384)),
        fitting("32,768 nodes more", nodes(4 + 32_768)),
        fitting("all numbers 65,535", worn_example(77, &[255; 12])),
        fitting("all numbers 0", worn_example(77, &[0; 12])),
    ];
    for block in [0, 2, 3, 64, 65] {
        let mut data = book_of(BookKind::Plain, 4, &lists::example());
        data[74] = block;
        cases.push(fitting(format!("k {block} for three names"), data));
    }
    for names in [0, 1, 2, 4, 5] {
        let mut data = book_of(BookKind::Plain, 4, &lists::example());
        data[72] = names;
        cases.push(fitting(format!("n {names} for three names"), data));
    }
    cases
}

/// A byte between the parts, with the trailer's numbers moved along or not.
fn parts_apart() -> Cases {
    of_spoilt(
        "93",
        gaps(&Pieces::of(BookKind::Plain, 2, &lists::example())),
    )
}

/// The 93 bytes with a byte more or less before or behind them; and so many more
/// that the length would wrap.
fn bytes_around() -> Cases {
    let book = example();
    vec![
        fitting("the last byte cut off", book[..92].to_vec()),
        fitting("the first byte cut off", book[1..].to_vec()),
        fitting("a byte behind", [&book[..], &[0]].concat()),
        fitting("a byte before", [&[0], &book[..]].concat()),
        fitting("twice", [&book[..], &book].concat()),
        fitting(
            "65,536 bytes before",
            [&vec![0; 65_536][..], &book].concat(),
        ),
    ]
}

/// Node records that are no nodes, and any number of them: none, one more than
/// three names can have, and as many as fit a book.
fn nodes() -> Cases {
    let mut cases = vec![
        fitting("nodes all 255", worn_example(29, &[255; 48])),
        fitting("nodes all 0", worn_example(29, &[0; 48])),
        fitting("a node's byte", worn_example(40, &[1])),
    ];
    for count in [0, 1, 3, 5, 6, 100] {
        let mut pieces = Pieces::of(BookKind::Plain, 2, &lists::example());
        pieces.nodes.resize(count, [65_535; NODE / 2]);
        pieces.settle_trailer();
        cases.push(fitting(format!("{count} nodes"), pieces.bytes()));
    }
    cases
}

/// Names of 1, 200, 201 and 255 bytes: alone, and by what they share.
fn lengths_of_names() -> Cases {
    let name = |length: usize| vec![b'n'; length];
    let mut cases = Vec::new();
    for length in [1, LONGEST_NAME, LONGEST_NAME + 1, 255] {
        let alone = without_nodes(1, &vec![name(length)]);
        cases.push(fitting(format!("a name of {length}"), alone.bytes()));
    }
    for length in [LONGEST_NAME, LONGEST_NAME + 1, 255] {
        let second = without_nodes(2, &vec![name(150), name(length)]);
        cases.push(fitting(
            format!("a second name of {length}"),
            second.bytes(),
        ));
    }
    cases
}

/// Block sizes on both sides of 1 and 64.
fn block_sizes() -> Cases {
    let names = lists::chain(b'a', 70);
    [1, 63, 64, 65, 256]
        .map(|block| {
            let pieces = without_nodes(block, &names);
            fitting(format!("block size {block}"), pieces.bytes())
        })
        .into()
}

/// 2,000 names and one more, with the most blocks and with the fewest.
fn numbers_of_names() -> Cases {
    let mut cases = Vec::new();
    for count in [MOST_NAMES, MOST_NAMES + 1] {
        for block in [1, 64] {
            let pieces = without_nodes(block, &lists::pairs(count));
            cases.push(fitting(format!("{count} names, k {block}"), pieces.bytes()));
        }
    }
    cases
}

/// 2,000 names of 200 bytes, which fit a book since they share most: room for all,
/// and a byte less. One block is then dropped.
fn most_bytes() -> Cases {
    let mut data = without_nodes(64, &lists::alike(MOST_NAMES)).bytes();
    let mut cases = vec![
        with_spare("most bytes", data.clone(), 0),
        of_lengths("most bytes", &data[..], LONGEST_ROOM - 1, 32),
    ];
    data[0] = 1;
    cases.push(fitting("most bytes, first block dropped", data));
    cases
}

/// Seventy stops, worn in every way, with blocks of 4 and of 16.
fn worn_stops() -> Cases {
    let mut random = Random::from_seed(14);
    let mut cases = Vec::new();
    for way in &WAYS {
        for block in [4, 16] {
            let data = (way.worn)(&mut random, without_nodes(block, &lists::stops()));
            let why = format!("worn stops, k {block}, {}", way.how);
            cases.push(fitting(why, data));
        }
    }
    cases
}

/// Small random books, worn in every way, with rooms and reports that mostly are
/// long enough.
fn worn_at_random() -> Cases {
    let mut random = Random::from_seed(15);
    let all = lists::all_bytes();
    let mut cases = Vec::new();
    for turn in 0..4 {
        for way in &WAYS {
            let letters = if turn % 2 == 0 { &all } else { &b"ab"[..] };
            let count = random.between(1, 14);
            let names = lists::grown(&mut random, letters, count, 4);
            let block = random.between(1, 4);
            let data = (way.worn)(&mut random, Pieces::of(BookKind::Plain, block, &names));
            let why = format!("worn at random, {}", way.how);
            let rows = blocks_told(&data);
            cases.push(match random.below(8) {
                0 => with_spare(why, data, 0),
                1 => of_lengths(why, data, random.below(20), rows),
                2 => of_lengths(why, data, 200, random.below(6)),
                _ => fitting(why, data),
            });
        }
    }
    cases
}
