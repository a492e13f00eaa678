//! The [set](crate::sets) of `list_merge`, `list_judge`, `list_head` and
//! `list_step`.
//!
//! # A case
//!
//! | Bytes | What |
//! |---|---|
//! | 4 | L, the length of the first list |
//! | 4 | R, the length of the room, at most 70,000 |
//! | 8 | how many records of the first list have been passed, any number of 64 bits |
//! | 8 | how many of the second |
//! | 4 | M, the length of the second list |
//! | L | the first list |
//! | M | the second list |
//!
//! # What to do with a case
//!
//! Take a room of R bytes and fill it: byte number i, from 0, gets i modulo
//! 251. Merge. Judge the lists, and ask for the head behind the passed records,
//! by its place and as a part. Then print, behind the number of the case:
//!
//! - code, first and second of the merge's answer;
//! - the two numbers of the [checksum](mod@crate::checksum) of the merged list:
//!   of the first `first` bytes of the room where the code is 0, of no bytes (1
//!   and 0) where it is not;
//! - the two numbers of the checksum of the whole room, so that a byte that was
//!   touched past the merged list, or in a refused call, shows;
//! - code, first and second of the judging's answer;
//! - list, start and length of the head;
//! - the two numbers of the checksum of the part that the step gives.

use crate::checksum::printed_checksum;
use crate::damage::{changed_bytes, cut_bytes, spoil_bytes, spoil_names, Spoilt};
use crate::lists::{self, followed, Names};
use crate::random::Random;
use crate::rooms::{filled_room, printed_answer, printed_outcome};
use crate::sets::{length_bytes, word, Call, Case, Set};
use format::{LONGEST_NAME, MOST_NAMES};
use model::{list_head, list_judge, list_merge, list_step, write_list, Head};

/// The longest room of a case.
pub const LONGEST_ROOM: usize = 70_000;

/// A call of each of the four.
#[derive(Clone)]
pub struct Merge {
    second: Vec<u8>,
    passed: [u64; 2],
    room: usize,
}

/// Cases with such calls.
type Cases = Vec<Case<Merge>>;

/// The set.
pub const SET: Set<Merge> = Set {
    name: "merge",
    groups: &[
        two_operators,
        every_step,
        empty_lists,
        names_in_both,
        lists_apart,
        lists_in_turn,
        beginnings,
        lengths_of_names,
        lowest_and_highest_bytes,
        high_counts,
        rooms,
        bad_lists,
        numbers_of_names,
        too_many_names,
        bad_records_past_2000,
        longest_lists,
        spoilt_lists,
        random_lists,
        lists_spoilt_at_random,
    ],
};

impl Call for Merge {
    const TAKES: &'static str = "first";

    fn front(&self) -> Vec<u8> {
        let [first, second] = self.passed.map(u64::to_le_bytes);
        let [room, length] = [self.room, self.second.len()].map(length_bytes);
        [&room[..], &first, &second, &length].concat()
    }

    fn rest(&self) -> Vec<u8> {
        self.second.clone()
    }

    fn told(&self) -> Vec<String> {
        let [first, second] = self.passed;
        vec![
            format!("second {}", self.second.len()),
            format!("passed {first} and {second}"),
            format!("room {}", self.room),
        ]
    }

    fn outcome(&self, first: &[u8]) -> String {
        let second = &self.second;
        let [passed_first, passed_second] = self.passed.map(word);
        let mut room = filled_room(self.room);
        let merged = list_merge(first, second, &mut room);
        let judged = list_judge(first, second);
        let head = list_head(first, second, passed_first, passed_second);
        let part = list_step(first, second, passed_first, passed_second);
        [
            printed_outcome(merged, &room),
            printed_answer(judged),
            printed_head(head),
            printed_checksum(part),
        ]
        .join(" ")
    }
}

/// The head's three numbers, as they are printed.
fn printed_head(head: Head) -> String {
    format!("{} {} {}", head.list, head.start, head.length)
}

/// A case with these lists, as bytes.
fn of_bytes(
    why: &str,
    [first, second]: [impl Into<Vec<u8>>; 2],
    passed: [u64; 2],
    room: usize,
) -> Case<Merge> {
    let second = second.into();
    let call = Merge {
        second,
        passed,
        room,
    };
    Case::of(why, first, call)
}

/// A case with these names.
fn of_names(why: &str, names: [&Names; 2], passed: [u64; 2], room: usize) -> Case<Merge> {
    of_bytes(why, names.map(|names| write_list(names)), passed, room)
}

/// A case with these names, and a room that has so many bytes more than the
/// merged list.
fn fitting(why: &str, names: [&Names; 2], passed: [u64; 2], spare: usize) -> Case<Merge> {
    of_names(why, names, passed, merged_length(names) + spare)
}

/// A case with these names, and a room that is a byte too short.
fn short(why: &str, names: [&Names; 2], passed: [u64; 2]) -> Case<Merge> {
    of_names(why, names, passed, merged_length(names) - 1)
}

/// How many bytes the merged list of these names has.
fn merged_length([first, second]: [&Names; 2]) -> usize {
    write_list(&lists::sorted([&first[..], second].concat())).len()
}

/// Cases with these names, and with the two lists and what is passed of them
/// the other way round.
fn both_ways(why: &str, [first, second]: [&Names; 2], [one, other]: [u64; 2]) -> Cases {
    vec![
        fitting(why, [first, second], [one, other], 1),
        fitting(why, [second, first], [other, one], 1),
    ]
}

/// Every so many of the names, from this one on.
fn every(names: &Names, step: usize, from: usize) -> Names {
    names.iter().skip(from).step_by(step).cloned().collect()
}

/// Thirty-five stops: every second of the seventy.
fn stops() -> Names {
    every(&lists::stops(), 2, 0)
}

/// The names of the other operator. Marina is a name of the example, too.
fn other_operator() -> Names {
    lists::texts(&["Harbour", "Marina", "Mill"])
}

/// The example and the other operator's list as bytes.
fn two_lists() -> [Vec<u8>; 2] {
    [lists::example(), other_operator()].map(|names| write_list(&names))
}

/// The example and the other operator's list, with room on both sides of the
/// 38 bytes that they make.
fn two_operators() -> Cases {
    let rooms = [38, 37, 39, 0, 100, LONGEST_ROOM].into_iter();
    rooms
        .map(|room| of_bytes("two operators", two_lists(), [0, 0], room))
        .collect()
}

/// Every pair of counts up to two past the last record, both ways.
fn every_step() -> Cases {
    let [first, second] = [lists::example(), other_operator()];
    let counts = (0..=5).flat_map(|one| (0..=5).map(move |other| [one, other]));
    counts
        .flat_map(|passed| both_ways("every step", [&first, &second], passed))
        .collect()
}

/// One list is empty, or both are.
fn empty_lists() -> Cases {
    let (names, none) = (lists::example(), Names::new());
    let mut cases = Vec::new();
    for passed in [[0, 0], [1, 0], [3, 0], [0, 1]] {
        cases.extend(both_ways("one empty list", [&names, &none], passed));
    }
    cases.push(short("one empty list", [&names, &none], [0, 0]));
    cases.push(short("one empty list", [&none, &names], [0, 0]));
    for passed in [[0, 0], [1, 2]] {
        cases.push(fitting("two empty lists", [&none, &none], passed, 0));
        cases.push(fitting("two empty lists", [&none, &none], passed, 9));
    }
    cases
}

/// Names that stand in both lists: all of them, the first, a middle one, the
/// last, and all but one.
fn names_in_both() -> Cases {
    let names = stops();
    let last = names.len() - 1;
    let mut cases = vec![
        fitting("equal lists", [&names, &names], [0, 0], 1),
        fitting("equal lists", [&names, &names], [34, 34], 1),
        fitting("equal lists", [&names, &names], [18, 17], 1),
        short("equal lists", [&names, &names], [35, 35]),
    ];
    for at in [0, 17, last] {
        let one = vec![names[at].clone()];
        let mut others = names.clone();
        others.remove(at);
        let passed = [at as u64, 0];
        cases.extend(both_ways("one name in both", [&names, &one], passed));
        cases.extend(both_ways("all but one in both", [&names, &others], passed));
        cases.extend(both_ways("one name apart", [&others, &one], passed));
    }
    cases
}

/// Lists of which one ends before the other begins.
fn lists_apart() -> Cases {
    let names = stops();
    let counts = [0, 1, 17, 34, 35].into_iter();
    counts
        .flat_map(|count| {
            let (low, high) = names.split_at(count);
            let passed = [count as u64, 0];
            both_ways("apart", [&low.to_vec(), &high.to_vec()], passed)
        })
        .collect()
}

/// Lists whose names stand between each other: one by one, two by one, in runs,
/// and with a name in both now and then.
fn lists_in_turn() -> Cases {
    let names = stops();
    let mut cases = Vec::new();
    for step in [2, 3, 7] {
        let one = every(&names, step, 0);
        let mut others = names.clone();
        others.retain(|name| !one.contains(name));
        cases.extend(both_ways("in turn", [&one, &others], [5, 5]));
        let shared = every(&names, step + 1, 1);
        cases.extend(both_ways("in turn, some in both", [&one, &shared], [5, 4]));
    }
    cases
}

/// Names that begin others: as heads, and in long rows.
fn beginnings() -> Cases {
    let one = lists::texts(&["Mar", "Marina", "Market Square"]);
    let other = lists::texts(&["M", "Ma", "Mari", "Marinas", "Market"]);
    let mut cases = Vec::new();
    for passed in [[0, 0], [0, 2], [1, 2], [1, 3], [2, 3], [2, 4]] {
        cases.extend(both_ways("beginnings", [&one, &other], passed));
    }
    let chain = lists::chain(b'a', 40);
    let mirror = lists::mirror(b'a', b'b', 40);
    let [odd, even] = [0, 1].map(|from| every(&chain, 2, from));
    cases.extend(both_ways("chain in turn", [&odd, &even], [15, 15]));
    cases.extend(both_ways("chain and mirror", [&chain, &mirror], [0, 39]));
    let (fan, stem) = (lists::fan(b"x"), lists::texts(&["x"]));
    cases.extend(both_ways("a name and its fan", [&fan, &stem], [0, 0]));
    cases
}

/// Names of 1, 199, 200 and 201 bytes, and of lengths that no name has.
fn lengths_of_names() -> Cases {
    let name = |length: usize| vec![b'n'; length];
    let other = vec![[name(LONGEST_NAME - 1), vec![b'o']].concat()];
    let [shorter, long] = [LONGEST_NAME - 1, LONGEST_NAME].map(|length| vec![name(length)]);
    let mut cases = both_ways("one byte and 200", [&vec![name(1)], &long], [0, 0]);
    cases.extend(both_ways("199 and 200 bytes", [&shorter, &long], [0, 0]));
    cases.extend(both_ways("200 and 200 bytes", [&long, &other], [0, 0]));
    cases.push(fitting("200 bytes in both", [&long, &long], [0, 0], 0));
    cases.push(short("200 bytes in both", [&long, &long], [1, 0]));
    for length in [0, LONGEST_NAME + 1, 255] {
        let bad = write_list(&[name(length)]);
        let good = write_list(&long);
        let why = format!("a name of {length} bytes");
        cases.push(of_bytes(&why, [bad.clone(), good.clone()], [0, 0], 500));
        cases.push(of_bytes(&why, [good, bad], [0, 0], 500));
    }
    cases
}

/// Bytes 0 and 255 are ordinary, and letters are ordered by their bytes.
fn lowest_and_highest_bytes() -> Cases {
    let bytes = lists::single_bytes();
    let [one, other] = [0, 1].map(|from| every(&bytes, 2, from));
    let low = vec![vec![0], vec![0, 0], vec![0, 255], vec![255]];
    let high = vec![vec![0, 1], vec![254, 255], vec![255, 0], vec![255, 255]];
    let small = lists::texts(&["mar", "mill"]);
    let large = lists::texts(&["Mill", "Zoo"]);
    [
        both_ways("all names of one byte", [&one, &other], [127, 128]),
        both_ways("bytes 0 and 255", [&low, &high], [3, 1]),
        both_ways("bytes 0 and 255", [&low, &high], [1, 0]),
        both_ways("small and large letters", [&small, &large], [0, 1]),
    ]
    .concat()
}

/// Counts far past the last record: also those whose low bytes alone would be
/// that of Marina, which is less than the other list's head, Mill.
fn high_counts() -> Cases {
    let [first, second] = [lists::example(), other_operator()];
    let powers = [8, 16, 31, 32, 63].map(|power| (1 << power) + 1);
    let counts = powers.into_iter().chain([u64::MAX - 1, u64::MAX]);
    let mut cases = Vec::new();
    for count in counts {
        cases.extend(both_ways("high count", [&first, &second], [count, 2]));
        cases.push(fitting("high counts", [&first, &second], [count, count], 0));
    }
    cases
}

/// Every room around a small merged list, and rooms that end between and
/// inside the records of a longer one: nothing is written of what does not fit.
fn rooms() -> Cases {
    let small = [lists::texts(&["a", "c"]), lists::texts(&["b", "c"])];
    let small = small.map(|names| write_list(&names));
    let tiny = (0..=8).map(|room| of_bytes("small room", small.clone(), [0, 0], room));
    let ends = [7, 8, 9, 11, 12, 13, 18, 19, 20, 32, 33, 34].into_iter();
    let cut = ends.map(|room| of_bytes("room inside", two_lists(), [1, 1], room));
    tiny.chain(cut).collect()
}

/// Each pair of a sound list and lists that are bad: those of the first list
/// come first, and all of them before 4.
fn bad_lists() -> Cases {
    let names = lists::example();
    let lists = [
        ("sound", write_list(&names)),
        ("empty", vec![]),
        ("5 at 0", vec![0]),
        ("5 at 1", b"\x01b\0\x01a".to_vec()),
        ("5 at 3, bare", followed(&names, &[9])),
        ("5 at 3, cut and falling", followed(&names, b"\x05Aa")),
        ("6 at 1, equal", b"\x03Mar\x03Mar".to_vec()),
        ("6 at 1, its beginning", b"\x06Marina\x03Mar\0".to_vec()),
        ("6 at 3", followed(&names, b"\x06Marina")),
    ];
    let mut cases = Vec::new();
    for (number, (how, first)) in lists.iter().enumerate() {
        for (other, second) in &lists {
            let room = [40, 0, 100][number % 3];
            let why = format!("{how}, then {other}");
            cases.push(of_bytes(&why, [&first[..], second], [0, 0], room));
        }
    }
    cases
}

/// 2,000 names, in one list, in both, and shared out.
fn numbers_of_names() -> Cases {
    let (full, none) = (lists::pairs(MOST_NAMES), Names::new());
    let [one, other] = [0, 1].map(|from| every(&full, 2, from));
    let (low, high) = (full[..1500].to_vec(), full[500..].to_vec());
    vec![
        fitting("2,000 names, first", [&full, &none], [1999, 0], 3),
        fitting("2,000 names, second", [&none, &full], [0, 1999], 0),
        fitting("2,000 names in turn", [&one, &other], [999, 999], 0),
        short("2,000 names, room short", [&one, &other], [1000, 999]),
        fitting("2,000 names twice", [&full, &full], [1999, 1999], 0),
        fitting("2,000 names, half twice", [&low, &high], [1499, 1000], 3),
    ]
}

/// 2,001 names: 7 with 2,000 and list 0, before 4. A step shows them all.
fn too_many_names() -> Cases {
    let (more, none) = (lists::pairs(MOST_NAMES + 1), Names::new());
    let [one, other] = [0, 1].map(|from| every(&more, 2, from));
    let (first, rest) = (more[..1].to_vec(), more[1..].to_vec());
    let (full, last) = (more[..MOST_NAMES].to_vec(), more[MOST_NAMES..].to_vec());
    vec![
        fitting("2,001 names, first", [&more, &none], [2000, 0], 0),
        of_names("2,001 names, second", [&none, &more], [0, 2000], 0),
        fitting("2,001 names in turn", [&one, &other], [1000, 1000], 9),
        fitting("2,000 names and one behind", [&full, &last], [2000, 0], 0),
        of_names("one before 2,000 names", [&first, &rest], [1, 2000], 0),
        fitting("2,000 names, one moved", [&full, &rest], [1, 0], 0),
    ]
}

/// Records that are bad where a list of a book has long been refused: 5 and 6
/// of both lists, before 7.
fn bad_records_past_2000() -> Cases {
    let more = lists::pairs(MOST_NAMES + 1);
    let [one, other] = [0, 1].map(|from| every(&more, 2, from));
    let empty = followed(&more, &[0]);
    let equal = followed(&more, &[2, 8, 0]);
    let falling = followed(&other, &[1, 0]);
    let bad = |why, lists: [Vec<u8>; 2]| of_bytes(why, lists, [2000, 2000], 9);
    vec![
        bad("5 at 2,001, first", [empty, vec![]]),
        bad("6 at 2,001, second", [vec![], equal]),
        bad("2,001 names, then 5", [write_list(&more), vec![0]]),
        bad("2,001 names in turn, 6", [write_list(&one), falling]),
    ]
}

/// A list of more than 65,535 bytes, so that heads stand past them.
fn longest_lists() -> Cases {
    let long = lists::long(335);
    let some = every(&long, 67, 66);
    vec![fitting("67,335 bytes", [&long, &some], [334, 4], 0)]
}

/// Cases with spoilt bytes as the first list, or as the second.
fn with_spoilt(spoilt: Spoilt, lists: impl Fn(Vec<u8>) -> [Vec<u8>; 2]) -> Cases {
    let spoilt = spoilt.into_iter();
    spoilt
        .map(|(how, bytes)| of_bytes(&how, lists(bytes), [1, 1], 40))
        .collect()
}

/// The two operators' lists with a byte changed, or cut, in either of them.
fn spoilt_lists() -> Cases {
    let [first, second] = two_lists();
    [
        with_spoilt(changed_bytes(&first), |bytes| [bytes, second.clone()]),
        with_spoilt(changed_bytes(&second), |bytes| [first.clone(), bytes]),
        with_spoilt(cut_bytes(&first), |bytes| [bytes, second.clone()]),
        with_spoilt(cut_bytes(&second), |bytes| [first.clone(), bytes]),
    ]
    .concat()
}

/// How many records of two lists have been passed: those before one of the
/// names, which may then be the head of both, or numbers around the lists' own.
pub fn any_passed(random: &mut Random, names: [&Names; 2]) -> [u64; 2] {
    let list = names[random.below(2)];
    if list.is_empty() || random.once_in(2) {
        return names.map(|names| random.around(names.len()));
    }
    let head = random.one_of(list);
    names.map(|names| names.iter().filter(|&name| name < head).count() as u64)
}

/// Random names that are shared out to two lists.
fn random_names(random: &mut Random, turn: usize) -> [Names; 2] {
    let all = lists::all_bytes();
    let letters = [&all[..], b"abc", b"\0\xFF"][turn % 3];
    let (count, tail) = (random.between(1, 60), random.between(1, 9));
    let names = lists::grown(random, letters, count, tail);
    lists::shared_out(random, &names)
}

/// Random lists with names in both, at random counts.
fn random_lists() -> Cases {
    let mut random = Random::from_seed(17);
    let mut cases = Vec::new();
    for turn in 0..40 {
        let [first, second] = random_names(&mut random, turn);
        let passed = any_passed(&mut random, [&first, &second]);
        cases.push(match turn % 8 {
            0 if !first.is_empty() => short("random", [&first, &second], passed),
            spare => fitting("random", [&first, &second], passed, spare),
        });
    }
    cases
}

/// Random lists, of which the first, the second or both are spoilt: their names,
/// or their bytes.
fn lists_spoilt_at_random() -> Cases {
    let mut random = Random::from_seed(18);
    let mut cases = Vec::new();
    for turn in 0..40 {
        let mut names = random_names(&mut random, turn);
        let passed = any_passed(&mut random, names.each_ref());
        let mut lists = [vec![], vec![]];
        for (number, names) in names.iter_mut().enumerate() {
            let spoilt = turn % 3 != number;
            if spoilt && turn % 2 == 0 {
                spoil_names(&mut random, names);
            }
            lists[number] = write_list(names);
            if spoilt && turn % 2 == 1 {
                spoil_bytes(&mut random, &mut lists[number]);
            }
        }
        cases.push(of_bytes("spoilt at random", lists, passed, 900));
    }
    cases
}
