//! The set of the announcer's two calls: its file read back by a reader of its own,
//! and what must be among its cases.

use model::{announce_clip, announce_route, book_check, book_exact, book_range, Answer};
use std::collections::{BTreeMap, BTreeSet};
use vectors::announcing::{self, any_clip_count, any_route, LONGEST_ROOM, MOST_CLIPS};
use vectors::checksum::checksum_of;
use vectors::random::Random;
use vectors::sets::Files;

/// A case as it stands in the file.
struct Read<'file> {
    book: &'file [u8],
    clips: Vec<u16>,
    text: &'file [u8],
    positions: Vec<usize>,
    room: usize,
}

/// Takes so many bytes off the front.
fn take<'file>(file: &mut &'file [u8], count: usize) -> &'file [u8] {
    let (front, rest) = file.split_at(count);
    *file = rest;
    front
}

/// Takes a number of so many bytes off the front, low byte first.
fn number(file: &mut &[u8], bytes: usize) -> usize {
    let bytes = take(file, bytes).iter().rev();
    bytes.fold(0, |number, &byte| 256 * number + usize::from(byte))
}

/// Reads the file as its description says, and asserts that it ends with a
/// case.
fn read_file(mut file: &[u8]) -> Vec<Read<'_>> {
    let mut cases = Vec::new();
    let mut book = &[][..];
    while !file.is_empty() {
        let [length, count] = [4, 4].map(|bytes| number(&mut file, bytes));
        let [first, step] = [2, 2].map(|bytes| number(&mut file, bytes));
        let [text, positions, room] = [4, 4, 4].map(|bytes| number(&mut file, bytes));
        if length > 0 {
            book = take(&mut file, length);
        }
        let clips = (0..count).map(|at| ((first + step * at) % 65_536) as u16);
        cases.push(Read {
            book,
            clips: clips.collect(),
            text: take(&mut file, text),
            positions: (0..positions).map(|_| number(&mut file, 8)).collect(),
            room,
        });
    }
    cases
}

/// The line that a program prints for this case.
fn line(number: usize, case: &Read) -> String {
    let clip = announce_clip(case.book, &case.clips, case.text);
    let mut room: Vec<u16> = (0..case.room + 2).map(|at| 40_000 + at as u16).collect();
    let lent = &mut room[..case.room];
    let route = announce_route(case.book, &case.clips, &case.positions, lent);
    let written = if route.code == 0 { route.first / 2 } else { 0 };

    let mut line = vec![number];
    line.extend([clip, route].map(three).concat());
    line.extend(two(&room[..written]));
    line.extend(two(&room));
    let line: Vec<String> = line.iter().map(usize::to_string).collect();
    line.join(" ") + "\n"
}

/// The three numbers of an answer.
fn three(answer: Answer) -> [usize; 3] {
    [answer.code, answer.first, answer.second]
}

/// The two numbers of the checksum of these clips.
fn two(clips: &[u16]) -> [usize; 2] {
    let (first, second) = checksum_of(clips.iter().map(|&clip| u64::from(clip)));
    [first as usize, second as usize]
}

/// What is expected for a case.
struct Expected {
    purpose: String,
    clip: [usize; 3],
    route: [usize; 3],
}

/// What is expected for each case, with what the case is there for.
fn all_expected() -> Vec<Expected> {
    let cases = announcing::SET.cases().into_iter();
    cases
        .map(|case| {
            let outcome = case.outcome();
            let numbers = outcome.split(' ').map(|word| word.parse().unwrap());
            let numbers: Vec<usize> = numbers.collect();
            assert_eq!(numbers.len(), 10, "{outcome}");
            Expected {
                purpose: case.purpose(),
                clip: numbers[..3].try_into().unwrap(),
                route: numbers[3..6].try_into().unwrap(),
            }
        })
        .collect()
}

#[test]
fn a_program_that_follows_the_description_prints_the_text() {
    let file = announcing::SET.case_file();
    let cases = read_file(&file);
    let lines = cases.iter().enumerate();
    let text: String = lines.map(|(number, case)| line(number, case)).collect();
    assert_eq!(text, announcing::SET.expected());
}

#[test]
fn the_books_tables_routes_and_rooms_are_small_enough() {
    let file = announcing::SET.case_file();
    assert!(file.len() < 350_000, "{}", file.len());
    let cases = read_file(&file);
    assert!((1000..=2000).contains(&cases.len()), "{}", cases.len());
    assert!(cases.iter().all(|case| case.clips.len() <= MOST_CLIPS));
    assert!(cases.iter().all(|case| case.room <= LONGEST_ROOM));
}

#[test]
fn every_refusal_of_each_call_is_among_the_cases() {
    let (mut clips, mut routes) = (BTreeMap::new(), BTreeMap::new());
    for Expected { clip, route, .. } in all_expected() {
        *clips.entry(clip[0]).or_insert(0) += 1;
        *routes.entry(route[0]).or_insert(0) += 1;
    }
    assert!(clips.keys().eq(&[0, 1, 2, 16]), "{clips:?}");
    assert!(routes.keys().eq(&[0, 2, 3, 4, 12, 16]), "{routes:?}");
    let least = clips.values().chain(routes.values()).min();
    assert!(least >= Some(&20), "{clips:?} {routes:?}");
}

#[test]
fn only_a_bad_position_brings_a_number_and_both_calls_begin_with_the_same_refusals() {
    for Expected {
        purpose,
        clip,
        route,
    } in all_expected()
    {
        assert!(clip[0] == 0 || clip[1..] == [0, 0], "{purpose}");
        assert!([0, 3].contains(&route[0]) || route[1] == 0, "{purpose}");
        assert_eq!(route[2], 0, "{purpose}");
        for code in [2, 16] {
            assert_eq!(clip[0] == code, route[0] == code, "{purpose}");
        }
    }
}

/// How a case's text stands to the names of its book: whether one equals it, and
/// whether none, one or several begin with it.
fn standing(case: &Read) -> Option<(bool, usize)> {
    let [exact, range] = [book_exact, book_range].map(|ask| ask(case.book, case.text));
    let accepted = exact.code == 0 && range.code == 0;
    accepted.then_some((exact.second == 1, range.second.min(2)))
}

#[test]
fn texts_equal_a_name_or_begin_one_several_or_none() {
    let file = announcing::SET.case_file();
    let mut standings = BTreeMap::new();
    for case in read_file(&file) {
        if let Some(standing) = standing(&case) {
            *standings.entry(standing).or_insert(0) += 1;
        }
    }
    // A name begins with itself.
    let all = [(false, 0), (false, 1), (false, 2), (true, 1), (true, 2)];
    assert!(standings.keys().eq(&all), "{standings:?}");
    assert!(standings.values().all(|&times| times > 60), "{standings:?}");
}

#[test]
fn tables_have_a_clip_less_as_many_and_a_clip_more() {
    let file = announcing::SET.case_file();
    let mut differences = BTreeMap::new();
    for case in read_file(&file) {
        let checked = book_check(case.book);
        if checked.code == 0 {
            let difference = case.clips.len() as isize - checked.first as isize;
            *differences.entry(difference).or_insert(0) += 1;
        }
    }
    for difference in [-1, 0, 1] {
        let times = differences.get(&difference);
        assert!(times >= Some(&40), "{differences:?}");
    }
    // two bytes could not tell these from none
    assert!(differences.get(&65_536) >= Some(&10), "{differences:?}");
}

#[test]
fn books_of_0_1_and_2000_names_of_both_kinds_are_asked() {
    let file = announcing::SET.case_file();
    let mut kinds = BTreeSet::new();
    for case in read_file(&file) {
        let checked = book_check(case.book);
        if checked.code == 0 {
            let mark = &case.book[case.book.len() - 4..];
            kinds.insert((checked.first, mark.to_vec()));
        }
    }
    for names in [0, 1, 2000] {
        for mark in [b"NBK2", b"NBF2"] {
            assert!(kinds.contains(&(names, mark.to_vec())), "{names}");
        }
    }
}

#[test]
fn bad_positions_are_the_first_the_last_and_every_one_of_a_route() {
    let file = announcing::SET.case_file();
    let mut places = BTreeSet::new();
    for (case, expected) in read_file(&file).iter().zip(all_expected()) {
        if let [3, index, _] = expected.route {
            let names = book_check(case.book).first;
            assert!(case.positions[index] >= names);
            assert!(case.positions[..index].iter().all(|&at| at < names));
            places.insert((case.positions.len(), index));
        }
    }
    for length in [1, 2, 5] {
        for index in 0..length {
            assert!(places.contains(&(length, index)), "{length} {index}");
        }
    }
    for index in [0, 1, 59, 118, 119] {
        assert!(places.contains(&(120, index)), "{index}");
    }
}

#[test]
fn the_edges_of_document_02_are_among_the_cases() {
    let all = all_expected();
    let example = |text: &str| format!("worked example: book 93, clips 3, text \"{text}\"");
    for (purpose, clip) in [
        (&example("Mar")[..], [0, 1, 11]),
        (&example("Marina"), [0, 1, 12]),
        (&example("Market Square"), [0, 1, 13]),
        (&example("Mari"), [0, 1, 12]),
        (&example("Mark"), [0, 1, 13]),
        (&example("Ma"), [0, 0, 3]),
        (&example(""), [0, 0, 3]),
        (&example("Marinae"), [0, 0, 0]),
        ("no bytes: ", [2, 0, 0]),
        ("15 bytes: ", [2, 0, 0]),
        ("no names: book 16, clips 0, text \"\"", [0, 0, 0]),
        ("no names: book 16, clips 0, text of 200", [0, 0, 0]),
        ("no names: book 16, clips 0, text of 201", [1, 0, 0]),
        ("no names: book 16, clips 1, ", [16, 0, 0]),
        ("one name: book 38, clips 1, text \"\"", [0, 1, 11]),
        ("two names: book 67, clips 2, text \"\"", [0, 0, 2]),
        ("a name of 200: book 232, clips 1, text of 199", [0, 1, 11]),
        ("a name of 200: book 232, clips 1, text of 200", [0, 1, 11]),
        ("a name of 200: book 232, clips 1, text of 201", [1, 0, 0]),
        (
            "a book, and refusals: book 93, clips 3, text of 201",
            [1, 0, 0],
        ),
        (
            "a bad table, and refusals: book 93, clips 2, text of 201",
            [16, 0, 0],
        ),
        (
            "a bad table, and refusals: book 93, clips 4, text of 201",
            [16, 0, 0],
        ),
        (
            "no book, and refusals: book 93, clips 3, text of 201",
            [2, 0, 0],
        ),
        ("no book, a bad table: ", [2, 0, 0]),
        ("MAR, marina: book 67, clips 2, text \"mar\"", [0, 1, 11]),
        ("MAR, marina: book 67, clips 2, text \"MARI\"", [0, 1, 12]),
        ("MAR, marina: book 67, clips 2, text \"ma\"", [0, 0, 2]),
        ("small letters: book 93, clips 3, text \"MAR\"", [0, 0, 0]),
        ("small letters: book 93, clips 3, text \"mar\"", [0, 1, 11]),
    ] {
        let found = all.iter().find(|case| case.purpose.starts_with(purpose));
        let found = found.unwrap_or_else(|| panic!("no case for {purpose}"));
        assert_eq!(found.clip, clip, "{purpose}");
    }
}

#[test]
fn the_edges_of_routes_are_among_the_cases() {
    let all = all_expected();
    for (purpose, end, route) in [
        ("no bytes: ", "route 1, room 2", [2, 0, 0]),
        ("routes: ", "route 0, room 1", [0, 0, 0]),
        ("routes: ", "route 3, room 4", [0, 6, 0]),
        ("long routes: ", "route 119, room 120", [0, 238, 0]),
        ("long routes: ", "route 120, room 121", [0, 240, 0]),
        ("long routes: ", "route 121, room 122", [12, 0, 0]),
        ("long routes: ", "route 376, room 377", [12, 0, 0]),
        (
            "a bad position far behind: ",
            "route 120, room 121",
            [3, 0, 0],
        ),
        (
            "a bad position far behind: ",
            "route 121, room 122",
            [12, 0, 0],
        ),
        ("rooms: ", "route 0, room 0", [0, 0, 0]),
        ("rooms: ", "route 5, room 4", [4, 0, 0]),
        ("rooms: ", "route 5, room 5", [0, 10, 0]),
        ("rooms: ", "route 120, room 119", [4, 0, 0]),
        ("rooms: ", "route 120, room 120", [0, 240, 0]),
        ("rooms: ", "route 120, room 400", [0, 240, 0]),
        ("a book, and refusals: ", "route 2, room 1", [3, 1, 0]),
        ("a book, and refusals: ", "route 121, room 120", [12, 0, 0]),
        (
            "a bad table, and refusals: ",
            "route 121, room 120",
            [16, 0, 0],
        ),
        ("a bad table, and refusals: ", "route 2, room 1", [16, 0, 0]),
        ("no book, and refusals: ", "route 121, room 0", [2, 0, 0]),
        ("no book, a bad table: ", "route 1, room 2", [2, 0, 0]),
        ("no names: ", "route 1, room 2", [3, 0, 0]),
        ("2,000 names: ", "route 120, room 121", [0, 240, 0]),
        ("2,000 names: ", "route 2, room 3", [3, 1, 0]),
    ] {
        let mut all = all.iter();
        let is_it = |case: &&Expected| case.purpose.starts_with(purpose);
        let found =
            all.find(|case| is_it(case) && case.purpose.ends_with(end) && case.route == route);
        assert!(found.is_some(), "no case for {purpose}{end}: {route:?}");
    }
}

#[test]
fn random_tables_and_routes_are_often_near_misses() {
    let mut random = Random::from_seed(1);
    let (mut tables, mut lengths) = (BTreeMap::new(), BTreeMap::new());
    let [mut first, mut last, mut good] = [0; 3];
    for _ in 0..2000 {
        let names = random.between(1, 50);
        let clips = any_clip_count(&mut random, names) as isize - names as isize;
        *tables.entry(clips).or_insert(0) += 1;
        let route = any_route(&mut random, names);
        *lengths.entry(route.len()).or_insert(0) += 1;
        let bad = route.iter().position(|&at| at >= names as u64);
        match bad {
            None => good += 1,
            Some(0) => first += 1,
            Some(index) if index + 1 == route.len() => last += 1,
            Some(_) => {}
        }
    }
    assert!(tables[&0] > 1000 && tables[&1] > 80 && tables[&-1] > 80);
    assert!(lengths[&120] > 100 && lengths[&121] > 100 && lengths[&0] > 80);
    assert!(
        first > 150 && last > 80 && good > 800,
        "{first} {last} {good}"
    );
}
