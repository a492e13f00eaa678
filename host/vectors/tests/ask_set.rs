//! The set of the five questions: its file read back by a reader of its own,
//! and what must be among its cases.

mod common;

use common::{hold_nearest, look};
use model::{book_exact, book_nearest, book_place, book_range, book_width, open, BookKind};
use std::collections::BTreeSet;
use std::sync::LazyLock;
use vectors::asking::{self, Ask};
use vectors::columns;
use vectors::folded;
use vectors::lists;
use vectors::sets::{Case, Files, Set};

/// The text to be printed. It takes some seconds, so the tests share it.
static EXPECTED: LazyLock<String> = LazyLock::new(|| asking::SET.expected());

/// The same of folded books.
static FOLDED_EXPECTED: LazyLock<String> = LazyLock::new(|| folded::ASK.expected());

/// The same of column books.
static COLUMNS_EXPECTED: LazyLock<String> = LazyLock::new(|| columns::ASK.expected());

/// A case as it stands in the file.
struct Asked<'file> {
    book: &'file [u8],
    question: &'file [u8],
}

/// Reads the file as its description says, and asserts that it ends with a
/// case.
fn read_file(mut file: &[u8]) -> Vec<Asked<'_>> {
    let mut cases = Vec::new();
    let mut book: &[u8] = &[];
    while !file.is_empty() {
        let length = u32::from_le_bytes(file[..4].try_into().unwrap()) as usize;
        let asked = u32::from_le_bytes(file[4..8].try_into().unwrap()) as usize;
        let start = 8 + length;
        let end = start + asked;
        if length > 0 {
            book = &file[8..start];
        }
        let question = &file[start..end];
        cases.push(Asked { book, question });
        file = &file[end..];
    }
    cases
}

/// The line that a program prints for this case.
fn line(number: usize, case: &Asked) -> String {
    let mut line = number.to_string();
    for ask in [book_exact, book_place, book_range, book_nearest, book_width] {
        let given = ask(case.book, case.question);
        let (code, first, second) = (given.code, given.first, given.second);
        let (visits, entries) = (given.visits, given.entries);
        line.push_str(&format!(" {code} {first} {second} {visits} {entries}"));
    }
    line + "\n"
}

/// The case with this purpose.
fn find<'cases>(cases: &'cases [Case<Ask>], purpose: &str) -> &'cases Case<Ask> {
    let found = cases.iter().find(|case| case.purpose() == purpose);
    found.unwrap_or_else(|| panic!("no case for {purpose}"))
}

/// The five numbers of each kind.
fn numbers(outcome: &str) -> [[usize; 5]; 5] {
    let mut words = outcome.split(' ').map(|word| word.parse().unwrap());
    let five = std::array::from_fn(|_| std::array::from_fn(|_| words.next().unwrap()));
    assert!(words.next().is_none(), "{outcome}");
    five
}

/// An outcome of the three numbers of each kind, where all kinds look equally far.
fn looked(answers: &str, [visits, entries]: [usize; 2]) -> String {
    let words: Vec<&str> = answers.split(' ').collect();
    let kinds = words.chunks(3).map(|answer| {
        let answer = answer.join(" ");
        format!("{answer} {visits} {entries}")
    });
    kinds.collect::<Vec<String>>().join(" ")
}

#[test]
fn a_program_that_follows_the_description_prints_the_text() {
    for (set, expected) in [
        (&asking::SET, &EXPECTED),
        (&folded::ASK, &FOLDED_EXPECTED),
        (&columns::ASK, &COLUMNS_EXPECTED),
    ] {
        let file = set.case_file();
        let cases = read_file(&file);
        let lines = cases.iter().enumerate();
        let text: String = lines.map(|(number, case)| line(number, case)).collect();
        assert_eq!(text, **expected);
    }
}

#[test]
fn the_cases_are_not_too_many() {
    for (set, most) in [
        (&asking::SET, 7000),
        (&folded::ASK, 1400),
        (&columns::ASK, 900),
    ] {
        let cases = set.cases().len();
        assert!(cases <= most, "{cases}");
    }
}

#[test]
fn every_refusal_of_a_question_is_among_the_cases() {
    // The codes of the five answers of a case: a book without names is the only
    // one where they differ.
    for text in [&EXPECTED, &COLUMNS_EXPECTED] {
        let mut codes = BTreeSet::new();
        for line in text.lines() {
            let (_, outcome) = line.split_once(' ').unwrap();
            codes.insert(numbers(outcome).map(|[code, ..]| code));
        }
        let expected = [[0; 5], [0, 0, 0, 10, 0], [1; 5], [2; 5]];
        assert_eq!(codes.into_iter().collect::<Vec<_>>(), expected);
    }
}

#[test]
fn the_twelve_rows_of_document_01_are_among_the_cases() {
    let cases = asking::SET.cases();
    // Beside the answer stand the visits, and the entries in blocks of 2 and of 4.
    for (kind, question, [first, second], visits, entries) in [
        (0, "Marina", [1, 1], 2, [2, 2]),
        (0, "Marin", [0, 0], 2, [2, 2]),
        (1, "", [0, 0], 1, [1, 1]),
        (1, "Mark", [2, 0], 2, [1, 3]),
        (1, "Maxim", [3, 0], 2, [2, 2]),
        (2, "Mar", [0, 3], 2, [1, 1]),
        (2, "Mark", [2, 1], 2, [1, 3]),
        (2, "Mas", [3, 0], 2, [1, 1]),
        (3, "Mango", [0, 2], 1, [1, 1]),
        (3, "Maxim", [1, 2], 2, [2, 2]),
        (3, "Zoo", [0, 0], 2, [1, 1]),
        (3, "M", [0, 1], 1, [1, 1]),
    ] {
        for (book, entries) in [93, 88].into_iter().zip(entries) {
            let purpose = format!("rows: book {book}, question \"{question}\"");
            let given = numbers(&find(&cases, &purpose).outcome())[kind];
            assert_eq!(given, [0, first, second, visits, entries], "{purpose}");
        }
    }
}

#[test]
fn the_edges_of_document_01_are_among_the_cases() {
    let cases = asking::SET.cases();
    for (purpose, answers, look) in [
        (
            "empty input: book 0, question of 201 bytes",
            "2 0 0 2 0 0 2 0 0 2 0 0 2 0 0",
            [0, 0],
        ),
        (
            "no names: book 16, question \"\"",
            "0 0 0 0 0 0 0 0 0 10 0 0 0 0 0",
            [0, 0],
        ),
        (
            "no names: book 16, question of 200 bytes",
            "0 0 0 0 0 0 0 0 0 10 0 0 0 0 0",
            [0, 0],
        ),
        (
            "no names: book 16, question of 201 bytes",
            "1 0 0 1 0 0 1 0 0 1 0 0 1 0 0",
            [0, 0],
        ),
        (
            "one name of 200 bytes: book 232, question of 200 bytes",
            "0 0 1 0 0 0 0 0 1 0 0 200 0 200 0",
            [1, 1],
        ),
        (
            "one name of 200 bytes: book 232, question of 201 bytes",
            "1 0 0 1 0 0 1 0 0 1 0 0 1 0 0",
            [0, 0],
        ),
        (
            "longest question: book 88, question of 65539 bytes",
            "1 0 0 1 0 0 1 0 0 1 0 0 1 0 0",
            [0, 0],
        ),
        // 1,999 is 31 blocks of 64 and 15, and 1,750 is 27 of them and 22
        (
            "2,000 names: book 30227, question \"\\x07\\xf9\"",
            "0 1999 1 0 1999 0 0 1999 1 0 1999 2 0 2 0",
            [3, 16],
        ),
        (
            "2,000 names: book 30227, question \"\\x07\\xfa\"",
            "0 0 0 0 2000 0 0 2000 0 0 1750 1 0 0 0",
            [2, 23],
        ),
        (
            "2,001 names: book 30243, question \"\"",
            "2 0 0 2 0 0 2 0 0 2 0 0 2 0 0",
            [0, 0],
        ),
        (
            "257 children: book 3902, question \"xy\\xff\"",
            "0 256 1 0 256 0 0 256 1 0 256 3 0 3 0",
            [2, 1],
        ),
        (
            "255 alone: book 151, question \"\\xff\\xff\"",
            "0 1 1 0 1 0 0 1 4 0 1 2 0 5 0",
            [3, 2],
        ),
    ] {
        let outcome = looked(answers, look);
        assert_eq!(find(&cases, purpose).outcome(), outcome, "{purpose}");
    }
    let longest = cases
        .iter()
        .filter(|case| case.purpose().starts_with("book of 65,535: book 65535, "));
    assert!(longest.count() > 20);
}

#[test]
fn every_name_of_the_small_lists_is_asked_for() {
    let cases = asking::SET.cases();
    for (purpose, names) in [
        ("worked example: book 93", lists::example()),
        ("seventy stops: book 1744", lists::stops()),
        ("257 children: book 3902", lists::fan(b"xy")),
    ] {
        for (position, name) in names.iter().enumerate() {
            let purpose = format!("{purpose}, question \"{}\"", name.escape_ascii());
            let kinds = numbers(&find(&cases, &purpose).outcome());
            let [exact, place, range, nearest, _] = kinds.map(|given| [given[1], given[2]]);
            assert!(kinds.iter().all(|&[code, ..]| code == 0), "{purpose}");
            assert_eq!([exact, place], [[position, 1], [position, 0]], "{purpose}");
            assert_eq!(range[0], position, "{purpose}");
            assert_eq!(nearest, [position, name.len()], "{purpose}");
        }
    }
}

#[test]
fn the_width_of_a_range_is_among_the_cases_wherever_its_longest_name_stands() {
    let cases = asking::SET.cases();
    // The longest of the three that begin with M has 9 or 10 bytes, that of all 16.
    for (place, question, width) in [
        ("first", "", 16),
        ("first", "M", 9),
        ("first", "Mb", 3),
        ("in the middle", "M", 10),
        ("in the middle", "Mb", 10),
        ("in the middle", "Mcce", 0),
        ("last", "M", 10),
        ("last", "Ma", 2),
        ("last", "\\xff", 0),
    ] {
        let purpose = format!("longest {place}: book 162, question \"{question}\"");
        let [.., given] = numbers(&find(&cases, &purpose).outcome());
        assert_eq!(given[..3], [0, width, 0], "{purpose}");
    }
}

#[test]
fn nearest_lights_no_half_letter_in_any_case_and_less_than_is_shared_in_many() {
    assert!(held_nearest(&asking::SET, &EXPECTED) > 300);
    assert!(held_nearest(&folded::ASK, &FOLDED_EXPECTED) > 50);
    assert!(held_nearest(&columns::ASK, &COLUMNS_EXPECTED) > 20);
}

/// Holds nearest's numbers to the names in every case of a set. Gives in how many
/// less is lit than is shared.
fn held_nearest(set: &Set<Ask>, expected: &str) -> usize {
    let file = set.case_file();
    let mut less = 0;
    let (mut book, mut kind, mut names) = (&[][..], BookKind::Plain, Vec::new());
    for (case, line) in read_file(&file).iter().zip(expected.lines()) {
        let (_, outcome) = line.split_once(' ').unwrap();
        let [code, position, number, ..] = numbers(outcome)[3];
        if code != 0 {
            continue;
        }
        if book != case.book {
            book = case.book;
            (kind, _, names) = open(book).expect("an accepted book");
        }
        let is_less = hold_nearest(kind, &names, case.question, position, number);
        less += usize::from(is_less);
    }
    less
}

#[test]
fn letters_of_several_bytes_are_among_the_cases() {
    let cases = asking::SET.cases();
    for (letters, question, nearest) in [
        // parts before é, inside it and behind it; ends inside it
        ("è and é: book 104", "B\\xc1", "0 1"),
        ("è and é: book 104", "B\\xc3\\xaa", "0 1"),
        ("è and é: book 104", "B\\xc3\\xa9x", "1 3"),
        ("è and é: book 104", "B\\xc3", "0 2"),
        // the same at the first letter, where nothing is left to be lit
        ("Greek: book 113", "\\xcc", "0 0"),
        ("Greek: book 113", "\\xce\\x93", "0 0"),
        ("Greek: book 113", "\\xce\\x91", "1 2"),
        ("Greek: book 113", "\\xce", "0 1"),
        // an accent of its own, and another one
        ("accents apart: book 99", "Cafe\\xcc\\x81", "2 6"),
        ("accents apart: book 99", "Cafe\\xcc\\x82", "1 4"),
        // four bytes, of which three are shared
        (
            "three and four bytes: book 122",
            "G\\xf0\\x9d\\x84\\x9c",
            "0 1",
        ),
        ("three and four bytes: book 122", "G\\xf0\\x9d\\x84", "0 4"),
        // a byte goes on with a whole letter; a run of them; the first of all
        ("è and é: book 104", "B\\xc3\\xa9\\x80", "1 1"),
        (
            "broken letters: book 203",
            "a\\x80\\x81\\x82\\x83\\x86",
            "3 0",
        ),
        ("broken letters: book 203", "\\x80\\xbf\\x82", "5 0"),
        ("broken letters: book 203", "\\x80", "4 1"),
        // the name goes on with such a byte, the question does not
        ("broken letters: book 203", "a\\x80e", "3 2"),
        ("around 128 and 191: book 34", "ab\\x7f", "0 2"),
        ("around 128 and 191: book 34", "ab\\x80", "0 1"),
        ("around 128 and 191: book 34", "ab\\xbf", "0 1"),
        ("around 128 and 191: book 34", "ab\\xc0", "0 2"),
    ] {
        let purpose = format!("{letters}, question \"{question}\"");
        let [code, position, lit, ..] = numbers(&find(&cases, &purpose).outcome())[3];
        assert_eq!(code, 0, "{purpose}");
        assert_eq!(format!("{position} {lit}"), nearest, "{purpose}");
    }
    // From the last byte but one to the first, and not at all.
    let longest = "longest letter: book 232, question of 200 bytes";
    let longest = cases.iter().filter(|case| case.purpose() == longest);
    let outcomes: Vec<String> = longest.map(Case::outcome).collect();
    let [none, all] = [&outcomes[0], &outcomes[1]].map(|outcome| numbers(outcome));
    assert_eq!(none[3..], [[0, 0, 0, 1, 1], [0, 0, 0, 1, 1]]);
    assert_eq!(all[3..], [[0, 0, 200, 1, 1], [0, 200, 0, 1, 1]]);
}

#[test]
fn the_edges_of_folding_are_among_the_cases() {
    let cases = folded::ASK.cases();
    for (about, question, answers, look) in [
        // exact, place, range, nearest, width; then visits and entries
        (
            "MAR, marina: book 67",
            "mar",
            "0 0 1 0 0 0 0 0 2 0 0 3 0 6 0",
            [2, 1],
        ),
        (
            "MAR, marina: book 67",
            "MARINA",
            "0 1 1 0 1 0 0 1 1 0 1 6 0 6 0",
            [2, 2],
        ),
        (
            "spelt example: book 93",
            "mark",
            "0 0 0 0 2 0 0 2 1 0 2 4 0 13 0",
            [2, 3],
        ),
        (
            "all around the letters: book 755",
            "[",
            "0 7 1 0 7 0 0 7 7 0 7 1 0 2 0",
            [3, 3],
        ),
        (
            "all around the letters: book 755",
            "A",
            "0 21 1 0 21 0 0 21 7 0 21 1 0 2 0",
            [3, 2],
        ),
        (
            "all around the letters: book 755",
            "a",
            "0 21 1 0 21 0 0 21 7 0 21 1 0 2 0",
            [3, 2],
        ),
        (
            "no names: book 16",
            "MAR",
            "0 0 0 0 0 0 0 0 0 10 0 0 0 0 0",
            [0, 0],
        ),
        // CAFÈ to café: three letters and a byte are shared, and three are lit
        (
            "lit by symbols: book 68",
            "CAF\\xc3\\x88",
            "0 0 0 0 0 0 0 0 0 0 0 3 0 0 0",
            [2, 1],
        ),
        (
            "lit by symbols: book 68",
            "CAF\\xc3\\xa9",
            "0 0 1 0 0 0 0 0 1 0 0 5 0 5 0",
            [2, 1],
        ),
        (
            "lit by symbols: book 68",
            "k\\xc3\\xb6LN",
            "0 0 0 0 2 0 0 2 0 0 1 1 0 0 0",
            [2, 2],
        ),
        (
            "lit by symbols: book 68",
            "k\\xc3\\x96LN",
            "0 1 1 0 1 0 0 1 1 0 1 5 0 5 0",
            [2, 2],
        ),
        (
            "the other mark: book 67",
            "mar",
            "2 0 0 2 0 0 2 0 0 2 0 0 2 0 0",
            [0, 0],
        ),
    ] {
        let purpose = format!("{about}, question \"{question}\"");
        let outcome = looked(answers, look);
        assert_eq!(find(&cases, &purpose).outcome(), outcome, "{purpose}");
    }
}

#[test]
fn every_kind_tells_how_far_nearest_looks_in_every_case() {
    for (set, expected, most) in [
        (&asking::SET, &**EXPECTED, [201, 64]),
        (&folded::ASK, &**FOLDED_EXPECTED, [200, 64]),
        (&columns::ASK, &**COLUMNS_EXPECTED, [201, 64]),
        (&asking::DEAREST, &asking::DEAREST.expected(), [200, 64]),
    ] {
        assert_eq!(held_looks(set, expected), most);
    }
}

/// Holds what is told of how far each question looked to the names, in every case of
/// a set: refused ones at nothing. Gives the most visits and the most entries.
fn held_looks(set: &Set<Ask>, expected: &str) -> [usize; 2] {
    let file = set.case_file();
    let mut most = [0, 0];
    let (mut book, mut opened) = (&[][..], None);
    for (case, line) in read_file(&file).iter().zip(expected.lines()) {
        let (number, outcome) = line.split_once(' ').unwrap();
        if book != case.book {
            book = case.book;
            opened = open(book);
        }
        let told = numbers(outcome);
        let expected = match &opened {
            Some((kind, block, names)) if told[0][0] == 0 => {
                look(*kind, *block, names, case.question)
            }
            _ => [0, 0],
        };
        assert_eq!(
            told.map(|given| [given[3], given[4]]),
            [expected; 5],
            "{number}"
        );
        most = [most[0].max(expected[0]), most[1].max(expected[1])];
    }
    most
}

#[test]
fn both_bounds_on_the_visits_are_met_in_many_cases() {
    let (mut by_names, mut by_length) = (0, 0);
    let file = asking::SET.case_file();
    for (case, line) in read_file(&file).iter().zip(EXPECTED.lines()) {
        let (_, outcome) = line.split_once(' ').unwrap();
        let [code, .., visits, _] = numbers(outcome)[0];
        if code == 0 {
            let trailer = case.book.len() - 16;
            let names = u16::from_le_bytes([case.book[trailer], case.book[trailer + 1]]);
            let (names, length) = (usize::from(names), case.question.len());
            assert!(visits <= names && visits <= length + 2);
            by_names += usize::from(names > 0 && visits == names);
            by_length += usize::from(visits == length + 2);
        }
    }
    assert!(by_names > 100 && by_length > 100, "{by_names} {by_length}");
}

#[test]
fn damaged_books_are_asked_questions_of_201_bytes_too() {
    for set in [&asking::SET, &columns::ASK] {
        let file = set.case_file();
        let refused = |case: &&Asked| book_exact(case.book, case.question).code == 2;
        let cases = read_file(&file);
        let long = cases.iter().filter(|case| case.question.len() > 200);
        assert!(long.filter(refused).count() > 40);
    }
}

#[test]
fn the_dearest_books_are_a_file_of_the_same_kind() {
    let file = asking::DEAREST.case_file();
    let cases = read_file(&file);
    let lines = cases.iter().enumerate();
    let text: String = lines.map(|(number, case)| line(number, case)).collect();
    assert_eq!(text, asking::DEAREST.expected());
    // The paths have 4 levels with 250 names each, 32 bytes apart, and 199 with
    // nine; the names of the last fork stand behind those, and share the path
    // with the question.
    // Behind the levels the last fork is visited; the blocks are of 1 and of 64.
    for (purpose, answers, look) in [
        (
            "dearest check: ",
            "0 0 0 0 1003 0 0 1003 0 0 1000 128 0 0 0",
            [5, 1],
        ),
        (
            "dearest question: ",
            "0 0 0 0 2000 0 0 2000 0 0 1791 199 0 0 0",
            [200, 64],
        ),
    ] {
        let mut cases = asking::DEAREST.cases().into_iter();
        let found = cases.find(|case| case.purpose().starts_with(purpose));
        let outcome = looked(answers, look);
        assert_eq!(found.expect(purpose).outcome(), outcome, "{purpose}");
    }
}
