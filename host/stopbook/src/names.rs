//! A file with a name on each line.
//!
//! Lines end with a line feed; a carriage return before it is no part of the
//! name, and neither is a byte order mark at the start of the file. Empty
//! lines are skipped. Lines are counted from 1, the empty ones too.
//!
//! What else of a line is a name, and what is bad, goes by how it is taken.

use crate::looks;
use crate::text::counted;
use mistrogu::{BookKind, LONGEST_NAME};

/// The byte order mark in UTF-8.
const MARK: &[u8] = b"\xEF\xBB\xBF";

/// How the lines of a file are taken.
#[derive(Clone, Copy, Debug, PartialEq, Eq)]
pub enum Taking {
    /// With their blanks; a control character makes a line bad.
    Careful,
    /// The same, but without the blanks at the ends of a line.
    Trimmed,
    /// Every line as it is.
    AsIs,
}

/// A name and the line where it stands.
#[derive(Clone, Debug, PartialEq, Eq)]
pub struct Line {
    /// Counted from 1.
    pub number: usize,
    /// The name.
    pub name: Vec<u8>,
}

/// A line that repeats a name. For a folded book it may be spelt otherwise.
#[derive(Clone, Debug, PartialEq, Eq)]
pub struct Double {
    /// The line.
    pub line: Line,
    /// The line where the same name stands first.
    pub first: Line,
}

/// A line that cannot be a name, or what else is read from lines.
#[derive(Clone, Debug, PartialEq, Eq)]
pub struct Bad {
    /// Counted from 1.
    pub number: usize,
    /// What is wrong, and what to do.
    pub why: String,
}

/// What stands in a file of names.
#[derive(Debug, Default)]
pub struct Names {
    /// The names, rising for their kind of book, each once, where it stands first.
    pub rising: Vec<Line>,
    /// The lines that repeat a name, in the order of the file.
    pub doubles: Vec<Double>,
    /// The lines that cannot be a name, in the order of the file.
    pub bad: Vec<Bad>,
    /// The lines with a control character, in the order of the file.
    pub control: Vec<Bad>,
}

/// Reads the bytes of a file, as names for this kind of book.
pub fn parse(kind: BookKind, taking: Taking, bytes: &[u8]) -> Names {
    let mut names = Names::default();
    let mut found = Vec::new();
    for (number, line) in lines(bytes) {
        let name = match taking {
            Taking::Trimmed => looks::trimmed(line),
            Taking::Careful | Taking::AsIs => line,
        };
        if !name.is_empty() {
            found.extend(judge(number, name, taking, &mut names));
        }
    }
    sort(kind, found, &mut names);
    names
}

/// The lines of a file, without their ends, and each with its number.
pub fn lines(bytes: &[u8]) -> impl Iterator<Item = (usize, &[u8])> {
    let bytes = bytes.strip_prefix(MARK).unwrap_or(bytes);
    let lines = bytes.split_inclusive(|&byte| byte == b'\n');
    (1..).zip(lines.map(without_end))
}

/// A line without its end, where it has one: LF or CR LF.
fn without_end(line: &[u8]) -> &[u8] {
    match line.strip_suffix(b"\n") {
        Some(line) => line.strip_suffix(b"\r").unwrap_or(line),
        None => line,
    }
}

/// The line with this name, unless it is bad, which is noted.
fn judge(number: usize, name: &[u8], taking: Taking, names: &mut Names) -> Option<Line> {
    let text = match std::str::from_utf8(name) {
        Ok(text) => text,
        Err(error) => {
            let why = not_utf8(name, error.valid_up_to());
            names.bad.push(Bad { number, why });
            return None;
        }
    };
    if let Some(why) = looks::control(text).filter(|_| taking != Taking::AsIs) {
        names.control.push(Bad { number, why });
        return None;
    }
    if let Some(why) = too_long(name) {
        names.bad.push(Bad { number, why });
        return None;
    }
    let name = name.to_vec();
    Some(Line { number, name })
}

/// Sorts the lines as this kind of book does, and parts the doubles from the first
/// of each name.
fn sort(kind: BookKind, mut lines: Vec<Line>, names: &mut Names) {
    // A stable sort, so that of equal names the first line stays in front.
    lines.sort_by(|one, other| kind.order(&one.name, &other.name));
    for same in lines.chunk_by(|one, other| kind.order(&one.name, &other.name).is_eq()) {
        let first = &same[0];
        names.rising.push(first.clone());
        names.doubles.extend(same[1..].iter().map(|line| Double {
            line: line.clone(),
            first: first.clone(),
        }));
    }
    names.doubles.sort_by_key(|double| double.line.number);
}

/// Where a name stops being UTF-8, and what to do.
fn not_utf8(name: &[u8], at: usize) -> String {
    let byte = name.get(at).copied().unwrap_or_default();
    format!(
        "not UTF-8 at byte {} ({byte:02X}); save the file as UTF-8",
        at + 1
    )
}

/// By how much a name is too long, where it is.
fn too_long(name: &[u8]) -> Option<String> {
    let over = name.len().checked_sub(LONGEST_NAME + 1)? + 1;
    Some(format!(
        "the name has {}, and {LONGEST_NAME} are the most; shorten it by {over}",
        counted(name.len(), "byte")
    ))
}

/// Whether these bytes look like UTF-16, the other thing that editors save.
pub fn is_utf16(bytes: &[u8]) -> bool {
    bytes.starts_with(b"\xFF\xFE") || bytes.starts_with(b"\xFE\xFF")
}

/// The list of document 01: each name behind its length. The names have at
/// most 200 bytes each.
pub fn records(names: &[Vec<u8>]) -> Vec<u8> {
    let mut list = Vec::new();
    for name in names {
        list.push(name.len() as u8);
        list.extend_from_slice(name);
    }
    list
}

/// The names in a list that the library has written.
pub fn in_records(mut list: &[u8]) -> Vec<&[u8]> {
    let mut names = Vec::new();
    while let Some((&length, behind)) = list.split_first() {
        let (name, rest) = behind.split_at(behind.len().min(usize::from(length)));
        names.push(name);
        list = rest;
    }
    names
}

/// A text in which [`parse`] finds these names again, where it takes lines as they
/// are: a line for each. What it would take for the end of a line, or for a byte order
/// mark, stands there once more than in the name.
pub fn text(names: &[&[u8]]) -> Vec<u8> {
    let mut text = Vec::new();
    if names.first().is_some_and(|name| name.starts_with(MARK)) {
        text.extend_from_slice(MARK);
    }
    for name in names {
        text.extend_from_slice(name);
        if name.ends_with(b"\r") {
            text.push(b'\r');
        }
        text.push(b'\n');
    }
    text
}

#[cfg(test)]
mod tests {
    use super::*;

    /// What stands in a text for a plain book, with every line as it is.
    fn plain(text: &[u8]) -> Names {
        parse(BookKind::Plain, Taking::AsIs, text)
    }

    /// The names that were found.
    fn found(names: &Names) -> Vec<&[u8]> {
        names.rising.iter().map(|line| &line.name[..]).collect()
    }

    /// The names of a text.
    fn rising(text: &[u8]) -> Vec<String> {
        let names = plain(text);
        assert_eq!((&names.bad, &names.control), (&vec![], &vec![]));
        let text = |line: Line| String::from_utf8(line.name).expect("names are UTF-8");
        names.rising.into_iter().map(text).collect()
    }

    #[test]
    fn names_are_sorted_by_their_bytes() {
        let text = "École\nMarina\nmar\nMarket Square\nMar\n";
        let expected = ["Mar", "Marina", "Market Square", "mar", "École"];
        assert_eq!(rising(text.as_bytes()), expected);
    }

    #[test]
    fn a_mark_carriage_returns_and_empty_lines_are_no_names() {
        assert_eq!(
            rising(b"\xEF\xBB\xBFMarina\r\n\r\n\nMar"),
            ["Mar", "Marina"]
        );
        assert!(rising(b"").is_empty());
        assert!(rising(b"\n\r\n\n").is_empty());
        assert!(rising(b"\xEF\xBB\xBF").is_empty());
        // Only one carriage return belongs to the end of a line, and none without
        // a line feed.
        assert_eq!(rising(b"a\r\r\n"), ["a\r"]);
        assert_eq!(rising(b"a\rb\r"), ["a\rb\r"]);
    }

    #[test]
    fn doubles_are_told_with_both_lines() {
        let names = plain(b"b\na\n\nb\na\nb\n");
        assert_eq!(found(&names), [b"a", b"b"]);
        let numbers: Vec<usize> = names.rising.iter().map(|line| line.number).collect();
        assert_eq!(numbers, [2, 1]);
        let told: Vec<(usize, usize)> = names
            .doubles
            .iter()
            .map(|double| (double.line.number, double.first.number))
            .collect();
        assert_eq!(told, [(4, 1), (5, 2), (6, 1)]);
        assert_eq!(names.doubles[0].line.name, b"b");
    }

    #[test]
    fn for_a_folded_book_names_in_another_case_are_doubles_and_the_first_is_kept() {
        let text = b"zoo\nMAR\nabbey\nMar\n[\nmar\nZoo\n\xC3\x89\n\xC3\xA9\n";
        let names = parse(BookKind::Folded, Taking::Careful, text);
        let rising: [&[u8]; 6] = [b"[", b"abbey", b"MAR", b"zoo", b"\xC3\x89", b"\xC3\xA9"];
        assert_eq!(found(&names), rising);
        let told: Vec<(&[u8], &[u8], usize)> = names
            .doubles
            .iter()
            .map(|double| {
                (
                    &double.line.name[..],
                    &double.first.name[..],
                    double.first.number,
                )
            })
            .collect();
        let expected: [(&[u8], &[u8], usize); 3] = [
            (b"Mar", b"MAR", 2),
            (b"mar", b"MAR", 2),
            (b"Zoo", b"zoo", 1),
        ];
        assert_eq!(told, expected);
        assert!(plain(text).doubles.is_empty());
    }

    #[test]
    fn bad_lines_are_told_by_number() {
        let mut text = b"Mar\n\nca\xE9\n".to_vec();
        text.extend([b'x'; 200]);
        text.push(b'\n');
        text.extend([b'y'; 201]);
        let names = plain(&text);
        let numbers: Vec<usize> = names.bad.iter().map(|bad| bad.number).collect();
        assert_eq!(numbers, [3, 5]);
        assert!(names.bad[0].why.contains("byte 3 (E9)"));
        assert!(names.bad[1].why.contains("201 bytes"));
        assert!(names.bad[1].why.contains("by 1"));
        assert_eq!(found(&names), [&b"Mar"[..], &[b'x'; 200]]);
    }

    #[test]
    fn a_control_character_makes_a_line_bad_unless_lines_are_taken_as_they_are() {
        let text = b"Mar\r\na\tb\n\xFF\t\nMarina\nc\r\r\n\xC2\x85\nlast\r";
        for taking in [Taking::Careful, Taking::Trimmed] {
            let names = parse(BookKind::Plain, taking, text);
            let numbers: Vec<usize> = names.control.iter().map(|bad| bad.number).collect();
            assert_eq!(numbers, [2, 5, 6, 7]);
            assert!(names.control[1].why.contains("U+000D"));
            assert_eq!((names.bad.len(), names.bad[0].number), (1, 3));
            assert_eq!(found(&names), [&b"Mar"[..], b"Marina"]);
        }
        let names = plain(text);
        assert_eq!((names.control.len(), names.bad.len()), (0, 1));
        assert_eq!(names.rising.len(), 6);
    }

    #[test]
    fn blanks_are_taken_off_where_that_is_wanted_before_anything_is_judged() {
        let mut text = b" Mar \nMar\n  \n\xC2\xA0\r\nOld  Mill\r\n   ".to_vec();
        text.extend([b'x'; 200]);
        let names = parse(BookKind::Plain, Taking::Trimmed, &text);
        assert_eq!(found(&names), [&b"Mar"[..], b"Old  Mill", &[b'x'; 200]]);
        assert_eq!((names.bad.len(), names.doubles.len()), (0, 1));
        let names = parse(BookKind::Plain, Taking::Careful, &text);
        let expected: [&[u8]; 5] = [b"  ", b" Mar ", b"Mar", b"Old  Mill", b"\xC2\xA0"];
        assert_eq!(found(&names), expected);
        assert_eq!((names.bad.len(), names.doubles.len()), (1, 0));
    }

    #[test]
    fn a_length_is_counted_in_bytes() {
        let mut text = "é".repeat(100).into_bytes();
        let bad = |text: &[u8]| plain(text).bad.len();
        assert_eq!(bad(&text), 0);
        text.push(b'e');
        assert_eq!(bad(&text), 1);
    }

    #[test]
    fn records_have_their_length_in_front() {
        let names = [b"Mar".to_vec(), b"Marina".to_vec()];
        assert_eq!(records(&names), b"\x03Mar\x06Marina");
        assert!(records(&[]).is_empty());
    }

    #[test]
    fn names_are_found_in_their_records_again() {
        let names = [b"Mar".to_vec(), vec![b'x'; 200]];
        assert_eq!(in_records(&records(&names)), names);
        assert!(in_records(b"").is_empty());
    }

    #[test]
    fn a_text_of_names_is_read_as_these_names() {
        let cases: [&[&[u8]]; 5] = [
            &[],
            &[b"Mar", b"Marina"],
            &[b"Mar", b"Mar\r", b"Mar\r\r", b"\xC3\x89cole"],
            &[b"\xEF\xBB\xBF"],
            &[b"\xEF\xBB\xBF\r", b"\xEF\xBB\xBFMar"],
        ];
        for names in cases {
            let read = plain(&text(names));
            assert_eq!(found(&read), names);
            assert_eq!((read.bad, read.doubles), (vec![], vec![]));
        }
        assert_eq!(text(&[b"Mar", b"Marina"]), b"Mar\nMarina\n");
    }
}
