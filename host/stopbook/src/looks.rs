//! How names look: what in a text of names was hardly meant to be there.
//!
//! A control character in a line shows that the text is something else than lines of
//! names. Blanks at the ends of a name cannot be seen, and neither can it be seen how
//! an accent is composed; so two names may look alike and be two stops. Names are
//! taken to look alike where they have one key: letters with marks taken apart, all
//! in small letters, each run of blanks as one, and none at the ends.

use crate::accents;
use crate::names::Line;
use std::collections::{HashMap, HashSet};

/// A control character: it can stand in no name.
fn is_control(character: char) -> bool {
    matches!(character, '\0'..='\u{1F}' | '\u{7F}'..='\u{9F}')
}

/// A blank: the space, those that no line is broken at, and the wide one.
fn is_blank(character: char) -> bool {
    matches!(
        character,
        ' ' | '\u{A0}' | '\u{2007}' | '\u{202F}' | '\u{3000}'
    )
}

/// The first control character of a name: what it is, where, and what to do.
pub fn control(name: &str) -> Option<String> {
    let (at, found) = name.char_indices().find(|&(_, found)| is_control(found))?;
    let (what, advice) = match found {
        '\0' => (", a zero", "if the file is UTF-16, save it as UTF-8"),
        '\t' => (", a tab", "take it out"),
        '\r' => (", a carriage return", "end lines with LF or CR LF"),
        _ => ("", "take it out"),
    };
    Some(format!(
        "control character U+{:04X}{what}, at byte {}; {advice}, or give --as-is",
        u32::from(found),
        at + 1
    ))
}

/// A name without the blanks before and behind it.
pub fn trimmed(name: &[u8]) -> &[u8] {
    match std::str::from_utf8(name) {
        Ok(text) => text.trim_matches(is_blank).as_bytes(),
        Err(_) => name,
    }
}

/// Where a name has blanks that cannot be seen.
#[derive(Clone, Copy, Debug, PartialEq, Eq)]
pub enum Blanks {
    /// Before it.
    Before,
    /// Behind it.
    Behind,
    /// Before and behind it.
    Around,
    /// It has nothing else.
    Only,
}

impl Blanks {
    /// Those of a name, where it has some.
    pub fn of(name: &[u8]) -> Option<Blanks> {
        let text = std::str::from_utf8(name).unwrap_or_default();
        let (before, behind) = (text.starts_with(is_blank), text.ends_with(is_blank));
        match (before, behind) {
            _ if trimmed(name).is_empty() => Some(Blanks::Only),
            (true, true) => Some(Blanks::Around),
            (true, false) => Some(Blanks::Before),
            (false, true) => Some(Blanks::Behind),
            (false, false) => None,
        }
    }
}

/// In what names that look alike may differ.
#[derive(Clone, Copy, Debug, PartialEq, Eq)]
enum Difference {
    Accents,
    Blanks,
    Capitals,
}

impl Difference {
    /// Every one, with its words.
    const ALL: [(Difference, &'static str); 3] = [
        (Difference::Accents, "how accents are composed"),
        (Difference::Blanks, "blanks"),
        (Difference::Capitals, "capitals"),
    ];
}

/// A name without any of these differences, but for one that is left as it is.
fn key_but(left: Option<Difference>, name: &[u8]) -> String {
    let mut key = String::from_utf8_lossy(name).into_owned();
    if left != Some(Difference::Blanks) {
        let words = key.split(is_blank).filter(|word| !word.is_empty());
        key = words.collect::<Vec<_>>().join(" ");
    }
    if left != Some(Difference::Accents) {
        key = taken_apart(&key);
    }
    if left != Some(Difference::Capitals) {
        key = key.chars().flat_map(char::to_lowercase).collect();
    }
    key
}

/// A text with its letters taken apart.
fn taken_apart(text: &str) -> String {
    let mut parts = String::new();
    for letter in text.chars() {
        match accents::apart(letter) {
            Some(apart) => parts.push_str(apart),
            None => parts.push(letter),
        }
    }
    parts
}

/// What names that look alike have in common.
fn key(name: &[u8]) -> String {
    key_but(None, name)
}

/// Two different names that look alike.
#[derive(Clone, Debug, PartialEq, Eq)]
pub struct Alike {
    /// The line that comes later.
    pub line: Line,
    /// The first line with a name that looks like it.
    pub first: Line,
}

impl Alike {
    /// In what they differ, such as `blanks and capitals`.
    pub fn difference(&self) -> String {
        let (one, other) = (&self.line.name, &self.first.name);
        let differ = |left| key_but(Some(left), one) != key_but(Some(left), other);
        let found = Difference::ALL.iter().filter(|(left, _)| differ(*left));
        let words: Vec<&str> = found.map(|(_, words)| *words).collect();
        match words.as_slice() {
            [front @ .., last] if !front.is_empty() => format!("{} and {last}", front.join(", ")),
            [word] => word.to_string(),
            // The small letter of a capital with a dot is two characters by itself.
            _ => Difference::ALL[0].1.to_string(),
        }
    }
}

/// Those of these lines, each with another name, that look like one before them; in
/// the order of the file.
pub fn alike(lines: &[Line]) -> Vec<Alike> {
    let mut lines: Vec<&Line> = lines.iter().collect();
    lines.sort_by_key(|line| line.number);
    let mut firsts = HashMap::new();
    let mut found = Vec::new();
    for line in lines {
        let first: &Line = firsts.entry(key(&line.name)).or_insert(line);
        if first.number != line.number {
            found.push(Alike {
                line: line.clone(),
                first: first.clone(),
            });
        }
    }
    found
}

/// Those lines of a second text that look like one of a first and have no name of it.
pub fn alike_across(first: &[Line], second: &[Line]) -> Vec<Alike> {
    let names: HashSet<&[u8]> = first.iter().map(|line| &line.name[..]).collect();
    let mut firsts: HashMap<String, &Line> = HashMap::new();
    for line in first {
        let known = firsts.entry(key(&line.name)).or_insert(line);
        if line.number < known.number {
            *known = line;
        }
    }
    let others = second.iter().filter(|line| !names.contains(&line.name[..]));
    let mut found: Vec<Alike> = others
        .filter_map(|line| {
            let first = firsts.get(&key(&line.name))?;
            Some(Alike {
                line: line.clone(),
                first: (*first).clone(),
            })
        })
        .collect();
    found.sort_by_key(|alike| alike.line.number);
    found
}

#[cfg(test)]
mod tests {
    use super::*;

    /// Lines with these names, counted from 1.
    fn lines(names: &[&str]) -> Vec<Line> {
        let line = |(index, name): (usize, &&str)| Line {
            number: index + 1,
            name: name.as_bytes().to_vec(),
        };
        names.iter().enumerate().map(line).collect()
    }

    /// The numbers of lines that look alike, the later first.
    fn pairs(found: &[Alike]) -> Vec<(usize, usize)> {
        let pair = |alike: &Alike| (alike.line.number, alike.first.number);
        found.iter().map(pair).collect()
    }

    #[test]
    fn control_characters_are_those_below_the_blank_and_from_del_to_9f() {
        for code in 0..0x200 {
            let character = char::from_u32(code).expect("there are no gaps so low");
            let expected = code <= 0x1F || (0x7F..=0x9F).contains(&code);
            let found = control(&format!("é{character}"));
            assert_eq!(found.is_some(), expected, "{code:X}");
            if let Some(text) = found {
                let named = format!("control character U+{code:04X}");
                assert!(
                    text.starts_with(&named) && text.contains("at byte 3;"),
                    "{text}"
                );
            }
        }
        assert_eq!(control("Mar\u{2028}\u{FEFF}"), None);
        assert!(control("M\0").unwrap().contains("UTF-16"));
    }

    #[test]
    fn blanks_are_taken_off_both_ends_and_stay_inside() {
        let blanks = " \u{A0}\u{2007}\u{202F}\u{3000}";
        let name = format!("{blanks}Old{blanks}Mill{blanks}");
        let expected = format!("Old{blanks}Mill");
        assert_eq!(trimmed(name.as_bytes()), expected.as_bytes());
        assert_eq!(trimmed(blanks.as_bytes()), b"");
        // Other white space is none of these, and neither are bytes that are no text.
        assert_eq!(
            trimmed("\tMar\u{2003}".as_bytes()),
            "\tMar\u{2003}".as_bytes()
        );
        assert_eq!(trimmed(b" \xFF "), b" \xFF ");
    }

    #[test]
    fn where_blanks_stand_is_told() {
        let of = |name: &str| Blanks::of(name.as_bytes());
        assert_eq!(of("Old Mill"), None);
        assert_eq!(of(" Mar"), Some(Blanks::Before));
        assert_eq!(of("Mar\u{A0}"), Some(Blanks::Behind));
        assert_eq!(of("\u{3000}Mar "), Some(Blanks::Around));
        assert_eq!(of(" \u{2007}"), Some(Blanks::Only));
    }

    #[test]
    fn names_look_alike_but_for_accents_blanks_and_capitals() {
        let cases = [
            ("École", "E\u{301}cole", "how accents are composed"),
            ("İskele", "I\u{307}skele", "how accents are composed"),
            ("Mar", "Mar ", "blanks"),
            ("Old Mill", "Old\u{A0} Mill", "blanks"),
            ("Mar", "MAR", "capitals"),
            ("École", "école", "capitals"),
            (
                "École A",
                "e\u{301}cole  A",
                "how accents are composed, blanks and capitals",
            ),
            (
                "Đông Ðế",
                "đông ðe\u{302}\u{301}",
                "how accents are composed and capitals",
            ),
        ];
        for (one, other, difference) in cases {
            let found = alike(&lines(&[one, other]));
            assert_eq!(pairs(&found), [(2, 1)], "{one} {other}");
            assert_eq!(found[0].difference(), difference, "{one} {other}");
        }
        for (one, other) in [
            ("Ecole", "École"),
            ("Old Mill", "OldMill"),
            ("é", "è"),
            ("o", "ø"),
        ] {
            assert_eq!(alike(&lines(&[one, other])), [], "{one} {other}");
        }
    }

    #[test]
    fn each_name_is_told_once_with_the_first_that_it_looks_like() {
        let lines = lines(&["zoo", "MAR", "Zoo", "Mar", "mar", "ZOO"]);
        assert_eq!(pairs(&alike(&lines)), [(3, 1), (4, 2), (5, 2), (6, 1)]);
        let rising: Vec<Line> = lines.iter().rev().cloned().collect();
        assert_eq!(alike(&rising), alike(&lines));
    }

    #[test]
    fn of_two_texts_those_are_told_that_are_not_in_both() {
        let first = lines(&["Mar", "MAR", "Zoo"]);
        let second = lines(&["zoo", "Mar", "mar"]);
        assert_eq!(pairs(&alike_across(&first, &second)), [(1, 3), (3, 1)]);
        assert_eq!(alike_across(&first, &first), []);
        assert_eq!(alike_across(&first, &[]), []);
    }
}
