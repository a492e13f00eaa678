//! What C is told is what Rust is told: `include/mistrogu.h` has the same
//! version, names, numbers, sentences and structs.

use mistrogu::{BookKind, Kind, Refusal};
use proved::{Answer, Counted, Head, Kept, Row};
use std::mem::{offset_of, size_of};

const HEADER: &str = include_str!("../../../include/mistrogu.h");
const CHANGES: &str = include_str!("../../../CHANGELOG.md");
const WORKSPACE: &str = include_str!("../../Cargo.toml");

/// `NotAbove` as C writes it: `MISTROGU_NOT_ABOVE`.
fn in_c(name: &str) -> String {
    let mut written = "MISTROGU".to_string();
    for letter in name.chars() {
        if letter.is_uppercase() {
            written.push('_');
        }
        written.push(letter.to_ascii_uppercase());
    }
    written
}

/// The line of the header's constant of this name, and the line over it.
fn constant(name: &str) -> (&'static str, &'static str) {
    let lines: Vec<&str> = HEADER.lines().map(str::trim).collect();
    let is_it = |line: &&str| line.split(' ').any(|word| word == name);
    let number = lines.iter().position(is_it);
    let number = number.unwrap_or_else(|| panic!("{name} is not in the header"));
    (lines[number].trim_end_matches(','), lines[number - 1])
}

/// A sentence with its capital and full stop, as a comment of C.
fn comment(sentence: &str) -> String {
    let (first, rest) = sentence.split_at(1);
    format!("/* {}{rest}. */", first.to_uppercase())
}

#[test]
fn the_version_is_the_same_everywhere() {
    let version = mistrogu::VERSION;
    let line = format!("#define MISTROGU_VERSION \"{version}\"");
    assert!(HEADER.lines().any(|other| other == line), "{line}");
    let newest = CHANGES.lines().find_map(|line| line.strip_prefix("## "));
    let newest = newest.and_then(|title| title.split([' ', ':']).next());
    assert_eq!(newest, Some(version), "CHANGELOG.md");

    let members = WORKSPACE.lines().find(|line| line.starts_with("members"));
    let members = members.expect("the workspace has members").split('"');
    for member in members.skip(1).step_by(2) {
        let path = format!("{}/../{member}/Cargo.toml", env!("CARGO_MANIFEST_DIR"));
        let manifest = std::fs::read_to_string(&path).expect("each member has a manifest");
        let inherits = |line| line == "version.workspace = true";
        assert!(
            manifest.lines().any(inherits),
            "{member} has another version"
        );
    }
}

#[test]
fn refusals() {
    for refusal in Refusal::ALL {
        let name = in_c(&format!("{refusal:?}"));
        let (line, over) = constant(&name);
        assert_eq!(line, format!("{name} = {}", refusal.number()));
        assert_eq!(over, comment(refusal.sentence()));
    }
}

#[test]
fn kinds() {
    for kind in Kind::ALL {
        let name = in_c(&format!("{kind:?}"));
        assert_eq!(constant(&name).0, format!("{name} = {}", kind.number()));
    }
}

#[test]
fn kinds_of_book() {
    for kind in BookKind::ALL {
        let (name, mark) = (in_c(&format!("{kind:?}")), kind.mark());
        let mark = str::from_utf8(&mark).unwrap();
        let line = format!("#define {name}_MARK \"{mark}\"");
        assert!(HEADER.lines().any(|other| other == line), "{line}");
    }
}

#[test]
fn limits() {
    for (name, limit) in [
        ("MISTROGU_LONGEST_NAME", mistrogu::LONGEST_NAME),
        ("MISTROGU_MOST_NAMES", mistrogu::MOST_NAMES),
        ("MISTROGU_LONGEST_BOOK", mistrogu::LONGEST_BOOK),
        ("MISTROGU_MOST_ROWS", mistrogu::MOST_ROWS),
        ("MISTROGU_MOST_STOPS", mistrogu::MOST_STOPS),
        ("MISTROGU_MOST_SALVAGED", mistrogu::MOST_SALVAGED),
        ("MISTROGU_LARGEST_BLOCK", mistrogu::LARGEST_BLOCK),
        ("MISTROGU_BUILD_STACK", mistrogu::BUILD_STACK),
        ("MISTROGU_STACK", mistrogu::STACK),
    ] {
        let line = format!("#define {name} {limit}");
        assert_eq!(
            HEADER.lines().filter(|&other| other == line).count(),
            1,
            "{line}"
        );
    }
}

/// The fields of the header's struct of this name, which are words.
fn fields(name: &str) -> Vec<&'static str> {
    let opens = format!("\nstruct mistrogu_{name} {{\n");
    let (_, rest) = HEADER.split_once(&opens).expect("the struct is there");
    let (body, _) = rest.split_once("\n};\n").expect("a struct ends");
    let lines = body.lines().map(str::trim);
    let field = |line: &'static str| line.strip_prefix("size_t ")?.strip_suffix(';');
    lines.map(|line| field(line).expect(line)).collect()
}

/// Asserts that the header's struct of this name has these fields, each one word
/// behind the one before, and no others; and that Rust lays it out so.
fn assert_laid_out<T>(name: &str, offsets: &[(&str, usize)]) {
    let words = (0..).step_by(size_of::<usize>());
    let in_c: Vec<(&str, usize)> = fields(name).into_iter().zip(words).collect();
    assert_eq!(in_c, offsets, "{name}");
    assert_eq!(size_of::<T>(), offsets.len() * size_of::<usize>(), "{name}");
}

/// The names of a struct's fields, each with its offset.
macro_rules! offsets {
    ($of:ident: $($field:ident),*) => {
        [$((stringify!($field), offset_of!($of, $field))),*]
    };
}

#[test]
fn structs() {
    assert_laid_out::<Answer>("answer", &offsets!(Answer: code, first, second));
    let counted = offsets!(Counted: code, first, second, visits, entries);
    assert_laid_out::<Counted>("counted", &counted);
    assert_laid_out::<Row>("row", &offsets!(Row: kind, start, length));
    assert_laid_out::<Kept>("kept", &offsets!(Kept: kept, names));
    assert_laid_out::<Head>("head", &offsets!(Head: list, start, length));
    let opens = |line: &&str| line.starts_with("struct ") && line.ends_with(" {");
    assert_eq!(HEADER.lines().filter(opens).count(), 5);
}

/// How the arguments of a call begin.
const OPENS: &str = "(\n    const uint8_t *";

#[test]
fn calls() {
    let answers = [
        "book_build",
        "book_build_folded",
        "book_check",
        "book_read",
        "book_batch",
        "book_to_columns",
        "book_from_columns",
        "book_salvage",
        "list_merge",
        "list_judge",
        "announce_clip",
        "announce_route",
    ];
    let counted = [
        "book_exact",
        "book_place",
        "book_range",
        "book_nearest",
        "book_width",
    ];
    let heads = ["list_head"];
    let all = [
        ("answer", &answers[..]),
        ("counted", &counted),
        ("head", &heads),
    ];
    for (gives, calls) in all {
        for call in calls {
            let declared = format!("struct mistrogu_{gives} MISTROGU_CALL({call}){OPENS}");
            assert_eq!(HEADER.matches(&declared).count(), 1, "{call}");
        }
    }
    let calls = all.iter().map(|(_, calls)| calls.len()).sum();
    assert_eq!(HEADER.matches(OPENS).count(), calls);
    // And one function that is compiled with what includes the header.
    let own = "static inline size_t mistrogu_blocks_of(const uint8_t *card, size_t length)\n{";
    assert_eq!(HEADER.matches(own).count(), 1);
    assert_eq!(HEADER.matches("(const uint8_t *").count(), 1);
}
