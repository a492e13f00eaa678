//! Bytes as text, and numbers as text.

use std::ffi::OsStr;
use std::os::unix::ffi::OsStrExt;

/// A run of bytes as it is printed: characters stand for themselves. The
/// backslash, characters that steer a terminal or a line, and bytes that are
/// no UTF-8 become a backslash and two upper-case hex digits for each byte.
pub fn shown(bytes: &[u8]) -> String {
    let mut text = String::new();
    for chunk in bytes.utf8_chunks() {
        for character in chunk.valid().chars() {
            if character == '\\' || steers(character) {
                escape(character.encode_utf8(&mut [0; 4]).as_bytes(), &mut text);
            } else {
                text.push(character);
            }
        }
        escape(chunk.invalid(), &mut text);
    }
    text
}

/// A word of the command line as it is printed.
pub fn shown_os(word: &OsStr) -> String {
    quoted_if_empty(shown(word.as_bytes()))
}

/// A question or a name in a sentence, where an empty one must be seen.
pub fn named(bytes: &[u8]) -> String {
    quoted_if_empty(shown(bytes))
}

/// A name in quotes, where blanks at its ends must be seen.
pub fn quoted(bytes: &[u8]) -> String {
    format!("\"{}\"", shown(bytes))
}

/// The text, or two quotes where there is none.
fn quoted_if_empty(text: String) -> String {
    if text.is_empty() {
        return "\"\"".to_string();
    }
    text
}

/// Whether these bytes are a line of text: UTF-8 with nothing that steers.
pub fn is_line(bytes: &[u8]) -> bool {
    std::str::from_utf8(bytes).is_ok_and(|text| !text.chars().any(steers))
}

/// Appends each byte as a backslash and two hex digits.
fn escape(bytes: &[u8], text: &mut String) {
    for byte in bytes {
        text.push_str(&format!("\\{byte:02X}"));
    }
}

/// Characters that are not shown but do something: control characters, line
/// and paragraph ends, changes of the writing direction, the byte order mark,
/// and the two that no XML may have.
fn steers(character: char) -> bool {
    character.is_control()
        || matches!(character,
            '\u{200E}' | '\u{200F}' | '\u{2028}'..='\u{202E}' | '\u{2066}'..='\u{2069}'
            | '\u{FEFF}' | '\u{FFFE}' | '\u{FFFF}')
}

/// How many columns a text takes where every letter is as wide: 2 for the wide
/// letters of East Asia and for pictures, 0 for marks on the letter before.
pub fn columns(text: &str) -> usize {
    text.chars().map(columns_of).sum()
}

/// How many columns a character takes.
fn columns_of(character: char) -> usize {
    match u32::from(character) {
        0x300..=0x36F | 0x200B..=0x200D | 0xFE00..=0xFE0F => 0,
        0x1100..=0x115F
        | 0x2E80..=0xA4CF
        | 0xAC00..=0xD7A3
        | 0xF900..=0xFAFF
        | 0xFE30..=0xFE6F
        | 0xFF00..=0xFF60
        | 0xFFE0..=0xFFE6
        | 0x1F300..=0x1FAFF
        | 0x20000..=0x3FFFD => 2,
        _ => 1,
    }
}

/// A number with a comma before each three digits from the right.
pub fn grouped(number: usize) -> String {
    let digits = number.to_string();
    let mut text = String::new();
    for (index, digit) in digits.chars().enumerate() {
        if index > 0 && (digits.len() - index).is_multiple_of(3) {
            text.push(',');
        }
        text.push(digit);
    }
    text
}

/// A number and its noun: `1 name`, `2 names`.
pub fn counted(number: usize, noun: &str) -> String {
    match number {
        1 => format!("1 {noun}"),
        _ => format!("{} {noun}s", grouped(number)),
    }
}

#[cfg(test)]
mod tests {
    use super::*;

    #[test]
    fn text_stands_for_itself_and_other_bytes_are_escaped() {
        assert_eq!(shown(b"Market Square"), "Market Square");
        assert_eq!(shown("École 駅".as_bytes()), "École 駅");
        assert_eq!(shown(b"a\\b"), "a\\5Cb");
        assert_eq!(shown(b"a\nb\x1B[0m\x7F"), "a\\0Ab\\1B[0m\\7F");
        assert_eq!(shown(b"\xC3"), "\\C3");
        assert_eq!(shown(b"caf\xE9 au"), "caf\\E9 au");
        assert_eq!(shown("\u{202E}x".as_bytes()), "\\E2\\80\\AEx");
        assert_eq!(shown("\u{FFFF}".as_bytes()), "\\EF\\BF\\BF");
        assert_eq!(shown(b""), "");
        assert_eq!(named(b""), "\"\"");
        assert_eq!(quoted(b" Mar"), "\" Mar\"");
    }

    #[test]
    fn every_byte_alone_is_printed_as_document_01_says() {
        for byte in 0..=255u8 {
            let expected = match byte {
                b'\\' => "\\5C".to_string(),
                32..=126 => char::from(byte).to_string(),
                _ => format!("\\{byte:02X}"),
            };
            assert_eq!(shown(&[byte]), expected);
        }
    }

    #[test]
    fn a_line_has_nothing_that_steers() {
        assert!(is_line("École\\ Ronde".as_bytes()));
        assert!(is_line(b""));
        for bad in [&b"a\nb"[..], b"a\r", b"\xFF", b"\t", b"\xEF\xBB\xBFa"] {
            assert!(!is_line(bad), "{bad:?}");
        }
    }

    #[test]
    fn wide_letters_take_two_columns_and_marks_none() {
        assert_eq!(columns("Mar"), 3);
        assert_eq!(columns("駅前"), 4);
        assert_eq!(columns("e\u{301}"), 1);
    }

    #[test]
    fn numbers_are_grouped_and_counted() {
        assert_eq!(grouped(0), "0");
        assert_eq!(grouped(999), "999");
        assert_eq!(grouped(65_535), "65,535");
        assert_eq!(grouped(1_234_567), "1,234,567");
        assert_eq!(counted(1, "name"), "1 name");
        assert_eq!(counted(0, "name"), "0 names");
        assert_eq!(counted(2_001, "name"), "2,001 names");
    }
}
