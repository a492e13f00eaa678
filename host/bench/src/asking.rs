//! The five questions, of the book in a file.

use crate::{read_file, Ready};
use format::Kind;

/// A call that asks a question of a book.
pub type Ask<Counted> = fn(&[u8], &[u8]) -> Counted;

/// The measured calls, in the order of the kinds' numbers.
const MEASURED: [Ask<proved::Counted>; 5] = [
    measured_exact,
    measured_place,
    measured_range,
    measured_nearest,
    measured_width,
];

/// The measured call of a question of this kind.
pub fn call_of(kind: Kind) -> Ask<proved::Counted> {
    MEASURED[kind.index()]
}

/// Makes `book_exact` ready from a file's name and a question.
pub fn exact(words: &[String]) -> Result<Ready, String> {
    ready(words, measured_exact, model::book_exact)
}

/// Makes `book_place` ready.
pub fn place(words: &[String]) -> Result<Ready, String> {
    ready(words, measured_place, model::book_place)
}

/// Makes `book_range` ready.
pub fn range(words: &[String]) -> Result<Ready, String> {
    ready(words, measured_range, model::book_range)
}

/// Makes `book_nearest` ready.
pub fn nearest(words: &[String]) -> Result<Ready, String> {
    ready(words, measured_nearest, model::book_nearest)
}

/// Makes `book_width` ready.
pub fn width(words: &[String]) -> Result<Ready, String> {
    ready(words, measured_width, model::book_width)
}

/// Makes a call ready from a file's name and a question.
fn ready(
    words: &[String],
    measured: Ask<proved::Counted>,
    model: Ask<model::Counted>,
) -> Result<Ready, String> {
    let [file, question] = words else {
        return Err(
            "a question needs the name of a book file and a text, or hex: and digits".into(),
        );
    };
    let book = read_file(file)?;
    let question = read_question(question)?;
    let expected = model(&book, &question);
    Ok(Ready::new(move || measured(&book, &question), expected))
}

/// What stands before a question in hex.
const HEX: &str = "hex:";

/// The bytes of a question: those of the word, or of the hex digits in it.
pub fn read_question(word: &str) -> Result<Vec<u8>, String> {
    let Some(digits) = word.strip_prefix(HEX) else {
        return Ok(word.as_bytes().to_vec());
    };
    let wrong = || format!("{word}: two hex digits for each byte");
    let pairs = digits.as_bytes().chunks(2);
    pairs
        .map(|pair| {
            let pair = str::from_utf8(pair).ok().filter(|pair| pair.len() == 2);
            u8::from_str_radix(pair?, 16).ok()
        })
        .collect::<Option<Vec<u8>>>()
        .ok_or_else(wrong)
}

/// The question as a word that can be read again: a text where it is one.
pub fn shown_question(question: &[u8]) -> String {
    let is_text = question.iter().all(|byte| (b' '..=b'~').contains(byte));
    if is_text && !question.starts_with(HEX.as_bytes()) {
        return String::from_utf8_lossy(question).into_owned();
    }
    let digits = question.iter().map(|byte| format!("{byte:02X}"));
    HEX.to_string() + &digits.collect::<String>()
}

/// The call that is measured, and nothing else.
#[inline(never)]
fn measured_exact(book: &[u8], question: &[u8]) -> proved::Counted {
    proved::book_exact(book, question)
}

/// The same for `book_place`.
#[inline(never)]
pub fn measured_place(book: &[u8], question: &[u8]) -> proved::Counted {
    proved::book_place(book, question)
}

/// The same for `book_range`.
#[inline(never)]
fn measured_range(book: &[u8], question: &[u8]) -> proved::Counted {
    proved::book_range(book, question)
}

/// The same for `book_nearest`.
#[inline(never)]
fn measured_nearest(book: &[u8], question: &[u8]) -> proved::Counted {
    proved::book_nearest(book, question)
}

/// The same for `book_width`.
#[inline(never)]
fn measured_width(book: &[u8], question: &[u8]) -> proved::Counted {
    proved::book_width(book, question)
}

#[cfg(test)]
mod tests {
    use super::{read_question, shown_question};

    #[test]
    fn a_question_is_a_text_or_hex_digits() {
        assert_eq!(read_question("Mar").unwrap(), b"Mar");
        assert_eq!(read_question("").unwrap(), b"");
        assert_eq!(read_question("hex:").unwrap(), b"");
        assert_eq!(read_question("hex:00fF4D").unwrap(), [0, 255, b'M']);
        for wrong in ["hex:0", "hex:000", "hex:0g", "hex:\u{e9}"] {
            assert!(read_question(wrong).is_err(), "{wrong}");
        }
    }

    #[test]
    fn a_shown_question_is_read_again() {
        assert_eq!(shown_question(b"Market Square"), "Market Square");
        for question in [&b""[..], b"Mar", b"hex:", b"hex:00", &[0, 128, 255]] {
            assert_eq!(read_question(&shown_question(question)).unwrap(), question);
        }
    }
}
