//! Words of the command line, taken apart into options and plain words.
//!
//! An option begins with `-`; a lone `-` is a plain word and means standard
//! input or output. After `--` every word is plain. A number may have commas
//! where the program itself would print them.

use crate::text::{grouped, shown_os};
use std::ffi::{OsStr, OsString};
use std::os::unix::ffi::OsStrExt;

/// Which options a command has.
pub struct Shape {
    /// Options that take a value: `--limit 5` or `--limit=5`.
    pub valued: &'static [&'static str],
    /// Options that stand alone.
    pub flags: &'static [&'static str],
}

/// The words after a command's name.
#[derive(Debug, Default)]
pub struct Words {
    /// Words that are no options.
    pub plain: Vec<OsString>,
    /// Whether help is asked for.
    pub wants_help: bool,
    options: Vec<(&'static str, OsString)>,
}

impl Words {
    /// The value of an option, where it is given.
    pub fn value(&self, option: &str) -> Option<&OsStr> {
        let found = self.options.iter().find(|(name, _)| *name == option);
        found.map(|(_, value)| value.as_os_str())
    }

    /// Whether an option that stands alone is given.
    pub fn has(&self, option: &str) -> bool {
        self.value(option).is_some()
    }

    /// Where the output goes, by `-o` or by `--output`, where one is given.
    pub fn output(&self) -> Result<Option<&OsStr>, String> {
        match (self.value("-o"), self.value("--output")) {
            (Some(_), Some(_)) => Err("-o and --output are the same; give one".to_string()),
            (short, long) => Ok(short.or(long)),
        }
    }

    /// The number behind an option, where it is given.
    pub fn number(&self, option: &str) -> Result<Option<usize>, String> {
        let Some(value) = self.value(option) else {
            return Ok(None);
        };
        let number = value.to_str().and_then(read_number);
        let number =
            number.ok_or_else(|| format!("{option} takes a number, not {}", shown_os(value)))?;
        Ok(Some(number))
    }
}

/// A number of decimal digits, without a sign, and with commas where they are
/// printed, or none.
pub fn read_number(text: &str) -> Option<usize> {
    let digits = text.replace(',', "");
    let is_number = digits.bytes().all(|byte| byte.is_ascii_digit());
    let number = is_number.then(|| digits.parse().ok())??;
    (digits == text || grouped(number) == text).then_some(number)
}

/// Takes the words apart.
pub fn split(words: &[OsString], shape: &Shape) -> Result<Words, String> {
    let mut found = Words::default();
    let mut rest = words.iter();
    while let Some(word) = rest.next() {
        match word.as_bytes() {
            b"--" => found.plain.extend(rest.by_ref().cloned()),
            b"--help" | b"-h" => found.wants_help = true,
            [b'-', _, ..] => add_option(&mut found, word, &mut rest, shape)?,
            _ => found.plain.push(word.clone()),
        }
    }
    Ok(found)
}

/// Adds an option, and takes its value from the word itself or the next one.
fn add_option<'a>(
    found: &mut Words,
    word: &OsStr,
    rest: &mut impl Iterator<Item = &'a OsString>,
    shape: &Shape,
) -> Result<(), String> {
    let (name, own_value) = at_equals(word);
    let same = |option: &&&'static str| option.as_bytes() == name;
    let (option, value) = if let Some(option) = shape.valued.iter().find(same) {
        let value = own_value.or_else(|| rest.next().cloned());
        (option, value.ok_or(format!("{option} takes a value"))?)
    } else if let Some(option) = shape.flags.iter().find(same) {
        match own_value {
            None => (option, OsString::new()),
            Some(_) => return Err(format!("{option} takes no value")),
        }
    } else {
        return Err(no_option(word));
    };
    if found.has(option) {
        return Err(format!("{option} is given twice"));
    }
    found.options.push((option, value));
    Ok(())
}

/// A word that begins with a dash and is no option, and how to give it as a word.
fn no_option(word: &OsStr) -> String {
    let word = shown_os(word);
    format!(
        "there is no option {word}; for a question or a file of that name put -- before it: \
         -- {word}"
    )
}

/// An option's name, and its value where one stands behind an equals sign.
fn at_equals(word: &OsStr) -> (&[u8], Option<OsString>) {
    let bytes = word.as_bytes();
    match bytes.iter().position(|&byte| byte == b'=') {
        Some(at) if bytes.starts_with(b"--") => {
            let value = OsStr::from_bytes(&bytes[at + 1..]);
            (&bytes[..at], Some(value.to_os_string()))
        }
        _ => (bytes, None),
    }
}

#[cfg(test)]
mod tests {
    use super::*;

    const SHAPE: Shape = Shape {
        valued: &["--limit", "-o", "--output"],
        flags: &["--plain"],
    };

    /// These words, taken apart.
    fn splitted(words: &[&str]) -> Result<Words, String> {
        let words: Vec<OsString> = words.iter().map(OsString::from).collect();
        split(&words, &SHAPE)
    }

    #[test]
    fn options_stand_anywhere() {
        let words = splitted(&["a", "--limit", "5", "-", "--plain", "-o", "x"]).unwrap();
        assert_eq!(words.plain, ["a", "-"]);
        assert_eq!(words.number("--limit"), Ok(Some(5)));
        assert!(words.has("--plain"));
        assert_eq!(words.value("-o"), Some(OsStr::new("x")));
        assert!(!words.wants_help);
    }

    #[test]
    fn a_value_may_stand_behind_an_equals_sign() {
        let words = splitted(&["--limit=7"]).unwrap();
        assert_eq!(words.number("--limit"), Ok(Some(7)));
        assert_eq!(
            splitted(&["--limit="]).unwrap().value("--limit"),
            Some(OsStr::new(""))
        );
    }

    #[test]
    fn the_output_has_two_names_and_takes_one_of_them() {
        assert_eq!(splitted(&["a"]).unwrap().output(), Ok(None));
        for words in [&["-o", "x"][..], &["--output", "x"], &["--output=x"]] {
            let words = splitted(words).unwrap();
            assert_eq!(words.output(), Ok(Some(OsStr::new("x"))));
        }
        let both = splitted(&["-o", "x", "--output", "x"]).unwrap();
        assert!(both.output().unwrap_err().ends_with("give one"));
    }

    #[test]
    fn two_dashes_end_the_options() {
        let words = splitted(&["--", "--limit", "-h", "--"]).unwrap();
        assert_eq!(words.plain, ["--limit", "-h", "--"]);
        assert!(!words.wants_help);
    }

    #[test]
    fn an_empty_word_is_plain() {
        assert_eq!(splitted(&["", "a"]).unwrap().plain, ["", "a"]);
    }

    #[test]
    fn wrong_options_are_named() {
        let wrong: [(&[&str], &str); 5] = [
            (
                &["--lmit", "5"],
                "there is no option --lmit; for a question or a file of that name \
                 put -- before it: -- --lmit",
            ),
            (&["--limit"], "--limit takes a value"),
            (&["--plain=1"], "--plain takes no value"),
            (&["--plain", "--plain"], "--plain is given twice"),
            (
                &["-x"],
                "there is no option -x; for a question or a file of that name \
                 put -- before it: -- -x",
            ),
        ];
        for (words, text) in wrong {
            assert_eq!(splitted(words).unwrap_err(), text);
        }
    }

    #[test]
    fn a_number_has_digits_and_commas_only_where_they_are_printed() {
        let wrong = ["", "-1", "+1", "1x", " 1", "99999999999999999999999"];
        for text in wrong
            .iter()
            .chain(&[",", "12,34", ",123", "1234,567", "0,012", "1,"])
        {
            let words = splitted(&["--limit", text]).unwrap();
            assert!(words.number("--limit").is_err(), "{text:?}");
        }
        for (text, number) in [("0012", 12), ("2223", 2_223), ("2,223", 2_223)] {
            let words = splitted(&["--limit", text]).unwrap();
            assert_eq!(words.number("--limit"), Ok(Some(number)));
        }
    }
}
