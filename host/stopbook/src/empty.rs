//! Outputs without names, which are written only where that is asked for.
//!
//! An export that failed leaves an empty text. What is made of it must not take
//! the place of a good book or a good text without a word.

use crate::args::Words;
use crate::outcome::Failure;

/// The option that asks for an output without names.
pub const EMPTY: &str = "--empty";

/// Refuses to write no names, unless the words ask for it. Why there are none is
/// told by a clause, such as `stops.txt has no names`.
pub fn spare(names: usize, words: &Words, why: &str) -> Result<(), Failure> {
    if names > 0 || words.has(EMPTY) {
        return Ok(());
    }
    Err(Failure::refused(format!(
        "{why}, so nothing is written; if that is meant, give {EMPTY}"
    )))
}

#[cfg(test)]
mod tests {
    use super::*;
    use crate::args::{split, Shape};

    /// What is said of so many names, with or without the option.
    fn spared(names: usize, words: &[&str]) -> Result<(), String> {
        let shape = Shape {
            valued: &[],
            flags: &[EMPTY],
        };
        let words: Vec<_> = words.iter().map(Into::into).collect();
        let words = split(&words, &shape).expect("these words are right");
        spare(names, &words, "a.txt has no names").map_err(|failure| match failure {
            Failure::Refused(text) => text,
            other => panic!("{other:?}"),
        })
    }

    #[test]
    fn no_names_are_refused_unless_they_are_asked_for() {
        let said = "a.txt has no names, so nothing is written; if that is meant, give --empty";
        assert_eq!(spared(0, &[]), Err(said.to_string()));
        assert_eq!(spared(0, &["--empty"]), Ok(()));
        assert_eq!(spared(1, &[]), Ok(()));
        assert_eq!(spared(1, &["--empty"]), Ok(()));
    }
}
