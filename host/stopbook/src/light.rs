//! The lit part of a name: how much of what was typed it has, for the eye.

use crate::text::shown;
use std::env;
use std::ffi::OsString;
use std::io::{self, IsTerminal};

/// How the lit part is told from the rest.
#[derive(Clone, Copy, Debug, PartialEq, Eq)]
pub enum Light {
    /// It stands in brackets.
    Brackets,
    /// It is in reverse video, which a terminal shows.
    Reverse,
}

impl Light {
    /// What suits standard output.
    pub fn of_standard_output() -> Light {
        let is_terminal = io::stdout().is_terminal();
        Light::suiting(is_terminal, env::var_os("NO_COLOR"), env::var_os("TERM"))
    }

    /// Reverse video on a terminal; brackets elsewhere, where `NO_COLOR` is set and
    /// not empty, and on a terminal that says it shows nothing but text.
    fn suiting(is_terminal: bool, no_color: Option<OsString>, term: Option<OsString>) -> Light {
        let unwanted = no_color.is_some_and(|value| !value.is_empty());
        let is_dumb = term.is_some_and(|value| value == "dumb");
        if is_terminal && !unwanted && !is_dumb {
            Light::Reverse
        } else {
            Light::Brackets
        }
    }

    /// A name as it is printed, with so many of its first bytes lit; where none is,
    /// nothing shows.
    pub fn marked(self, name: &[u8], lit: usize) -> String {
        let (front, rest) = name.split_at(lit.min(name.len()));
        if front.is_empty() {
            return shown(rest);
        }
        let (on, off) = match self {
            Light::Brackets => ("[", "]"),
            Light::Reverse => ("\x1B[7m", "\x1B[27m"),
        };
        format!("{on}{}{off}{}", shown(front), shown(rest))
    }
}

#[cfg(test)]
mod tests {
    use super::*;

    #[test]
    fn so_many_bytes_are_marked_as_are_lit() {
        let marked = |name: &str, lit| Light::Brackets.marked(name.as_bytes(), lit);
        assert_eq!(marked("Marina", 2), "[Ma]rina");
        assert_eq!(marked("Marina", 0), "Marina");
        assert_eq!(Light::Reverse.marked(b"Marina", 0), "Marina");
        assert_eq!(marked("", 3), "");
        assert_eq!(marked("Marina", 6), "[Marina]");
        assert_eq!(marked("Marina", 9), "[Marina]");
        assert_eq!(marked("aÉ", 1), "[a]É");
        assert_eq!(marked("aÉ", 3), "[aÉ]");
        // The library lights half a letter only where the question ends in it.
        assert_eq!(marked("aÉ", 2), "[a\\C3]\\89");
        assert_eq!(Light::Brackets.marked(b"\xC3\xFF", 1), "[\\C3]\\FF");
    }

    #[test]
    fn reverse_video_begins_and_ends_with_the_lit_part() {
        let marked = Light::Reverse.marked("Café".as_bytes(), 3);
        assert_eq!(marked, "\x1B[7mCaf\x1B[27mé");
        // What a name has of the like is escaped.
        let marked = Light::Reverse.marked(b"a\x1B[0m", 2);
        assert_eq!(marked, "\x1B[7ma\\1B\x1B[27m[0m");
    }

    #[test]
    fn reverse_video_is_for_terminals_that_show_it_where_it_is_wanted() {
        let of = |is_terminal, no_color: Option<&str>, term: Option<&str>| {
            Light::suiting(is_terminal, no_color.map(Into::into), term.map(Into::into))
        };
        assert_eq!(of(true, None, Some("xterm")), Light::Reverse);
        assert_eq!(of(true, None, None), Light::Reverse);
        assert_eq!(of(true, Some(""), Some("xterm")), Light::Reverse);
        assert_eq!(of(true, Some("1"), Some("xterm")), Light::Brackets);
        assert_eq!(of(true, None, Some("dumb")), Light::Brackets);
        assert_eq!(of(false, None, Some("xterm")), Light::Brackets);
    }
}
