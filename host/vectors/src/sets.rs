//! Sets of cases, the same for every call.
//!
//! # The file
//!
//! The cases stand one after the other, without gaps, and the file ends behind
//! the last one. It has fewer than [`LONGEST_FILE`] bytes. Numbers are low byte
//! first. A case begins with L, the length of the list or book that the call
//! takes, of two lists that of the first, in four bytes; the module of the call
//! says what follows.
//!
//! Many cases in a row may be about the same book. Where the module says so, an L
//! of 0 stands for the book of the case before; before the first case the book is
//! empty.
//!
//! # The text
//!
//! One line for each case, with one space between its numbers and a newline
//! behind: the number of the case, from 0, then what the module says.

use std::rc::Rc;

/// So many bytes a file of cases does not have: the program that runs them reads
/// a file into as many, and would not see what is past them.
pub const LONGEST_FILE: usize = 600_000;

/// A call, with all that goes into it but its list or book.
pub trait Call {
    /// What the bytes are that it takes.
    const TAKES: &'static str = "book";

    /// What stands between L and the bytes in the file.
    fn front(&self) -> Vec<u8> {
        Vec::new()
    }

    /// What stands behind the bytes in the file.
    fn rest(&self) -> Vec<u8> {
        Vec::new()
    }

    /// What goes into it, each with its name, for a reader.
    fn told(&self) -> Vec<String> {
        Vec::new()
    }

    /// What the second program makes of it with these bytes, as it is printed
    /// after the number of the case.
    fn outcome(&self, bytes: &[u8]) -> String;
}

/// A call with its list or book, and why it is made.
#[derive(Clone)]
pub struct Case<C> {
    why: String,
    bytes: Rc<[u8]>,
    /// Whether the bytes are those of the case before.
    again: bool,
    call: C,
}

impl<C: Call> Case<C> {
    /// A case with bytes of its own.
    pub fn of(why: impl Into<String>, bytes: impl Into<Vec<u8>>, call: C) -> Case<C> {
        Case {
            why: why.into(),
            bytes: bytes.into().into(),
            again: false,
            call,
        }
    }

    /// Calls with the same book. It stands in the file once, so they have to
    /// stay together, and an empty one can only come first in the file.
    pub fn of_same(
        why: &str,
        book: impl Into<Vec<u8>>,
        calls: impl IntoIterator<Item = C>,
    ) -> Vec<Case<C>> {
        let book: Rc<[u8]> = book.into().into();
        let calls = calls.into_iter().enumerate();
        calls
            .map(|(number, call)| Case {
                why: why.to_string(),
                bytes: book.clone(),
                again: number > 0,
                call,
            })
            .collect()
    }

    /// Why the case is there, for a reader who looks for case number so and so.
    pub fn purpose(&self) -> String {
        let mut told = vec![format!("{} {}", C::TAKES, self.bytes.len())];
        told.extend(self.call.told());
        format!("{}: {}", self.why, told.join(", "))
    }

    /// The case as it stands in the file.
    pub fn record(&self) -> Vec<u8> {
        let bytes = if self.again { &[][..] } else { &self.bytes };
        let length = length_bytes(bytes.len());
        [&length, &self.call.front()[..], bytes, &self.call.rest()].concat()
    }

    /// What the second program makes of it, as it is printed after the number
    /// of the case.
    pub fn outcome(&self) -> String {
        self.call.outcome(&self.bytes)
    }
}

/// Makes cases of one purpose, the same ones each time.
pub type Group<C> = fn() -> Vec<Case<C>>;

/// All cases of one call.
pub struct Set<C: 'static> {
    /// The name of the set, and of its files.
    pub name: &'static str,
    /// The cases, in the order of the file.
    pub groups: &'static [Group<C>],
}

impl<C: Call> Set<C> {
    /// All cases, in the order of the file.
    pub fn cases(&self) -> Vec<Case<C>> {
        self.groups.iter().flat_map(|group| group()).collect()
    }
}

/// What is written of a set, whatever its call.
pub trait Files {
    /// The name of the set, and of its files.
    fn name(&self) -> &'static str;

    /// The file of cases: one record after the other, from first to last byte.
    fn case_file(&self) -> Vec<u8>;

    /// The text to be printed: a line for each case, numbered from 0.
    fn expected(&self) -> String;

    /// What each case is there for: a line for each, numbered from 0.
    fn purposes(&self) -> String;
}

impl<C: Call> Files for Set<C> {
    fn name(&self) -> &'static str {
        self.name
    }

    fn case_file(&self) -> Vec<u8> {
        self.cases().iter().flat_map(Case::record).collect()
    }

    fn expected(&self) -> String {
        numbered(self.cases().iter().map(Case::outcome))
    }

    fn purposes(&self) -> String {
        numbered(self.cases().iter().map(Case::purpose))
    }
}

/// The lines with their numbers before them, from 0.
fn numbered(lines: impl Iterator<Item = String>) -> String {
    let lines = lines.enumerate();
    lines
        .map(|(number, line)| format!("{number} {line}\n"))
        .collect()
}

/// A number of 64 bits as a call takes it. Where a word is smaller, one that does
/// not fit it is as wrong as the largest one that does.
pub fn word(number: u64) -> usize {
    usize::try_from(number).unwrap_or(usize::MAX)
}

/// A length in four bytes, as it stands in a file.
pub fn length_bytes(length: usize) -> [u8; 4] {
    (length as u32).to_le_bytes()
}
