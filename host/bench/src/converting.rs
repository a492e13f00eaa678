//! `book_to_columns` and `book_from_columns`, of the book in a file into a room of its
//! length; and the column book of a plain book, to measure with.

use crate::{read_file, Ready};
use std::fs;

/// A call that converts a book, of either program.
type Convert<Answer> = fn(&[u8], &mut [u8]) -> Answer;

/// Makes `book_to_columns` ready from a file's name.
pub fn to_columns(words: &[String]) -> Result<Ready, String> {
    ready(measured_to_columns, model::book_to_columns, words)
}

/// Makes `book_from_columns` ready likewise.
pub fn from_columns(words: &[String]) -> Result<Ready, String> {
    ready(measured_from_columns, model::book_from_columns, words)
}

/// Makes a conversion ready. The room has to hold what the second program writes.
fn ready(
    measured: Convert<proved::Answer>,
    expected: Convert<model::Answer>,
    words: &[String],
) -> Result<Ready, String> {
    let [file] = words else {
        return Err("a conversion needs the name of a book file".to_string());
    };
    let book = read_file(file)?;
    let (mut room, mut right) = (vec![0; book.len()], vec![0; book.len()]);
    let expected = expected(&book, &mut right);
    Ok(Ready::new(
        move || {
            let answer = measured(&book, &mut room);
            assert!(room == right, "the room is not the second program's");
            answer
        },
        expected,
    ))
}

/// The call that is measured, and nothing else.
#[inline(never)]
fn measured_to_columns(book: &[u8], room: &mut [u8]) -> proved::Answer {
    proved::book_to_columns(book, room)
}

/// The same.
#[inline(never)]
fn measured_from_columns(book: &[u8], room: &mut [u8]) -> proved::Answer {
    proved::book_from_columns(book, room)
}

/// Writes the column book of a plain book, and tells how many nodes it has.
pub fn columns(words: &[String]) -> Result<String, String> {
    let [file, new] = words else {
        return Err("columns needs the names of a book file and of a new one".to_string());
    };
    let book = read_file(file)?;
    let mut room = vec![0; book.len()];
    match model::book_to_columns(&book, &mut room).code {
        0 => fs::write(new, &room).map_err(|error| format!("{new}: {error}"))?,
        code => return Err(format!("{file}: {code}")),
    }
    let at = book.len() - 8;
    let nodes = u16::from_le_bytes([book[at], book[at + 1]]);
    Ok(format!("{nodes} nodes"))
}
