//! `book_read`, from the book in a file into a room for the longest name.

use crate::{read_file, read_number, Ready};
use format::LONGEST_NAME;

/// Makes the call ready from a file's name and a position.
pub fn ready(words: &[String]) -> Result<Ready, String> {
    let [file, position] = words else {
        return Err("read needs the name of a book file and a position".to_string());
    };
    let book = read_file(file)?;
    let position = read_number(position)?;
    let mut room = vec![0; LONGEST_NAME];
    let expected = model::book_read(&book, position, &mut room);
    Ok(Ready::new(
        move || measured_read(&book, position, &mut room),
        expected,
    ))
}

/// The call that is measured, and nothing else.
#[inline(never)]
pub fn measured_read(book: &[u8], position: usize, room: &mut [u8]) -> proved::Answer {
    proved::book_read(book, position, room)
}
