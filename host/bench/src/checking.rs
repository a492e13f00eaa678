//! `book_check`, of the bytes of a file.

use crate::{read_file, Ready};

/// Makes the call ready from a file's name.
pub fn ready(words: &[String]) -> Result<Ready, String> {
    let [file] = words else {
        return Err("check needs the name of a book file".to_string());
    };
    let book = read_file(file)?;
    let expected = model::book_check(&book);
    Ok(Ready::new(move || measured_check(&book), expected))
}

/// The call that is measured, and nothing else.
#[inline(never)]
pub fn measured_check(book: &[u8]) -> proved::Answer {
    proved::book_check(book)
}
