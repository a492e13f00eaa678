//! What the two programs write.
//!
//! Renders the part of document 01, "A book in full", that speaks of the
//! listing program and the building program. Each takes the whole standard
//! input and gives what goes out. Document 01 does not speak of line ends;
//! here every line ends in one newline, the last line too.

use crate::calls::book_build;
use crate::layout::{node_count, stored_count, LONGEST_BOOK};
use crate::open::open;
use crate::refusals::NO_BOOK;

/// The most bytes that the building program reads.
pub const LONGEST_INPUT: usize = 65_536;
/// The block size of the building program.
pub const PROGRAM_BLOCK: usize = 16;

/// The listing program: all that it prints for these bytes, whatever kind of book
/// they are.
pub fn listing(book: &[u8]) -> Vec<u8> {
    let Some((kind, block, names)) = open(book) else {
        return format!("refused {NO_BOOK}\n").into_bytes();
    };
    let count = names.len();
    let nodes = node_count(kind.rule(), &names);
    let length = book.len();
    let mut text = format!("names {count} block {block} nodes {nodes} bytes {length}\n");
    for position in 0..count {
        text.push_str(&name_line(block, &names, position));
    }
    text.into_bytes()
}

/// One name's line: where it stands, in which block, how much its entry shares,
/// how long the whole name is, and the name.
fn name_line(block: usize, names: &[Vec<u8>], position: usize) -> String {
    let name = &names[position];
    let block_number = position / block;
    let shared = stored_count(block, names, position);
    let length = name.len();
    let shown = printed(name);
    format!("{position} {block_number} {shared} {length} {shown}\n")
}

/// A name as it is printed. Plain characters, space to tilde, stand for
/// themselves; any other byte, and the backslash, becomes `\` with its two hex
/// digits in upper case.
fn printed(name: &[u8]) -> String {
    let mut text = String::new();
    for &byte in name {
        if (32..=126).contains(&byte) && byte != b'\\' {
            text.push(char::from(byte));
        } else {
            text.push_str(&format!("\\{byte:02X}"));
        }
    }
    text
}

/// The building program: the plain book that goes to standard output, or the
/// line that goes to standard error. Never something to both.
///
/// The room has the length of the longest book, so 4 never comes. The record
/// is printed with every refusal, as 0 where the refusal has none.
pub fn make_book(list: &[u8]) -> Result<Vec<u8>, Vec<u8>> {
    if list.len() > LONGEST_INPUT {
        return Err(b"input too long\n".to_vec());
    }
    let mut room = vec![0; LONGEST_BOOK];
    let answer = book_build(list, PROGRAM_BLOCK, &mut room);
    if answer.code != 0 {
        let line = format!("refused {} {}\n", answer.code, answer.first);
        return Err(line.into_bytes());
    }
    room.truncate(answer.first);
    Ok(room)
}
