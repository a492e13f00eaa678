//! `book_build` and `book_build_folded`, from a file of list records into a room for
//! the longest book; the book of a list, to measure with; and lists for the second
//! call from lists for the first.

use crate::{read_file, read_number, Ready};
use format::LONGEST_BOOK;
use model::names::read_names;
use model::tree::{tree, Node};
use model::{book_of, build_kind, write_list, BookKind, Rule};
use std::fs;
use vectors::lists::{sorted_for, Names};
use vectors::spelling::by_turns;

/// Makes `book_build` ready from a file's name and a block size.
pub fn plain(words: &[String]) -> Result<Ready, String> {
    ready(BookKind::Plain, words)
}

/// Makes `book_build_folded` ready likewise.
pub fn folded(words: &[String]) -> Result<Ready, String> {
    ready(BookKind::Folded, words)
}

/// Makes the call that builds books of this kind ready.
fn ready(kind: BookKind, words: &[String]) -> Result<Ready, String> {
    let [file, block] = words else {
        return Err("build needs the name of a list file and a block size".to_string());
    };
    let list = read_file(file)?;
    let block = read_number(block)?;
    let mut room = vec![0; LONGEST_BOOK];
    let expected = build_kind(kind, &list, block, &mut room);
    Ok(Ready::new(
        move || build(kind, &list, block, &mut room),
        expected,
    ))
}

/// Builds a book of this kind, by the call that is measured. A column book is made of
/// the plain one, which is built here.
pub fn build(kind: BookKind, list: &[u8], block: usize, room: &mut [u8]) -> proved::Answer {
    match kind {
        BookKind::Plain | BookKind::Columns => measured_build(list, block, room),
        BookKind::Folded => measured_build_folded(list, block, room),
    }
}

/// The call that is measured, and nothing else.
#[inline(never)]
fn measured_build(list: &[u8], block: usize, room: &mut [u8]) -> proved::Answer {
    proved::book_build(list, block, room)
}

/// The same.
#[inline(never)]
fn measured_build_folded(list: &[u8], block: usize, room: &mut [u8]) -> proved::Answer {
    proved::book_build_folded(list, block, room)
}

/// Writes the book of a list with this block size, and tells how many names and
/// levels it has.
pub fn book(words: &[String]) -> Result<String, String> {
    let [file, block, book] = words else {
        return Err("book needs a list file, a block size and a book file".to_string());
    };
    let (names, block) = (names_of(file)?, read_number(block)?);
    let bytes = book_of(BookKind::Plain, block, &names);
    fs::write(book, bytes).map_err(|error| format!("{book}: {error}"))?;
    let levels = tree(Rule::Plain, &names).as_ref().map_or(0, levels);
    Ok(format!("{} names, {levels} levels", names.len()))
}

/// How many forks stand inside each other, on the longest way down.
fn levels(node: &Node) -> usize {
    let below = node.children.iter().map(levels).max();
    below.map_or(0, |below| 1 + below)
}

/// The names of the list in a file.
fn names_of(file: &str) -> Result<Names, String> {
    let names = read_names(Rule::Plain, &read_file(file)?, usize::MAX);
    names.map_err(|(code, record)| format!("{file}: {code}, record {record}"))
}

/// Writes a list's names for folded books, and those books with this block size:
/// as they are spelt, and in small letters and capitals by turns. Names that fold to
/// others are left out.
pub fn fold(words: &[String]) -> Result<String, String> {
    let [file, block, folded] = words else {
        return Err("fold needs a list file, a block size and a name for files".to_string());
    };
    let (names, block) = (names_of(file)?, read_number(block)?);
    let names = sorted_for(BookKind::Folded, names);
    let turned = by_turns(&names);
    for (names, kind) in [(&names, "folded"), (&turned, "turns")] {
        let book = book_of(BookKind::Folded, block, names);
        for (ending, bytes) in [("list", write_list(names)), ("book", book)] {
            let path = format!("{folded}-{kind}.{ending}");
            fs::write(&path, bytes).map_err(|error| format!("{path}: {error}"))?;
        }
    }
    Ok(format!("{} names", names.len()))
}

#[cfg(test)]
mod tests {
    use super::levels;
    use model::tree::tree;
    use model::Rule;
    use vectors::lists;

    #[test]
    fn levels_are_forks_inside_each_other() {
        let of = |names: &lists::Names| levels(&tree(Rule::Plain, names).unwrap());
        assert_eq!(of(&lists::texts(&["Mar"])), 0);
        assert_eq!(of(&lists::texts(&["Mar", "Nor"])), 1);
        assert_eq!(of(&lists::example()), 1);
        assert_eq!(of(&lists::chain(b'a', 200)), 199);
    }
}
