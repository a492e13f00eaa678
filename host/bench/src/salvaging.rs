//! `book_salvage`, of the bytes of a file; and a book of which a tenth of the
//! blocks is damaged, to salvage the others.

use crate::{read_file, Ready};
use format::{MOST_SALVAGED, TRAILER};
use model::layout::entries;
use proved::Kept;
use std::fs;

/// Every so many blocks one is damaged.
const EVERY: usize = 10;

/// Makes the call ready from a file's name, with a room that is always long enough
/// and a row for each block.
pub fn ready(words: &[String]) -> Result<Ready, String> {
    let [file] = words else {
        return Err("salvage needs the name of a file".to_string());
    };
    let data = read_file(file)?;
    let blocks = blocks_of(&data);
    let mut room = vec![0; MOST_SALVAGED];
    let expected = model::book_salvage(&data, &mut room, &mut vec![model::Kept::default(); blocks]);
    let mut report = vec![Kept::default(); blocks];
    Ok(Ready::new(
        move || measured_salvage(&data, &mut room, &mut report),
        expected,
    ))
}

/// How many blocks the trailer tells of; none where there is none, or a block has
/// no names.
fn blocks_of(data: &[u8]) -> usize {
    match data.last_chunk::<TRAILER>() {
        Some(&[low, high, k, k_high, ..]) if [k, k_high] != [0, 0] => {
            let [names, block] = [[low, high], [k, k_high]].map(u16::from_le_bytes);
            names.div_ceil(block).into()
        }
        _ => 0,
    }
}

/// Writes a book of which every tenth block is damaged to another file.
pub fn wear(words: &[String]) -> Result<String, String> {
    let [book, card] = words else {
        return Err("wear needs the names of a book file and of a new one".to_string());
    };
    let (worn, damaged) = worn(read_file(book)?).ok_or_else(|| format!("{book} is no book"))?;
    fs::write(card, worn).map_err(|error| format!("{card}: {error}"))?;
    Ok(format!("{card}: damaged blocks: {damaged}"))
}

/// A book of which every tenth block, and at least the first, is damaged at its
/// end, so that all of it is gone through: its last entry tells of a rest that no
/// name has. And how many blocks that are.
fn worn(mut book: Vec<u8>) -> Option<(Vec<u8>, usize)> {
    let (_, block, names) = model::open(&book)?;
    let mut damaged = 0;
    for first in (0..names.len()).step_by(EVERY * block) {
        let last = names.len().min(first + block) - 1;
        let entry = entries(block, &names[..last]).len();
        book[entry + 1] = 255;
        damaged += 1;
    }
    Some((book, damaged))
}

/// The call that is measured, and nothing else.
#[inline(never)]
fn measured_salvage(data: &[u8], room: &mut [u8], report: &mut [Kept]) -> proved::Answer {
    proved::book_salvage(data, room, report)
}

#[cfg(test)]
mod tests {
    use super::{blocks_of, worn};
    use format::MOST_SALVAGED;
    use model::{book_of, book_salvage, BookKind, Kept};
    use vectors::lists;

    /// Which blocks of a worn book are kept.
    fn kept(block: usize, names: &lists::Names) -> (Vec<bool>, usize) {
        let (card, damaged) = worn(book_of(BookKind::Plain, block, names)).unwrap();
        let mut report = vec![Kept::default(); blocks_of(&card)];
        let salvaged = book_salvage(&card, &mut vec![0; MOST_SALVAGED], &mut report);
        assert_eq!(salvaged.code, 0);
        (report.iter().map(|row| row.kept == 1).collect(), damaged)
    }

    #[test]
    fn every_tenth_block_is_damaged() {
        for block in [1, 3, 16] {
            let names = lists::pairs(25 * block - block / 2);
            let (kept, damaged) = kept(block, &names);
            let expected: Vec<bool> = (0..25).map(|number| number % 10 != 0).collect();
            assert_eq!((kept, damaged), (expected, 3));
        }
        assert_eq!(kept(2, &lists::example()), (vec![false, true], 1));
        assert_eq!(kept(2, &Vec::new()), (vec![], 0));
    }

    #[test]
    fn blocks_are_those_that_the_trailer_tells_of() {
        for (names, blocks) in [(0, 0), (1, 1), (2, 1), (3, 2), (600, 300)] {
            assert_eq!(
                blocks_of(&book_of(BookKind::Plain, 2, &lists::pairs(names))),
                blocks
            );
        }
        assert_eq!(blocks_of(&[0; 15]), 0);
        assert_eq!(blocks_of(&[0; 16]), 0);
    }

    #[test]
    fn what_is_no_book_is_not_worn() {
        assert_eq!(worn(b"no book".to_vec()), None);
    }
}
