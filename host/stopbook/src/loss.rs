//! What is lost of a damaged book, in sentences: which blocks, and where in the
//! alphabet.

use crate::text::{counted, grouped, named};

/// A block of a damaged book. Blocks are counted from 0, as `list` does.
#[derive(Clone, Debug)]
pub struct Block<'a> {
    /// How many names it has, or had.
    pub names: usize,
    /// Its first and its last name, where it is kept.
    pub ends: Option<[&'a [u8]; 2]>,
}

/// Neighbouring blocks that are lost.
struct Gap<'a> {
    /// The number of the first of them.
    number: usize,
    /// How many names each had.
    counts: Vec<usize>,
    /// The last name that is kept before them.
    before: Option<&'a [u8]>,
    /// The first name that is kept behind them.
    behind: Option<&'a [u8]>,
}

/// All that is said of these blocks: a sentence for each gap, one for each block
/// that is not above the one before it, and one for the whole.
pub fn sentences(blocks: &[Block]) -> Vec<String> {
    let mut sentences: Vec<String> = gaps(blocks).iter().map(Gap::sentence).collect();
    sentences.extend(falls(blocks));
    sentences.push(summary(blocks));
    sentences
}

/// The gaps between kept blocks.
fn gaps<'a>(blocks: &[Block<'a>]) -> Vec<Gap<'a>> {
    let mut gaps = Vec::new();
    let mut end = 0;
    for run in blocks.chunk_by(|one, other| one.ends.is_some() == other.ends.is_some()) {
        let start = end;
        end += run.len();
        if run[0].ends.is_some() {
            continue;
        }
        let before = start.checked_sub(1).and_then(|number| blocks[number].ends);
        let behind = blocks.get(end).and_then(|block| block.ends);
        gaps.push(Gap {
            number: start,
            counts: run.iter().map(|block| block.names).collect(),
            before: before.map(|[_, last]| last),
            behind: behind.map(|[first, _]| first),
        });
    }
    gaps
}

impl Gap<'_> {
    /// Which blocks are lost, with how many names, and where they stood.
    fn sentence(&self) -> String {
        let count = self.counts.len();
        let [first, last] = [self.number, self.number + count.max(1) - 1].map(grouped);
        let blocks = match count {
            1 => format!("block {first} is lost"),
            _ => format!("blocks {first} to {last} are lost"),
        };
        format!("{blocks}: {}, {}", self.names(), self.place())
    }

    /// How many names are lost, and how many in each block.
    fn names(&self) -> String {
        let all = counted(self.counts.iter().sum(), "name");
        match self.counts.as_slice() {
            [each, .., last] if each == last => format!("{all}, {each} in each"),
            [each, .., last] => format!("{all}, {each} in each but {last} in the last"),
            _ => all,
        }
    }

    /// Where in the alphabet they stood.
    fn place(&self) -> String {
        match (self.before, self.behind) {
            (Some(before), Some(behind)) => {
                format!("between {} and {}", named(before), named(behind))
            }
            (Some(before), None) => format!("behind {}", named(before)),
            (None, Some(behind)) => format!("before {}", named(behind)),
            (None, None) => "all there were".to_string(),
        }
    }
}

/// A sentence for each kept block whose names are not above those of the kept block
/// before it.
fn falls(blocks: &[Block]) -> Vec<String> {
    let numbered = blocks.iter().enumerate();
    let kept: Vec<_> = numbered
        .filter_map(|(number, block)| Some((number, block.ends?)))
        .collect();
    let neighbours = kept.windows(2).map(|pair| (pair[0], pair[1]));
    neighbours
        .filter(|((_, [_, last]), (_, [first, _]))| last >= first)
        .map(|((one, [_, last]), (other, [first, _]))| {
            let (last, first) = (named(last), named(first));
            let [one, other] = [one, other].map(grouped);
            format!(
                "{last}, the last name of block {one}, is not below {first}, the first of block \
                 {other}; so one of the two has other names than it had"
            )
        })
        .collect()
}

/// How much is kept and how much is lost.
fn summary(blocks: &[Block]) -> String {
    let (kept, lost): (Vec<_>, Vec<_>) = blocks.iter().partition(|block| block.ends.is_some());
    let lost = match lost.as_slice() {
        [] => "nothing".to_string(),
        lost => amount(lost),
    };
    format!("kept: {}; lost: {lost}", amount(&kept))
}

/// The names of blocks, and the blocks.
fn amount(blocks: &[&Block]) -> String {
    let names = blocks.iter().map(|block| block.names).sum();
    let (names, blocks) = (counted(names, "name"), counted(blocks.len(), "block"));
    format!("{names} in {blocks}")
}

#[cfg(test)]
mod tests {
    use super::*;

    /// Blocks of two names, the last of one: kept ones from their first and last
    /// name.
    fn blocks<'a>(ends: &[Option<[&'a str; 2]>]) -> Vec<Block<'a>> {
        let block = |(number, ends): (usize, &Option<[&'a str; 2]>)| Block {
            names: if number == 4 { 1 } else { 2 },
            ends: ends.map(|ends| ends.map(str::as_bytes)),
        };
        ends.iter().enumerate().map(block).collect()
    }

    const AB: Option<[&str; 2]> = Some(["a", "b"]);
    const CD: Option<[&str; 2]> = Some(["c", "d"]);
    const E: Option<[&str; 2]> = Some(["e", "e"]);

    #[test]
    fn of_a_sound_book_nothing_is_lost() {
        let said = sentences(&blocks(&[AB, CD]));
        assert_eq!(said, ["kept: 4 names in 2 blocks; lost: nothing"]);
        let said = sentences(&[]);
        assert_eq!(said, ["kept: 0 names in 0 blocks; lost: nothing"]);
    }

    #[test]
    fn each_gap_is_told_with_the_names_around_it() {
        let said = sentences(&blocks(&[None, AB, None, CD, None]));
        let expected = [
            "block 0 is lost: 2 names, before a",
            "block 2 is lost: 2 names, between b and c",
            "block 4 is lost: 1 name, behind d",
            "kept: 4 names in 2 blocks; lost: 5 names in 3 blocks",
        ];
        assert_eq!(said, expected);
    }

    #[test]
    fn neighbours_are_told_together() {
        let said = sentences(&blocks(&[AB, None, None, CD, E]));
        assert_eq!(
            said[0],
            "blocks 1 to 2 are lost: 4 names, 2 in each, between b and c"
        );
        let said = sentences(&blocks(&[AB, CD, None, None, None]));
        assert_eq!(
            said[0],
            "blocks 2 to 4 are lost: 5 names, 2 in each but 1 in the last, behind d"
        );
        let said = sentences(&blocks(&[None, None]));
        let expected = [
            "blocks 0 to 1 are lost: 4 names, 2 in each, all there were",
            "kept: 0 names in 0 blocks; lost: 4 names in 2 blocks",
        ];
        assert_eq!(said, expected);
    }

    #[test]
    fn kept_blocks_that_do_not_rise_are_told_also_across_a_gap() {
        let fall = "d, the last name of block 0, is not below a, the first of block 1; \
                    so one of the two has other names than it had";
        let said = sentences(&blocks(&[CD, AB, E]));
        assert_eq!(said, [fall, "kept: 6 names in 3 blocks; lost: nothing"]);
        let said = sentences(&blocks(&[CD, None, CD]));
        assert_eq!(said[0], "block 1 is lost: 2 names, between d and c");
        assert!(said[1].starts_with("d, the last name of block 0, is not below c"));
        // The same name twice does not rise either.
        assert_eq!(sentences(&blocks(&[E, E])).len(), 2);
    }
}
