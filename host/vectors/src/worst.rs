//! Lists and questions that cost most, by their parameters.
//!
//! What a check takes goes with the names, the forks and the blocks; what a
//! question takes, with the children that it passes on its way down, the entries
//! of the last block, and the bytes that it compares. Of a folded book the check
//! counts letters along a block where neighbours share more of them than bytes, so
//! there names that differ in case cost most. `measure.sh worst` and `measure.sh
//! worst_folded` look for parameters; the dearest that were found are
//! [`dearest_check`], [`dearest_question`] and [`dearest_folded_check`].

use crate::lists::{sorted, sorted_for, Names};
use crate::random::Random;
use format::{LONGEST_BOOK, LONGEST_NAME, MOST_NAMES, NODE, TRAILER};
use model::layout::stored_count;
use model::names::shared_symbols;
use model::{book_of, BookKind};

/// A list, a block size and a question, for a kind of book.
#[derive(Clone)]
pub struct Worst {
    /// The kind of book.
    pub kind: BookKind,
    /// What it is, in a word and its parameters.
    pub what: String,
    /// The names.
    pub names: Names,
    /// The block size.
    pub block: usize,
    /// The question.
    pub question: Vec<u8>,
}

impl Worst {
    /// The book.
    pub fn book(&self) -> Vec<u8> {
        book_of(self.kind, self.block, &self.names)
    }

    /// How many of its first names fit a book. No book is made for it: a search
    /// over many shapes would take too long.
    pub fn fitting(&self) -> usize {
        let mut length = TRAILER;
        // How deep the forks above the name at hand are.
        let mut forks: Vec<usize> = Vec::new();
        for (position, name) in self.names.iter().enumerate().take(MOST_NAMES) {
            length += 2 + name.len() - stored_count(self.block, &self.names, position) + NODE;
            if position.is_multiple_of(self.block) {
                length += 2;
            }
            if position > 0 {
                let before = &self.names[position - 1];
                let shared = shared_symbols(self.kind.rule(), before, name);
                forks.retain(|&depth| depth <= shared);
                if forks.last() != Some(&shared) {
                    forks.push(shared);
                    length += NODE;
                }
            }
            if length > LONGEST_BOOK {
                return position;
            }
        }
        self.names.len().min(MOST_NAMES)
    }
}

/// A chain of this length behind each first byte, or behind each two of them
/// where there are more: x, xa, xaa, .. Every name but the last of a chain is a
/// fork, too. The question is the last name.
pub fn chains(count: usize, length: usize, block: usize) -> Worst {
    let heads = count.div_ceil(length);
    let head = |number: usize| match heads {
        ..=256 => vec![number as u8],
        _ => vec![(number / 256) as u8, number as u8],
    };
    let names = (0..count).map(|number| {
        let links = number % length;
        [head(number / length), vec![b'a'; links]].concat()
    });
    let names: Names = names.collect();
    Worst {
        kind: BookKind::Plain,
        what: format!("chains, names {count} length {length} block {block}"),
        question: names.last().cloned().unwrap_or_default(),
        names,
        block,
    }
}

/// Such chains with as many names as fit a book, up to this count.
pub fn fitting_chains(count: usize, length: usize, block: usize) -> Worst {
    let fitting = chains(count, length, block).fitting();
    chains(fitting, length, block)
}

/// A path of forks, each as many bytes below the one before as `step` says. At
/// each fork some leaves stand before the way down, with tails, and at the last
/// one there are leaves alone. The question passes all of them and fits none of
/// the last. Where bytes lie between the forks it differs in one of the first
/// of these, which the way down does not look at.
#[derive(Clone, Copy, Debug)]
pub struct Comb {
    /// How many forks the path has before the last.
    pub levels: usize,
    /// How many bytes lie between two.
    pub step: usize,
    /// How many leaves stand before the way down.
    pub leaves: usize,
    /// How many bytes they have behind the first.
    pub tail: usize,
    /// How many leaves the last fork has.
    pub last: usize,
    /// How many names a block has.
    pub block: usize,
    /// Whether the question differs in a byte that is not looked at.
    pub astray: bool,
}

/// The byte of the way down, and the one between the forks.
const DOWN: u8 = 255;
const BETWEEN: u8 = b'm';

impl Comb {
    /// Whether its names are short enough and its rows have enough bytes.
    pub fn can_be(&self) -> bool {
        let depth = self.levels * self.step + 1;
        let rows = self.leaves < usize::from(DOWN) && (2..=254).contains(&self.last);
        let count = self.levels * self.leaves + self.last;
        rows && depth + self.tail <= LONGEST_NAME && count <= MOST_NAMES
    }

    /// Whether it can be, and a book has space for it.
    fn fits(&self) -> bool {
        self.can_be() && {
            let worst = self.worst();
            worst.fitting() == worst.names.len()
        }
    }

    /// This comb with as many leaves as fit a book, up to those that it has: first
    /// of those before the way down, then of those at the last fork.
    pub fn fitting(&self) -> Option<Comb> {
        let with = |leaves, last| Comb {
            leaves,
            last,
            ..*self
        };
        let rows: Vec<usize> = (1..=self.leaves).collect();
        let leaves = rows.partition_point(|&leaves| with(leaves, 2).fits());
        let before = self.levels * leaves;
        let last = self.last.min(MOST_NAMES - before);
        let last = with(leaves, last).worst().fitting().checked_sub(before)?;
        Some(with(leaves, last)).filter(|comb| leaves > 0 && comb.fits())
    }

    /// The bytes down to the fork of this number.
    fn stem(&self, fork: usize) -> Vec<u8> {
        let mut link = vec![BETWEEN; self.step];
        link[0] = DOWN;
        link.repeat(fork)
    }

    /// The list and its question.
    pub fn worst(&self) -> Worst {
        let leaf =
            |stem: &[u8], byte: usize| [stem, &[byte as u8], &vec![b't'; self.tail]].concat();
        let mut names = Names::new();
        for fork in 0..self.levels {
            let stem = self.stem(fork);
            names.extend((0..self.leaves).map(|byte| leaf(&stem, byte)));
        }
        let stem = self.stem(self.levels);
        names.extend((0..self.last).map(|byte| [&stem[..], &[byte as u8]].concat()));
        let mut question = [&stem[..], &[DOWN - 1]].concat();
        if self.astray && self.step > 1 {
            question[1] = BETWEEN + 1;
        }
        Worst {
            kind: BookKind::Plain,
            what: format!("{self:?}"),
            names,
            block: self.block,
            question,
        }
    }
}

/// Random names of a random kind that share beginnings, as many as can be, and a
/// question for them.
pub fn any(random: &mut Random) -> Worst {
    let letters = random.between(1, 4);
    let alphabet = &b"abcd"[..letters];
    let (count, tail) = (random.between(500, MOST_NAMES), random.between(1, 12));
    let block = *random.one_of(&[1, 2, 4, 16, 64]);
    let names = crate::lists::grown(random, alphabet, 2 * count, tail);
    let mut worst = Worst {
        kind: BookKind::Plain,
        what: format!("grown, letters {letters} tail {tail} block {block}"),
        names: sorted(names).into_iter().take(count).collect(),
        block,
        question: Vec::new(),
    };
    worst.names.truncate(worst.fitting());
    worst.question = random.one_of(&worst.names).clone();
    worst
}

/// As many names as fit a book, of this length over so many letters, the last ones
/// counted through first: a, a, .. b, b, .. The question is the last name.
pub fn spelt(letters: usize, length: usize, block: usize) -> Worst {
    let count = letters.saturating_pow(length as u32).min(MOST_NAMES);
    let name = |mut number: usize| {
        let mut name = vec![b'a'; length];
        for byte in name.iter_mut().rev() {
            *byte += (number % letters) as u8;
            number /= letters;
        }
        name
    };
    let mut worst = Worst {
        kind: BookKind::Plain,
        what: format!("spelt, letters {letters} length {length} block {block}"),
        names: (0..count).map(name).collect(),
        block,
        question: Vec::new(),
    };
    worst.names.truncate(worst.fitting());
    worst.question = worst.names.last().cloned().unwrap_or_default();
    worst
}

/// The list for a folded book, with every second name in capitals from this place
/// on and the others in small letters: where neighbours share more letters, the bytes
/// that they share end there. As many names as then fit.
pub fn turned(shape: &Worst, place: usize) -> Worst {
    let mut names = sorted_for(BookKind::Folded, shape.names.clone());
    for (number, name) in names.iter_mut().enumerate() {
        name.make_ascii_lowercase();
        if number % 2 == 1 {
            let from = place.min(name.len());
            name[from..].make_ascii_uppercase();
        }
    }
    let mut worst = Worst {
        kind: BookKind::Folded,
        what: format!("turned from {place}, {}", shape.what),
        names,
        block: shape.block,
        question: shape.question.to_ascii_uppercase(),
    };
    worst.names.truncate(worst.fitting());
    worst
}

/// The dearest check of a folded book that is known: chains in blocks as large as can
/// be, of which neighbours share the first byte alone and all letters, so that each name
/// is held to those before it in its block, and none of these is stored whole.
pub fn dearest_folded_check() -> Worst {
    turned(&fitting_chains(MOST_NAMES, 200, 64), 1)
}

/// The dearest check that was found: wide rows of names that share much, each in
/// a block of its own, so that all of it is stored again and compared, and as
/// many as there is space for.
pub fn dearest_check() -> Worst {
    let comb = Comb {
        levels: 4,
        step: 32,
        leaves: 250,
        tail: 0,
        last: 3,
        block: 1,
        astray: false,
    };
    comb.worst()
}

/// The dearest question that was found: as many levels as can be, with nine
/// children to pass on each, and the name that it comes to is the last of a
/// block.
pub fn dearest_question() -> Worst {
    let comb = Comb {
        levels: 199,
        step: 1,
        leaves: 9,
        tail: 0,
        last: 209,
        block: 64,
        astray: false,
    };
    comb.worst()
}
