//! Lists of which one parameter doubles from one to the next, and no other but
//! what comes with it: so it shows what a call's cost goes with.

use crate::lists::{self, Names};
use crate::worst::{chains, Worst};
use model::BookKind;

/// A list with its parameter.
pub struct Grown {
    /// Which parameter doubles.
    pub parameter: &'static str,
    /// Its value.
    pub value: usize,
    /// The list, a block size and a question: its last name.
    pub list: Worst,
}

/// The block size where it is not the parameter.
const BLOCK: usize = 16;

/// All of them, by parameter.
pub fn all() -> Vec<Grown> {
    let doubled = |parameter, values: &[usize], make: fn(usize) -> Worst| {
        let values = values.iter();
        let grown = values.map(|&value| Grown {
            parameter,
            value,
            list: make(value),
        });
        grown.collect::<Vec<Grown>>()
    };
    [
        doubled("names", &[125, 250, 500, 1000, 2000], names),
        doubled("bytes of a name", &[12, 25, 50, 100, 200], lengths),
        doubled("levels", &[12, 25, 50, 100, 200], levels),
        doubled("children in a row", &[16, 32, 64, 128, 256], widths),
        doubled("names in a block", &[1, 2, 4, 8, 16, 32, 64], blocks),
    ]
    .into_iter()
    .flatten()
    .collect()
}

/// These names in blocks of so many; the question is the last of them.
fn asked_last(names: Names, block: usize) -> Worst {
    Worst {
        kind: BookKind::Plain,
        what: String::new(),
        question: names.last().cloned().unwrap_or_default(),
        names,
        block,
    }
}

/// So many names of eleven letters, every fork with two children.
fn names(count: usize) -> Worst {
    asked_last(lists::binary(count), BLOCK)
}

/// 256 names of this length, in 16 rows of 16.
fn lengths(length: usize) -> Worst {
    let name = |number: usize| {
        let mut name = vec![b't'; length];
        (name[0], name[1]) = ((number / 16) as u8, (number % 16) as u8);
        name
    };
    asked_last((0..256).map(name).collect(), BLOCK)
}

/// 200 names in chains of so many.
fn levels(length: usize) -> Worst {
    chains(200, length, BLOCK)
}

/// 256 names of two bytes: so many first ones, and the rest of them second.
fn widths(width: usize) -> Worst {
    let other = 256 / width;
    let name = |number: usize| vec![(number / other) as u8, (number % other) as u8];
    asked_last((0..256).map(name).collect(), BLOCK)
}

/// 1,000 names in blocks of so many.
fn blocks(block: usize) -> Worst {
    asked_last(lists::binary(1000), block)
}
