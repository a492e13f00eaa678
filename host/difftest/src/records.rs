//! Random list records, sound or spoilt.

use crate::lent::lend;
use fenced::Fenced;
use model::write_list;
use vectors::damage::{spoil_bytes, spoil_names};
use vectors::lists::Names;
use vectors::random::Random;

/// How many names, and then how many bytes, are spoilt: mostly none.
const SPOILT: [(usize, usize); 8] = [
    (0, 0),
    (0, 0),
    (0, 0),
    (0, 0),
    (0, 0),
    (1, 0),
    (0, 1),
    (1, 2),
];

/// The records of these names, to be lent: as they are, or spoilt.
pub fn any_records(random: &mut Random, mut names: Names) -> Fenced<u8> {
    let (of_names, of_bytes) = *random.one_of(&SPOILT);
    for _ in 0..of_names {
        spoil_names(random, &mut names);
    }
    let mut list = write_list(&names);
    for _ in 0..of_bytes {
        spoil_bytes(random, &mut list);
    }
    lend(random, &list)
}
