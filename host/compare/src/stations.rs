//! Names like those of stations, to measure with.
//!
//! They are put together from syllables and from words such as Airport or
//! Central Station. Their lengths, what neighbours share and how many nodes
//! their tree has are close to those of 1,800 real stations:
//!
//! | | Real | Here |
//! |---|---|---|
//! | Bytes of the list | 37,482 | 37,257 |
//! | Bytes of a name: a tenth has fewer, half, nine tenths | 7, 18, 34 | 6, 19, 33 |
//! | Bytes shared with the name before, on average | 2.92 | 3.06 |
//! | Nodes | 2,574 | 2,451 |
//! | Bytes of the book with blocks of 16 | 65,477 | 63,549 |

use vectors::lists::{sorted, Names};
use vectors::random::Random;

/// How many names there are: nearly as many as a book of such names can have.
pub const COUNT: usize = 1800;
/// How many names a block of their book has.
pub const BLOCK: usize = 16;

/// The seed of the names.
const SEED: u64 = 1;

/// First letters, the frequent ones more than once.
const FIRST: [&str; 48] = [
    "S", "S", "S", "S", "M", "M", "M", "M", "C", "C", "C", "B", "B", "B", "A", "A", "A", "P", "P",
    "P", "L", "L", "K", "K", "T", "T", "G", "G", "H", "H", "R", "R", "D", "D", "W", "W", "F", "F",
    "N", "N", "E", "O", "V", "J", "I", "U", "Y", "Q",
];

/// What follows a first letter that is a consonant, and what one that is a vowel.
const AFTER_CONSONANT: [&str; 20] = [
    "a", "a", "e", "e", "i", "i", "o", "o", "u", "ar", "an", "el", "en", "ai", "or", "ou", "ra",
    "he", "la", "\u{f8}",
];
const AFTER_VOWEL: [&str; 8] = ["l", "n", "r", "s", "m", "st", "v", "d"];

/// Later syllables.
const SYLLABLES: [&str; 40] = [
    "ber", "den", "lin", "ton", "ra", "mo", "nek", "sta", "vi", "gan", "ri", "lo", "wick", "ham",
    "ka", "ti", "no", "sen", "dor", "la", "ming", "pol", "tra", "chi", "ster", "ley", "mar", "ne",
    "ville", "burg", "ro", "ya", "ku", "bel", "que", "son", "ford", "zi", "fe", "\u{f6}d",
];

/// Towns that have several stations.
const TOWNS: [&str; 10] = [
    "Alderburg",
    "Belmarton",
    "Chesterley",
    "Gansenville",
    "Harbourwick",
    "Larkaniston",
    "Marwickstead",
    "Polderham",
    "Sandorford",
    "Tramingley",
];

/// Words before a place.
const BEFORE: [&str; 8] = [
    "Fort ", "Saint ", "San ", "North ", "Mount ", "New ", "Port ", "Lake ",
];

/// What stands between two places.
const BETWEEN: [&str; 4] = [", ", " ", " / ", "-"];

/// Words behind a place, the frequent ones more than once; the first is none.
const ENDINGS: [&str; 32] = [
    "",
    "",
    "",
    "",
    "",
    "",
    "",
    "",
    "",
    "",
    "",
    " Airport",
    " Airport",
    " Airport",
    " Airport",
    " Municipal Airport",
    " Municipal Airport",
    " Municipal Airport",
    " International Airport",
    " International Airport",
    " County Airport",
    " Regional Airport",
    " Central Station",
    " Station",
    " Harbour",
    " Market Square",
    " Point",
    " Air Force Base",
    " University Hospital, North Entrance",
    " Lake Seaplane Base",
    " Automatic Weather Reporting System",
    " River Ferry Terminal",
];

/// The names, in order; the same ones each time.
pub fn stations() -> Names {
    let mut random = Random::from_seed(SEED);
    let mut names = Names::new();
    while names.len() < COUNT {
        let missing = COUNT - names.len();
        names.extend((0..missing).map(|_| station(&mut random).into_bytes()));
        names = sorted(names);
    }
    names
}

/// One name: a place, now and then two, and what it is.
fn station(random: &mut Random) -> String {
    let mut name = String::new();
    if random.once_in(14) {
        name += word(random, &BEFORE);
    }
    if random.once_in(14) {
        name += word(random, &TOWNS);
    } else {
        name += &place(random);
    }
    if random.once_in(16) {
        name += word(random, &BETWEEN);
        name += &place(random);
    }
    name + word(random, &ENDINGS)
}

/// The name of a place: two to four syllables.
fn place(random: &mut Random) -> String {
    let first = word(random, &FIRST);
    let second = match first {
        "A" | "E" | "I" | "O" | "U" => word(random, &AFTER_VOWEL),
        _ => word(random, &AFTER_CONSONANT),
    };
    let mut place = first.to_string() + second;
    for _ in 0..random.between(1, 3) {
        place += word(random, &SYLLABLES);
    }
    place
}

/// One of these words.
fn word(random: &mut Random, words: &[&'static str]) -> &'static str {
    random.one_of::<&str>(words)
}
