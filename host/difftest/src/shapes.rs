//! Random lists of names, of many shapes.

use format::{LONGEST_NAME, MOST_NAMES};
use model::{book_of, BookKind};
use vectors::lists::{self, Names};
use vectors::random::Random;
use vectors::spelling::{by_turns, names_respelt};
use vectors::worst::{self, Comb};

/// The block size to name where no book is made of a list.
pub const ANY_BLOCK: usize = 16;

/// Any kind of book.
pub fn any_kind(random: &mut Random) -> BookKind {
    *random.one_of(&BookKind::ALL)
}

/// A list of one of the shapes below that rises for a book of this kind. The large
/// ones are rare, since the second program takes its time over them.
pub fn any_names(random: &mut Random, kind: BookKind, block: usize) -> Names {
    if random.once_in(360) {
        return as_large_as_can_be(random, kind, block);
    }
    let names = any_plain_names(random);
    in_any_spelling(random, kind, names)
}

/// The names in the order of this kind of book, as they are or spelt anew. For a
/// folded one they are also in capitals and in small letters by turns.
fn in_any_spelling(random: &mut Random, kind: BookKind, names: Names) -> Names {
    match (kind, random.below(4)) {
        (BookKind::Plain | BookKind::Columns, 0..=2) => names,
        (BookKind::Folded, 0) => by_turns(&lists::sorted_for(kind, names)),
        (BookKind::Folded, 1) => lists::sorted_for(kind, names),
        _ => names_respelt(random, kind, &names),
    }
}

/// A list of one of the shapes below that rises as bytes.
fn any_plain_names(random: &mut Random) -> Names {
    match random.below(360) {
        0 | 1 => as_many_as_can_be(random),
        2..=79 => few_letters(random),
        80..=119 => all_bytes(random),
        120..=199 => shared_beginnings(random),
        200..=239 => deep(random),
        240..=259 => wide(random),
        260..=269 => costly(random),
        270..=299 => shortest_and_longest(random),
        _ => letters(random),
    }
}

/// One to four different bytes, or all of them.
fn any_alphabet(random: &mut Random) -> Vec<u8> {
    if random.once_in(4) {
        return lists::all_bytes();
    }
    let count = random.between(1, 4);
    let mut bytes: Vec<u8> = (0..count).map(|_| random.byte()).collect();
    if random.once_in(2) {
        bytes.extend([0, 255]);
    }
    bytes
}

/// Short names of few letters: many begin others.
fn few_letters(random: &mut Random) -> Names {
    let alphabets = [
        &b"a"[..],
        b"ab",
        b"abc",
        b"\0\xFF",
        b"\x7F\x80",
        b"aAbB",
        b"@AZ[`az{",
    ];
    let letters = random.one_of(&alphabets);
    let (count, most) = (random.below(100), random.between(1, 10));
    lists::random(random, letters, count, 1, most)
}

/// Names of any bytes.
fn all_bytes(random: &mut Random) -> Names {
    let (count, most) = (random.below(60), random.between(1, 60));
    lists::random(random, &lists::all_bytes(), count, 1, most)
}

/// Names that go on from others.
fn shared_beginnings(random: &mut Random) -> Names {
    let alphabet = any_alphabet(random);
    let (count, tail) = (random.between(1, 90), random.between(1, 30));
    lists::grown(random, &alphabet, count, tail)
}

/// Some names of a chain and some of its mirror.
fn deep(random: &mut Random) -> Names {
    let byte = random.byte() / 2;
    let above = byte + 1 + random.byte() / 2;
    let most = if random.once_in(8) { LONGEST_NAME } else { 30 };
    let (chain, mirror) = (random.between(1, most), random.between(1, most));
    let mut names = Names::new();
    if !random.once_in(3) {
        names.extend(lists::chain(byte, chain));
    }
    if !random.once_in(3) {
        names.extend(lists::mirror(byte, above, mirror));
    }
    lists::some_of(random, &lists::sorted(names))
}

/// Some children of a node that has as many as there can be, and some of one
/// of its children.
fn wide(random: &mut Random) -> Names {
    let stem = random.string(&lists::all_bytes(), 1, 6);
    let below = [stem.clone(), random.string(&lists::all_bytes(), 1, 2)].concat();
    let names = [lists::fan(&stem), lists::fan(&below)].concat();
    lists::some_of(random, &lists::sorted(names))
}

/// Shapes that cost most, not as large as they can be.
fn costly(random: &mut Random) -> Names {
    if random.once_in(2) {
        return worst::chains(random.between(1, 120), random.between(1, 40), 1).names;
    }
    let levels = random.between(1, 60);
    let comb = Comb {
        levels,
        step: random.between(1, 3),
        leaves: random.between(1, 4),
        tail: random.below(19),
        last: random.between(2, 40),
        block: 1,
        astray: false,
    };
    comb.worst().names
}

/// Names with lengths at the ends of what is allowed: 1, 2, 199 and 200.
fn shortest_and_longest(random: &mut Random) -> Names {
    let alphabet = any_alphabet(random);
    let stem = random.string(&alphabet, LONGEST_NAME, LONGEST_NAME);
    let mut names = Names::new();
    for _ in 0..random.below(12) {
        let mut name = stem.clone();
        let changed = *random.one_of(&[0, 1, 2, 100, 197, 198, 199]);
        name[changed] = *random.one_of(&alphabet);
        name.truncate(*random.one_of(&[1, 2, 3, 198, 199, 200, 200]));
        names.push(name);
    }
    lists::sorted(names)
}

/// Letters of one byte to four, of which some share their first bytes.
const LETTERS: [&str; 12] = [
    "a", "e", "E", "é", "è", "É", "ñ", "α", "β", "e\u{301}", "駅", "𝄞",
];

/// Names of whole letters, or of parts of letters.
fn letters(random: &mut Random) -> Names {
    let (count, longest) = (random.between(1, 60), random.between(1, 9));
    if random.once_in(3) {
        return lists::grown(random, lists::PARTS_OF_LETTERS, count, longest);
    }
    let mut names = Names::new();
    for _ in 0..count {
        let letters = random.between(1, longest);
        let letters = (0..letters).map(|_| *random.one_of(&LETTERS));
        names.push(letters.collect::<String>().into_bytes());
    }
    lists::sorted(names)
}

/// About 2,000 names, sometimes more.
pub fn as_many_as_can_be(random: &mut Random) -> Names {
    let count = random.between(MOST_NAMES - 2, MOST_NAMES + 2);
    match random.below(3) {
        0 => lists::pairs(count),
        1 => lists::binary(count),
        _ => lists::random(random, b"abcdefgh", 2 * count, 4, 12)
            .into_iter()
            .take(count)
            .collect(),
    }
}

/// A book of this kind of about 65,535 bytes, sometimes more.
fn as_large_as_can_be(random: &mut Random, kind: BookKind, block: usize) -> Names {
    let wanted = random.between(65_533, 65_538);
    let count = random.between(500, 1650);
    let names = match random.below(3) {
        0 => lists::binary(count),
        1 => lists::pairs(count),
        _ => lists::random(random, b"abcdefgh", count, 4, 20),
    };
    let names = in_any_spelling(random, kind, names);
    if book_of(kind, block, &names).len() > wanted {
        return names;
    }
    lists::with_book_length(kind, &names, block, wanted)
}
