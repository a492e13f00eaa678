//! Lists of names by their shape.
//!
//! Every function here gives names that strictly rise and have 1 to 200 bytes,
//! unless it says otherwise. Rust orders byte strings as document 01 orders
//! names, a name before its own extensions, so sorting is enough.

use crate::random::Random;
use format::LONGEST_NAME;
use model::{book_of, write_list, BookKind};

/// Names in the order of the list.
pub type Names = Vec<Vec<u8>>;

/// Mar, Marina, Market Square.
pub fn example() -> Names {
    texts(&["Mar", "Marina", "Market Square"])
}

/// Names given as texts, in the order given, whatever it is.
pub fn texts(texts: &[&str]) -> Names {
    texts.iter().map(|text| text.as_bytes().to_vec()).collect()
}

/// The records of these names, then these bytes, whatever they are.
pub fn followed(names: &Names, bytes: &[u8]) -> Vec<u8> {
    [&write_list(names), bytes].concat()
}

/// Sorts the names and drops those that are there twice.
pub fn sorted(names: Names) -> Names {
    sorted_for(BookKind::Plain, names)
}

/// Sorts the names as this kind of book does, and drops those that it can't tell
/// from the one before: of equal names the first one given stays.
pub fn sorted_for(kind: BookKind, mut names: Names) -> Names {
    names.sort_by_cached_key(|name| compared_name(kind, name));
    names.dedup_by_key(|name| compared_name(kind, name));
    names
}

/// The names as this kind of book compares them, each byte as the one that has
/// its symbol by the plain rule. In that shape byte strings are told apart, and
/// stand in order, as their names do in the book.
pub fn compared(kind: BookKind, names: &Names) -> Names {
    let names = names.iter();
    names.map(|name| compared_name(kind, name)).collect()
}

/// The same of one name, or of a question.
pub fn compared_name(kind: BookKind, name: &[u8]) -> Vec<u8> {
    let bytes = name.iter();
    bytes
        .map(|&byte| (kind.rule().symbol(byte) - 1) as u8)
        .collect()
}

/// Seventy stops as a town might have them: ten places with seven endings. Some
/// names begin others, and neighbours share much or nothing.
pub fn stops() -> Names {
    let places = [
        "Abbey", "Abbots", "Beech", "Bridge", "Castle", "Church", "Mar", "Market", "Station", "St",
    ];
    let endings = ["", " End", " Lane", " Lane East", " Road", "field", "gate"];
    let mut names = Names::new();
    for place in places {
        for ending in endings {
            names.push(format!("{place}{ending}").into_bytes());
        }
    }
    sorted(names)
}

/// Three names under one fork, of which the one of this number, 0 to 2, is the
/// longest, between two that are longer still.
pub fn longest_of_three(number: usize) -> Names {
    let mut three = texts(&["Ma", "Mbb", "Mcc"]);
    three[number].extend(b"tertown");
    [
        texts(&["Lower Ferry Road"]),
        three,
        texts(&["Upper Ferry Road"]),
    ]
    .concat()
}

/// Names with letters of several bytes, by what letters these are, and names that
/// are no text. Names of a list part inside a letter, so that the tree forks there.
pub fn lettered() -> Vec<(&'static str, Names)> {
    let texts_of = [
        ("è and é", &["Bègles", "Béziers", "Bézu"][..]),
        ("ö and ü", &["Köln", "König", "Küche"]),
        ("í and ñ", &["Caído", "Caña", "Cañada"]),
        ("Greek", &["Άρτα", "Αίγιο", "Αθήνα"]),
        ("Cyrillic", &["Минск", "Москва", "Мост"]),
        ("accents apart", &["Cafe", "Cafe\u{300}", "Cafe\u{301}s"]),
        ("three and four bytes", &["G𝄞", "G𝄟", "駅", "駆"]),
    ];
    let mut lists: Vec<(&str, Names)> = texts_of
        .map(|(letters, names)| (letters, texts(names)))
        .to_vec();
    lists.push(("broken letters", broken_letters()));
    lists
}

/// Names of letters that break off, and of bytes that go on with a letter where
/// none began.
fn broken_letters() -> Names {
    let names: [&[u8]; 8] = [
        b"ab\xC3",
        b"ab\xC3b",
        b"a\x7F",
        b"a\x80\x81\x82\x83\x84",
        b"\x80",
        b"\x80\xBF\x80",
        b"\xC0\xBF",
        b"\xF0\x9D\x84",
    ];
    names.map(<[u8]>::to_vec).to_vec()
}

/// So many names of two bytes, up to 64,000: 250 with first byte 0, then 250
/// with first byte 1, and so on. A tree of two wide levels.
pub fn pairs(count: usize) -> Names {
    (0..count)
        .map(|number| vec![(number / 250) as u8, (number % 250) as u8])
        .collect()
}

/// The 256 names of one byte.
pub fn single_bytes() -> Names {
    (0..=255).map(|byte| vec![byte]).collect()
}

/// A stem, and the stem followed by each of the 256 bytes: a node with 257
/// children, the most there can be.
pub fn fan(stem: &[u8]) -> Names {
    let mut names = vec![stem.to_vec()];
    for byte in 0..=255 {
        names.push([stem, &[byte]].concat());
    }
    names
}

/// a, aa, aaa, and so on, up to this length: every name begins the next one.
pub fn chain(byte: u8, length: usize) -> Names {
    (1..=length).map(|length| vec![byte; length]).collect()
}

/// aab, ab, b, and so on, from this length down: the mirror of the chain. The
/// second byte has to be above the first.
pub fn mirror(byte: u8, above: u8, length: usize) -> Names {
    let stems = (0..length).rev();
    stems
        .map(|stem| [vec![byte; stem], vec![above]].concat())
        .collect()
}

/// So many names of eleven letters a and b, up to 2,048: the numbers from 0 on,
/// written in binary. Every inner node has two children, so the tree has
/// about as many nodes as it can.
pub fn binary(count: usize) -> Names {
    (0..count)
        .map(|number| {
            let digits = (0..11).rev();
            digits
                .map(|digit| b'a' + (number >> digit & 1) as u8)
                .collect()
        })
        .collect()
}

/// So many names of [`binary`] make a book of nearly 65,535 bytes with blocks of 1;
/// with 1,681 it would pass them.
pub const MOST_BINARY: usize = 1670;

/// So many names of 200 bytes, up to 65,536: two bytes that differ, then a tail.
pub fn long(count: usize) -> Names {
    (0..count)
        .map(|number| {
            let head = [(number / 256) as u8, (number % 256) as u8];
            [&head[..], &tail(number, LONGEST_NAME - 2)].concat()
        })
        .collect()
}

/// So many names of 200 bytes, up to 64,000, that share all but their last two:
/// few bytes of entries make most bytes of records.
pub fn alike(count: usize) -> Names {
    let pairs = pairs(count).into_iter();
    pairs
        .map(|pair| [vec![b'n'; LONGEST_NAME - 2], pair].concat())
        .collect()
}

/// Bytes to put behind a name. They differ from name to name, so that a byte
/// in a wrong place shows.
fn tail(number: usize, length: usize) -> Vec<u8> {
    (0..length).map(|at| (7 * number + at) as u8).collect()
}

/// Makes the book of this kind of these names with this block size exactly
/// `wanted` bytes long, by putting tails behind names.
///
/// A byte behind a name that does not begin the next one adds one byte to the
/// book and changes nothing else: the two names still differ where they did, so
/// shared counts, order and tree stay. The names have to leave space for it.
pub fn with_book_length(kind: BookKind, names: &Names, block: usize, wanted: usize) -> Names {
    let mut names = names.clone();
    let mut missing = wanted - book_of(kind, block, &names).len();
    // What the last names have no space for goes to earlier ones in the next round.
    while missing > 0 {
        let left = missing;
        for position in 0..names.len() {
            if begins_next(kind, &names, position) {
                continue;
            }
            let share = missing.div_ceil(names.len() - position);
            let share = share.min(LONGEST_NAME - names[position].len());
            names[position].extend(tail(position, share));
            missing -= share;
        }
        assert!(missing < left, "too little space");
    }
    let length = book_of(kind, block, &names).len();
    assert_eq!(length, wanted, "too little space");
    names
}

/// Whether the name at this position begins the next one, as this kind of book
/// compares them.
pub fn begins_next(kind: BookKind, names: &Names, position: usize) -> bool {
    let name = compared_name(kind, &names[position]);
    let next = names.get(position + 1);
    next.is_some_and(|next| compared_name(kind, next).starts_with(&name))
}

/// At most so many random names over these bytes, of a length from `least` to
/// `most`. Doubles are dropped.
pub fn random(random: &mut Random, bytes: &[u8], count: usize, least: usize, most: usize) -> Names {
    let names = (0..count).map(|_| random.string(bytes, least, most));
    sorted(names.collect())
}

/// At most so many random names of which each goes on from some part of an
/// earlier one, so that they share long beginnings.
pub fn grown(random: &mut Random, bytes: &[u8], count: usize, longest_tail: usize) -> Names {
    let mut names = vec![random.string(bytes, 1, longest_tail)];
    while names.len() < count {
        let from = random.one_of(&names);
        let kept = random.below(from.len() + 1);
        let mut name = from[..kept].to_vec();
        name.extend(random.string(bytes, 1, longest_tail));
        name.truncate(LONGEST_NAME);
        names.push(name);
    }
    sorted(names)
}

/// The list with some names left out, more or fewer.
pub fn some_of(random: &mut Random, names: &Names) -> Names {
    let kept = random.between(1, 8);
    let names = names.iter();
    names.filter(|_| random.below(8) < kept).cloned().collect()
}

/// The names shared out to so many lists: each name goes to one of them, or
/// each list has some of all.
pub fn shared_out<const LISTS: usize>(random: &mut Random, names: &Names) -> [Names; LISTS] {
    let mut lists = [(); LISTS].map(|()| Names::new());
    if random.once_in(3) {
        for name in names {
            lists[random.below(LISTS)].push(name.clone());
        }
        return lists;
    }
    lists.map(|_| some_of(random, names))
}

/// All 256 bytes, from 0 up: the alphabet of names without any limit.
pub fn all_bytes() -> Vec<u8> {
    (0..=255).collect()
}

/// One letter, the two bytes of é, the two of an accent that stands behind its
/// letter, and one more that goes on with a letter: names of these are full of
/// letters that break off or never began.
pub const PARTS_OF_LETTERS: &[u8] = b"a\xC3\xA9\xCC\x81\xBF";
