//! What several test files need: the worked example, written out from the
//! documents byte by byte, and small ways to say a list, a call or an answer.

// Each test file is a program of its own and uses only some of these.
#![allow(dead_code)]

use model::questions::Look;
use model::{book_build, build_kind, write_list, Answer, BookKind, Counted, Head};

/// The book of Mar, Marina, Market Square with k = 2. Not produced by any
/// code: each byte is copied from document 01, "A book in full", but for each
/// node's sixth field, the length and the mark, which are document 02's.
#[rustfmt::skip]
pub const BOOK_BY_2: [u8; 93] = [
    // entries: 00 03 Mar, 03 03 ina, 00 0D Market Square
    0x00, 0x03, 0x4D, 0x61, 0x72,
    0x03, 0x03, 0x69, 0x6E, 0x61,
    0x00, 0x0D, 0x4D, 0x61, 0x72, 0x6B, 0x65, 0x74, 0x20, 0x53, 0x71, 0x75, 0x61, 0x72, 0x65,
    // block table
    0x00, 0x00, 0x0A, 0x00,
    // nodes: (0,3,0,3,4,13), (0,4,0,1,1,3), (106,7,1,1,1,6), (108,14,2,1,1,13)
    0x00, 0x00, 0x03, 0x00, 0x00, 0x00, 0x03, 0x00, 0x04, 0x00, 0x0D, 0x00,
    0x00, 0x00, 0x04, 0x00, 0x00, 0x00, 0x01, 0x00, 0x01, 0x00, 0x03, 0x00,
    0x6A, 0x00, 0x07, 0x00, 0x01, 0x00, 0x01, 0x00, 0x01, 0x00, 0x06, 0x00,
    0x6C, 0x00, 0x0E, 0x00, 0x02, 0x00, 0x01, 0x00, 0x01, 0x00, 0x0D, 0x00,
    // trailer
    0x03, 0x00, 0x02, 0x00, 0x19, 0x00, 0x1D, 0x00, 0x04, 0x00, 0x5D, 0x00,
    0x4E, 0x42, 0x4B, 0x32,
];

/// The same names with k = 4: one block, and so 03 0A ket Square.
#[rustfmt::skip]
pub const BOOK_BY_4: [u8; 88] = [
    // entries
    0x00, 0x03, 0x4D, 0x61, 0x72,
    0x03, 0x03, 0x69, 0x6E, 0x61,
    0x03, 0x0A, 0x6B, 0x65, 0x74, 0x20, 0x53, 0x71, 0x75, 0x61, 0x72, 0x65,
    // block table
    0x00, 0x00,
    // nodes, the same four
    0x00, 0x00, 0x03, 0x00, 0x00, 0x00, 0x03, 0x00, 0x04, 0x00, 0x0D, 0x00,
    0x00, 0x00, 0x04, 0x00, 0x00, 0x00, 0x01, 0x00, 0x01, 0x00, 0x03, 0x00,
    0x6A, 0x00, 0x07, 0x00, 0x01, 0x00, 0x01, 0x00, 0x01, 0x00, 0x06, 0x00,
    0x6C, 0x00, 0x0E, 0x00, 0x02, 0x00, 0x01, 0x00, 0x01, 0x00, 0x0D, 0x00,
    // trailer
    0x03, 0x00, 0x04, 0x00, 0x16, 0x00, 0x18, 0x00, 0x04, 0x00, 0x58, 0x00,
    0x4E, 0x42, 0x4B, 0x32,
];

/// The book without names, k = 2: the trailer alone.
pub const EMPTY_BOOK: [u8; 16] = [0, 0, 2, 0, 0, 0, 0, 0, 0, 0, 16, 0, 0x4E, 0x42, 0x4B, 0x32];

/// The list of the worked example as records.
pub const MAR_LIST: &[u8] = b"\x03Mar\x06Marina\x0DMarket Square";

/// What a room holds before a call, so that every change shows.
pub const FILLING: u8 = 0xAA;

/// An answer row before a call, so that every change shows.
pub const UNSET: Answer = Answer {
    code: 901,
    first: 902,
    second: 903,
};

/// The empty part of the first list.
pub const EMPTY_PART: Head = head(1, 0, 0);

/// Names given as texts.
pub fn names(texts: &[&str]) -> Vec<Vec<u8>> {
    texts.iter().map(|text| text.as_bytes().to_vec()).collect()
}

/// Mar, Marina, Market Square.
pub fn mar_names() -> Vec<Vec<u8>> {
    names(&["Mar", "Marina", "Market Square"])
}

/// An accepted answer.
pub fn yes(first: usize, second: usize) -> Answer {
    answer(0, first, second)
}

/// A refusal with zeros beside it.
pub fn no(code: usize) -> Answer {
    answer(code, 0, 0)
}

/// A refusal of one list record.
pub fn no_record(code: usize, record: usize) -> Answer {
    answer(code, record, 0)
}

/// Any answer.
pub fn answer(code: usize, first: usize, second: usize) -> Answer {
    Answer {
        code,
        first,
        second,
    }
}

/// The answer of a single question that looked at nothing.
pub fn unlooked(answer: Answer) -> Counted {
    Counted::of(answer, Look::default())
}

/// A call that asks a single question.
pub type Ask = fn(&[u8], &[u8]) -> Counted;

/// The five calls that do, in the order of the kinds.
pub const QUESTIONS: [Ask; 5] = [
    model::book_exact,
    model::book_place,
    model::book_range,
    model::book_nearest,
    model::book_width,
];

/// The five questions by their three numbers alone, for tests about these. How far a
/// question looks stands in `counts.rs`.
pub mod answers {
    use model::Answer;

    /// The answer of exact.
    pub fn book_exact(book: &[u8], question: &[u8]) -> Answer {
        model::book_exact(book, question).answer()
    }

    /// That of place.
    pub fn book_place(book: &[u8], question: &[u8]) -> Answer {
        model::book_place(book, question).answer()
    }

    /// That of range.
    pub fn book_range(book: &[u8], question: &[u8]) -> Answer {
        model::book_range(book, question).answer()
    }

    /// That of nearest.
    pub fn book_nearest(book: &[u8], question: &[u8]) -> Answer {
        model::book_nearest(book, question).answer()
    }

    /// That of width.
    pub fn book_width(book: &[u8], question: &[u8]) -> Answer {
        model::book_width(book, question).answer()
    }
}

/// Any head.
pub const fn head(list: usize, start: usize, length: usize) -> Head {
    Head {
        list,
        start,
        length,
    }
}

/// Builds a plain book into a room that is large enough for any, asserts that the
/// room past the book is untouched, and gives the book.
pub fn built(names: &[Vec<u8>], block: usize) -> Vec<u8> {
    built_as(BookKind::Plain, names, block)
}

/// The same with a book of this kind.
pub fn built_as(kind: BookKind, names: &[Vec<u8>], block: usize) -> Vec<u8> {
    let mut room = vec![FILLING; 65_536];
    let answer = build_kind(kind, &write_list(names), block, &mut room);
    assert_eq!((answer.code, answer.second), (0, 0), "{answer:?}");
    assert!(room[answer.first..].iter().all(|&byte| byte == FILLING));
    room.truncate(answer.first);
    room
}

/// Asserts that a build is refused like this and leaves its room as it was.
pub fn assert_build_refused(list: &[u8], block: usize, room_length: usize, expected: Answer) {
    let mut room = vec![FILLING; room_length];
    assert_eq!(book_build(list, block, &mut room), expected);
    assert_eq!(room, vec![FILLING; room_length]);
}

/// So many rising names of two bytes: 250 with first byte 0, 250 with 1, ..
pub fn many_names(wanted: usize) -> Vec<Vec<u8>> {
    let mut names = Vec::new();
    for first in 0..=255u8 {
        for second in 0..250u8 {
            names.push(vec![first, second]);
        }
    }
    names.truncate(wanted);
    names
}

/// A list whose book with block size 1 or 16 has exactly `wanted` bytes.
///
/// It starts from 320 heads of two bytes: 160 times (1, b), 160 times (2, b).
/// The tree of the heads has a root, two inner nodes and 320 leaves, so 323
/// nodes. Bytes put behind a head change nothing but the entry they stand in:
/// no neighbour shares them, no node begins at them, and a node's numbers keep
/// their two bytes. So each adds one byte to the book. Only the book of the bare heads has to be counted:
///
/// - k = 1: 16 + 323 * 12 + 320 block starts * 2 + 320 entries * 4 = 5,812;
/// - k = 16: 20 blocks, and the 300 names that do not start one share their
///   first byte with the name before, so 300 entries are a byte shorter:
///   16 + 323 * 12 + 20 * 2 + 20 * 4 + 300 * 3 = 4,912.
pub fn names_for_book_length(wanted: usize, block: usize) -> Vec<Vec<u8>> {
    let bare_length = match block {
        1 => 5_812,
        16 => 4_912,
        _ => panic!("counted for block sizes 1 and 16 only"),
    };
    let mut missing = wanted - bare_length;
    let mut names = Vec::new();
    for first in 1..=2u8 {
        for second in 0..160u8 {
            let tail = missing.min(198);
            missing -= tail;
            let mut name = vec![first, second];
            name.extend(vec![b'x'; tail]);
            names.push(name);
        }
    }
    assert_eq!(missing, 0, "320 names of 200 bytes cannot hold so much");
    names
}

/// The bytes with the mark of this kind in place of their last four.
pub fn marked_as(kind: BookKind, book: &[u8]) -> Vec<u8> {
    [&book[..book.len() - 4], &kind.mark()].concat()
}

/// Every string over these bytes with at most so many of them.
pub fn all_strings(bytes: &[u8], longest: usize) -> Vec<Vec<u8>> {
    let mut strings = vec![vec![]];
    let mut last = strings.clone();
    for _ in 0..longest {
        let longer = last.iter().flat_map(|string: &Vec<u8>| {
            let bytes = bytes.iter();
            bytes.map(|&byte| [&string[..], &[byte]].concat())
        });
        last = longer.collect();
        strings.extend(last.iter().cloned());
    }
    strings
}

/// How many leading bytes the two share.
pub fn shared(name: &[u8], question: &[u8]) -> usize {
    let mut count = 0;
    while count < name.len() && count < question.len() && name[count] == question[count] {
        count += 1;
    }
    count
}

/// How many leading bytes of a question to light where so many are shared, by
/// another way than the model's. A byte and the bytes 128 to 191 behind it are a
/// letter; the letters that are shared whole are lit.
pub fn whole_letters(question: &[u8], shared: usize) -> usize {
    let letters = question.chunk_by(|_, next| next & 0xC0 == 0x80);
    let ends = letters.scan(0, |end, letter| {
        *end += letter.len();
        Some(*end)
    });
    ends.take_while(|&end| end <= shared).last().unwrap_or(0)
}

/// A tiny generator of numbers that look random: xorshift, 64 bits.
pub struct Random {
    state: u64,
}

impl Random {
    /// The same seed gives the same numbers; the state must not be 0.
    pub fn from_seed(seed: u64) -> Random {
        let mut random = Random {
            state: seed.wrapping_mul(0x9E37_79B9_7F4A_7C15) | 1,
        };
        for _ in 0..8 {
            random.next();
        }
        random
    }

    fn next(&mut self) -> u64 {
        self.state ^= self.state << 13;
        self.state ^= self.state >> 7;
        self.state ^= self.state << 17;
        self.state
    }

    /// A number from 0 up to, but without, `limit`.
    pub fn below(&mut self, limit: usize) -> usize {
        (self.next() >> 16) as usize % limit
    }

    /// Any byte.
    pub fn byte(&mut self) -> u8 {
        self.below(256) as u8
    }

    /// One byte of these.
    pub fn one_of(&mut self, bytes: &[u8]) -> u8 {
        bytes[self.below(bytes.len())]
    }

    /// A string over these bytes, of a length from `least` to `most`.
    pub fn string(&mut self, bytes: &[u8], least: usize, most: usize) -> Vec<u8> {
        let length = least + self.below(most - least + 1);
        (0..length).map(|_| self.one_of(bytes)).collect()
    }
}
