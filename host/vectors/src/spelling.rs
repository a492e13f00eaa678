//! Names and questions, spelt in capitals and in small letters.

use crate::lists::{sorted_for, Names};
use crate::random::Random;
use model::BookKind;

/// The same letters spelt anew: as they are, in small letters, in capitals, or in
/// both at random. What is no letter, or has an accent, stays.
pub fn respelt(random: &mut Random, bytes: &[u8]) -> Vec<u8> {
    match random.below(4) {
        0 => bytes.to_vec(),
        1 => bytes.to_ascii_lowercase(),
        2 => bytes.to_ascii_uppercase(),
        _ => {
            let bytes = bytes.iter();
            bytes.map(|&byte| either_case(random, byte)).collect()
        }
    }
}

/// The letter, or the same in the other case.
fn either_case(random: &mut Random, byte: u8) -> u8 {
    match random.once_in(2) {
        true => other_case(byte),
        false => byte,
    }
}

/// The same letter in the other case; any other byte as it is.
pub fn other_case(byte: u8) -> u8 {
    if byte.is_ascii_alphabetic() {
        byte ^ 32
    } else {
        byte
    }
}

/// The names spelt anew, in the order of this kind of book, without those that it
/// can't tell from others.
pub fn names_respelt(random: &mut Random, kind: BookKind, names: &Names) -> Names {
    let names = names.iter();
    sorted_for(kind, names.map(|name| respelt(random, name)).collect())
}

/// The names in small letters and in capitals by turns, the first in small ones.
/// Neighbours that begin with a letter then share no byte, however much they share
/// as letters. The names have to be in the order of a folded book.
pub fn by_turns(names: &Names) -> Names {
    let names = names.iter().enumerate();
    names
        .map(|(at, name)| match at % 2 {
            0 => name.to_ascii_lowercase(),
            _ => name.to_ascii_uppercase(),
        })
        .collect()
}
