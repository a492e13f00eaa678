//! fst, as a library that the comparison loads: see src/loaded.rs.
//!
//! It is a map from each name to its position. A question's place is the value
//! of the first name that is not less, and a range ends at the place of the
//! first string above all that begin with the question.

use fst::{IntoStreamer, Map, MapBuilder, Streamer};
use std::slice::from_raw_parts;

/// The map, and how many bytes it has.
pub struct Peer {
    map: Map,
    size: usize,
}

impl Peer {
    /// How many names are less than the question.
    fn place(&self, question: &[u8]) -> usize {
        let mut names = self.map.range().ge(question).into_stream();
        names.next().map_or(self.map.len(), |(_, place)| place as usize)
    }
}

/// The lowest string above all that begin with this one, if there is any: 255
/// has no next, so what stands before it is raised.
fn above(question: &[u8], room: &mut [u8; 200]) -> Option<usize> {
    let last = question.iter().rposition(|&byte| byte < 255)?;
    room[..=last].copy_from_slice(&question[..=last]);
    room[last] += 1;
    Some(last + 1)
}

unsafe fn answer(numbers: *mut usize, first: usize, second: usize) {
    *numbers.cast::<[usize; 3]>() = [0, first, second];
}

#[no_mangle]
pub unsafe extern "C" fn peer_build(list: *const u8, length: usize) -> *mut Peer {
    let mut list = from_raw_parts(list, length);
    let mut names = MapBuilder::memory();
    let mut position = 0;
    while let Some((&length, rest)) = list.split_first() {
        let (name, rest) = rest.split_at(usize::from(length));
        names.insert(name, position).unwrap();
        position += 1;
        list = rest;
    }
    let bytes = names.into_inner().unwrap();
    let size = bytes.len();
    let map = Map::from_bytes(bytes).unwrap();
    Box::into_raw(Box::new(Peer { map, size }))
}

#[no_mangle]
pub unsafe extern "C" fn peer_free(peer: *mut Peer) {
    drop(Box::from_raw(peer));
}

#[no_mangle]
pub unsafe extern "C" fn peer_size(peer: *const Peer) -> usize {
    (*peer).size
}

#[no_mangle]
pub unsafe extern "C" fn peer_exact(peer: *const Peer, question: *const u8, length: usize, numbers: *mut usize) {
    match (*peer).map.get(from_raw_parts(question, length)) {
        None => answer(numbers, 0, 0),
        Some(position) => answer(numbers, position as usize, 1),
    }
}

#[no_mangle]
pub unsafe extern "C" fn peer_place(peer: *const Peer, question: *const u8, length: usize, numbers: *mut usize) {
    let place = (*peer).place(from_raw_parts(question, length));
    answer(numbers, place, 0);
}

#[no_mangle]
pub unsafe extern "C" fn peer_range(peer: *const Peer, question: *const u8, length: usize, numbers: *mut usize) {
    let question = from_raw_parts(question, length);
    let place = (*peer).place(question);
    let mut room = [0; 200];
    let end = match above(question, &mut room) {
        None => (*peer).map.len(),
        Some(length) => (*peer).place(&room[..length]),
    };
    answer(numbers, place, end - place);
}
