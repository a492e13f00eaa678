//! Rooms that are lent to a call: what they hold before it, and how they are
//! told of after it, behind the numbers that the call gives.

use crate::checksum::printed_checksum;
use model::{Answer, Counted};

/// A room of this length as it is before the call: byte number i, from 0, is i
/// modulo 251.
pub fn filled_room(length: usize) -> Vec<u8> {
    (0..length).map(|at| (at % 251) as u8).collect()
}

/// The answer's three numbers, as they are printed.
pub fn printed_answer(answer: Answer) -> String {
    format!("{} {} {}", answer.code, answer.first, answer.second)
}

/// The five numbers that a question gives, as they are printed.
pub fn printed_counted(counted: Counted) -> String {
    let answer = printed_answer(counted.answer());
    format!("{answer} {} {}", counted.visits, counted.entries)
}

/// The answer, the checksum of what was written to the front of the room, of no
/// bytes where the call is refused, and that of the whole room.
pub fn printed_outcome(answer: Answer, room: &[u8]) -> String {
    let written = if answer.code == 0 { answer.first } else { 0 };
    format!(
        "{} {} {}",
        printed_answer(answer),
        printed_checksum(&room[..written]),
        printed_checksum(room)
    )
}
