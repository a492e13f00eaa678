//! How both programs are held to each other: the code that they agree on, or
//! what each of them did.

use crate::lent::{any_room, hex, Lent};
use fenced::on_stack;
use vectors::random::Random;

/// Whether both programs answered the same.
pub fn same_answer(expected: model::Answer, found: proved::Answer) -> bool {
    (expected.code, expected.first, expected.second) == (found.code, found.first, found.second)
}

/// Whether a question to both programs gave the same, and looked equally far.
pub fn same_counted(expected: model::Counted, found: proved::Counted) -> bool {
    let same_look = (expected.visits, expected.entries) == (found.visits, found.entries);
    same_answer(expected.answer(), found.answer()) && same_look
}

/// The code of both answers, or the two of them.
pub fn on_answer(expected: model::Answer, found: proved::Answer) -> Result<usize, String> {
    if same_answer(expected, found) {
        return Ok(expected.code);
    }
    Err(format!("expected {expected:?}\nfound    {found:?}"))
}

/// The same of a question, with how far it looked.
pub fn on_counted(expected: model::Counted, found: proved::Counted) -> Result<usize, String> {
    if same_counted(expected, found) {
        return Ok(expected.code);
    }
    Err(format!("expected {expected:?}\nfound    {found:?}"))
}

/// Makes a call of both programs with a room of this length, the proved one on so
/// much stack: the code of both answers, or the answers and the rooms.
pub fn on_room(
    random: &mut Random,
    room_length: usize,
    stack: usize,
    model: impl FnOnce(&mut [u8]) -> model::Answer,
    proved: impl FnOnce(&mut [u8]) -> proved::Answer + Send,
) -> Result<usize, String> {
    let lent = any_room(random, room_length);
    on_lent(lent, hex, stack, model, proved)
}

/// The same with a room of any items, which are shown like this.
pub fn on_lent<T: Copy + PartialEq + Send>(
    mut lent: Lent<T>,
    show: impl Fn(&[T]) -> String + Copy,
    stack: usize,
    model: impl FnOnce(&mut [T]) -> model::Answer,
    proved: impl FnOnce(&mut [T]) -> proved::Answer + Send,
) -> Result<usize, String> {
    let (mut expected, mut found) = (lent.clone(), lent.clone());
    let expected_answer = model(expected.room());
    let room = found.room();
    let found_answer = on_stack(stack, || proved(room));
    if same_answer(expected_answer, found_answer) && expected == found {
        return Ok(expected_answer.code);
    }
    Err([
        format!("room {}", lent.room().len()),
        format!("expected {expected_answer:?}"),
        format!("found    {found_answer:?}"),
        format!("room differs at {:?}", expected.first_difference(&found)),
        format!("room before   {}", lent.shown(show)),
        format!("room expected {}", expected.shown(show)),
        format!("room found    {}", found.shown(show)),
    ]
    .join("\n"))
}
