//! Random calls of `book_read`.

use crate::agreeing;
use crate::books::any_book;
use crate::lent::{any_room_length, hex};
use mistrogu::STACK;
use vectors::random::Random;
use vectors::sets::word;

/// Makes one call of both programs: the code they agree on, or the whole case.
pub fn run(random: &mut Random) -> Result<usize, String> {
    let (book, names) = any_book(random);
    let position = word(random.around(names.len()));
    let length = names.get(position).map_or(20, Vec::len);
    let room_length = any_room_length(random, length);
    agreeing::on_room(
        random,
        room_length,
        STACK,
        |room| model::book_read(&book, position, room),
        |room| proved::book_read(&book, position, room),
    )
    .map_err(|rooms| format!("position {position}\nbook {}\n{rooms}", hex(&book)))
}
