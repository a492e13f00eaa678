//! Random calls of `book_check`.

use crate::agreeing;
use crate::books::any_book;
use crate::lent::hex;
use fenced::on_stack;
use mistrogu::STACK;
use vectors::random::Random;

/// Makes one call of both programs: the code they agree on, or the whole case.
pub fn run(random: &mut Random) -> Result<usize, String> {
    let (book, _) = any_book(random);
    let expected = model::book_check(&book);
    let found = on_stack(STACK, || proved::book_check(&book));
    agreeing::on_answer(expected, found)
        .map_err(|answers| format!("book {}\n{answers}", hex(&book)))
}
