//! Random calls of `list_merge`, `list_judge` and `list_head`.

use crate::agreeing;
use crate::lent::{any_room_length, hex};
use crate::records::any_records;
use crate::shapes::{any_names, as_many_as_can_be, ANY_BLOCK};
use fenced::{on_stack, Fenced};
use mistrogu::STACK;
use model::BookKind;
use vectors::lists::{shared_out, Names};
use vectors::merging::any_passed;
use vectors::random::Random;
use vectors::sets::word;

/// Makes one call of `list_merge` of both programs: the code they agree on, or
/// the whole case.
pub fn merge(random: &mut Random) -> Result<usize, String> {
    let ([first, second], _) = &any_lists(random);
    let mut enough = vec![0; first.len() + second.len()];
    let output = model::list_merge(first, second, &mut enough);
    let length = if output.code == 0 { output.first } else { 200 };
    let room_length = any_room_length(random, length);
    agreeing::on_room(
        random,
        room_length,
        STACK,
        |room| model::list_merge(first, second, room),
        |room| proved::list_merge(first, second, room),
    )
    .map_err(|rooms| format!("{}\n{rooms}", told([first, second])))
}

/// The same of `list_judge`.
pub fn judge(random: &mut Random) -> Result<usize, String> {
    let ([first, second], _) = &any_lists(random);
    let expected = model::list_judge(first, second);
    let found = on_stack(STACK, || proved::list_judge(first, second));
    agreeing::on_answer(expected, found)
        .map_err(|answers| format!("{}\n{answers}", told([first, second])))
}

/// The same of `list_head`. A head has no code: it is that of the judging.
pub fn head(random: &mut Random) -> Result<usize, String> {
    let (lists, names) = any_lists(random);
    let [one, other] = any_passed(random, names.each_ref()).map(word);
    let [first, second] = &lists;
    let expected = model::list_head(first, second, one, other);
    let found = on_stack(STACK, || proved::list_head(first, second, one, other));
    if (expected.list, expected.start, expected.length) == (found.list, found.start, found.length) {
        return Ok(model::list_judge(first, second).code);
    }
    Err([
        format!("passed {one} and {other}"),
        told([first, second]),
        format!("expected {expected:?}"),
        format!("found    {found:?}"),
    ]
    .join("\n"))
}

/// Two lists, to be lent, each sound or spoilt, and the names that went into
/// them. Mostly the names of one list are shared out, so that some are in both;
/// now and then there are about as many as a merged list can have, or in each
/// list as many.
fn any_lists(random: &mut Random) -> ([Fenced<u8>; 2], [Names; 2]) {
    let names: [Names; 2] = match random.below(48) {
        0 => [(); 2].map(|()| as_many_as_can_be(random)),
        1 | 2 => {
            let names = as_many_as_can_be(random);
            shared_out(random, &names)
        }
        3..=9 => [(); 2].map(|()| any_names(random, BookKind::Plain, ANY_BLOCK)),
        _ => {
            let names = any_names(random, BookKind::Plain, ANY_BLOCK);
            shared_out(random, &names)
        }
    };
    let lists = names.clone().map(|names| any_records(random, names));
    (lists, names)
}

/// Both lists in hex.
fn told([first, second]: [&[u8]; 2]) -> String {
    format!("first {}\nsecond {}", hex(first), hex(second))
}
