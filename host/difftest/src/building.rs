//! Random calls of `book_build` and of `book_build_folded`.

use crate::agreeing;
use crate::lent::{any_room_length, hex};
use crate::records::any_records;
use crate::shapes::{any_kind, any_names};
use mistrogu::BUILD_STACK;
use model::BookKind;
use vectors::lists::Names;
use vectors::random::Random;
use vectors::spelling::respelt;

/// Makes one call of `book_build` of both programs: the code they agree on, or the
/// whole case.
pub fn plain(random: &mut Random) -> Result<usize, String> {
    run(random, BookKind::Plain, proved::book_build)
}

/// The same of `book_build_folded`.
pub fn folded(random: &mut Random) -> Result<usize, String> {
    run(random, BookKind::Folded, proved::book_build_folded)
}

/// Builds a book of this kind by both programs.
fn run(
    random: &mut Random,
    kind: BookKind,
    build: fn(&[u8], usize, &mut [u8]) -> proved::Answer,
) -> Result<usize, String> {
    let block = any_block(random);
    let names = any_list_for(random, kind, block.clamp(1, 64));
    let list = any_records(random, names);
    let mut longest = vec![0; 65_535];
    let output = model::build_kind(kind, &list, block, &mut longest);
    let length = if output.code == 0 { output.first } else { 200 };
    let room_length = any_room_length(random, length);
    agreeing::on_room(
        random,
        room_length,
        BUILD_STACK,
        |room| model::build_kind(kind, &list, block, room),
        |room| build(&list, block, room),
    )
    .map_err(|rooms| format!("block {block}\nlist {}\n{rooms}", hex(&list)))
}

/// Names for a book of this kind: now and then those for any kind, or with a name
/// twice that is spelt otherwise.
fn any_list_for(random: &mut Random, kind: BookKind, block: usize) -> Names {
    let suited = if random.once_in(8) {
        any_kind(random)
    } else {
        kind
    };
    let mut names = any_names(random, suited, block);
    if random.once_in(12) && !names.is_empty() {
        let at = random.below(names.len());
        let again = respelt(random, &names[at]);
        names.insert(at + 1, again);
    }
    names
}

/// A block size: mostly from 1 to 64, now and then any other.
fn any_block(random: &mut Random) -> usize {
    let ends = [1, 2, 63, 64];
    let wrong = [0, 65, 66, 128, 256, 260, 65_540, 1 << 32 | 4, u64::MAX];
    match random.below(24) {
        0 => *random.one_of(&wrong) as usize,
        1 => random.any() as usize,
        2..=5 => *random.one_of(&ends),
        _ => random.between(1, 64),
    }
}
