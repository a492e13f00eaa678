//! What folding is, by the proved library alone: a folded book answers as the plain
//! book of its names in small letters does, to the question in small letters, looks
//! as far as that one, and gives its names back as they were spelt.

use crate::books::any_block;
use crate::lent::{hex, lend};
use crate::shapes::any_names;
use fenced::{on_stack, Fenced};
use format::{LONGEST_BOOK, LONGEST_NAME};
use mistrogu::{BUILD_STACK, STACK};
use model::{write_list, BookKind};
use proved::{Answer, Counted};
use vectors::lists::{compared, compared_name, Names};
use vectors::questions::any_question;
use vectors::random::Random;
use vectors::spelling::respelt;

/// A call that builds a book.
type Build = fn(&[u8], usize, &mut [u8]) -> Answer;

/// A call that asks a question of a book.
type Ask = fn(&[u8], &[u8]) -> Counted;

/// The five questions.
const ASKS: [(&str, Ask); 5] = [
    ("exact", proved::book_exact),
    ("place", proved::book_place),
    ("range", proved::book_range),
    ("nearest", proved::book_nearest),
    ("width", proved::book_width),
];

/// Builds both books and asks both: 0, or 7 or 9 where there are too many names or
/// bytes for a book; or the whole case.
pub fn run(random: &mut Random) -> Result<usize, String> {
    let block = any_block(random);
    let names = any_names(random, BookKind::Folded, block);
    let small = compared(BookKind::Folded, &names);
    let question = any_question(random, &names);
    let question = respelt(random, &question);
    let told = |law: String| {
        let (list, question) = (hex(&write_list(&names)), hex(&question));
        format!("block {block}\nlist {list}\nquestion {question}\n{law}")
    };
    let folded = built(random, proved::book_build_folded, &names, block);
    let plain = built(random, proved::book_build, &small, block);
    match (folded, plain) {
        (Ok(folded), Ok(plain)) => {
            alike(random, [&folded, &plain], &question).map_err(told)?;
            spelt(random, &folded, &names).map_err(told)?;
            Ok(0)
        }
        (Err(7), Err(7)) => Ok(7),
        // Names that differ in case have longer entries, so one kind may be too long
        // where the other is not.
        (Err(9), _) => Ok(9),
        (folded, plain) => {
            let [folded, plain] = [folded, plain].map(Result::err);
            Err(told(format!("refused: folded {folded:?}, plain {plain:?}")))
        }
    }
}

/// The book of these names, to be lent, or the code of the refusal.
fn built(
    random: &mut Random,
    build: Build,
    names: &Names,
    block: usize,
) -> Result<Fenced<u8>, usize> {
    let list = lend(random, &write_list(names));
    let mut room = lend(random, &[0; LONGEST_BOOK]);
    let answer = on_stack(BUILD_STACK, || build(&list, block, &mut room));
    match answer.code {
        0 => Ok(lend(random, &room[..answer.first])),
        code => Err(code),
    }
}

/// The folded book answers a question as the plain one of the same names in small
/// letters answers it in small letters, and both look equally far.
fn alike(random: &mut Random, books: [&[u8]; 2], question: &[u8]) -> Result<(), String> {
    let small = compared_name(BookKind::Folded, question);
    let questions = [lend(random, question), lend(random, &small)];
    for (name, ask) in ASKS {
        let answers = [0, 1].map(|at| on_stack(STACK, || ask(books[at], &questions[at])));
        if answers[0] != answers[1] {
            let [folded, plain] = answers;
            return Err(format!("{name}\nfolded {folded:?}\nplain  {plain:?}"));
        }
    }
    Ok(())
}

/// Some name of the book is read back as it was spelt.
fn spelt(random: &mut Random, book: &[u8], names: &Names) -> Result<(), String> {
    if names.is_empty() {
        return Ok(());
    }
    let position = random.below(names.len());
    let mut room = lend(random, &[0; LONGEST_NAME]);
    let answer = on_stack(STACK, || proved::book_read(book, position, &mut room));
    match room.get(..answer.first) {
        Some(name) if answer.code == 0 && name == names[position] => Ok(()),
        _ => Err(format!("name {position}\n{answer:?}\nroom {}", hex(&room))),
    }
}
