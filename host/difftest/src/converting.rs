//! Random calls of `book_to_columns` and `book_from_columns`; and, by the proved
//! library alone, what a plain book and its column book have to do with each other.

use crate::agreeing;
use crate::books::{any_block, any_book, any_book_of};
use crate::lent::{any_room_length, hex, lend};
use crate::shapes::any_names;
use fenced::{on_stack, Fenced};
use format::{LONGEST_BOOK, LONGEST_NAME, MOST_NAMES};
use mistrogu::STACK;
use model::{book_of, BookKind};
use proved::{Answer, Counted};
use vectors::batches::any_batch;
use vectors::lists::Names;
use vectors::questions::any_question;
use vectors::random::Random;

/// A call that converts.
type Convert<Answer> = fn(&[u8], &mut [u8]) -> Answer;

/// A call that asks a question of a book.
type Ask = fn(&[u8], &[u8]) -> Counted;

/// The five questions.
const ASKS: [(&str, Ask); 5] = [
    ("exact", proved::book_exact),
    ("place", proved::book_place),
    ("range", proved::book_range),
    ("nearest", proved::book_nearest),
    ("width", proved::book_width),
];

/// Makes one call of `book_to_columns` of both programs: the code they agree on, or
/// the whole case.
pub fn to_columns(random: &mut Random) -> Result<usize, String> {
    run(
        random,
        BookKind::Plain,
        model::book_to_columns,
        proved::book_to_columns,
    )
}

/// The same of `book_from_columns`.
pub fn from_columns(random: &mut Random) -> Result<usize, String> {
    run(
        random,
        BookKind::Columns,
        model::book_from_columns,
        proved::book_from_columns,
    )
}

/// Converts a book, mostly one of the kind that is turned, by both programs.
fn run(
    random: &mut Random,
    kind: BookKind,
    model: Convert<model::Answer>,
    proved: Convert<Answer>,
) -> Result<usize, String> {
    let (book, _) = match random.below(4) {
        0 => any_book(random),
        _ => any_book_of(random, kind),
    };
    let room_length = any_room_length(random, book.len());
    agreeing::on_room(
        random,
        room_length,
        STACK,
        |room| model(&book, room),
        |room| proved(&book, room),
    )
    .map_err(|rooms| format!("book {}\n{rooms}", hex(&book)))
}

/// A plain book becomes the column book that the second program lays out, and that
/// becomes the plain book again: 0, or the whole case.
pub fn there_and_back(random: &mut Random) -> Result<usize, String> {
    let (block, names) = any_sound_list(random);
    let kinds = [BookKind::Plain, BookKind::Columns];
    let [plain, columns] = kinds.map(|kind| book_of(kind, block, &names));
    let plain = lend(random, &plain);
    let told = |law: String| format!("book {}\n{law}", hex(&plain));
    let there = converted(random, proved::book_to_columns, &plain).map_err(told)?;
    same("to columns", &columns, &there).map_err(told)?;
    let back = converted(random, proved::book_from_columns, &there).map_err(told)?;
    same("and back", &plain, &back).map_err(told)?;
    Ok(0)
}

/// A plain book and its column book give the same to every call that serves both: 0,
/// or the whole case.
pub fn alike(random: &mut Random) -> Result<usize, String> {
    let (block, names) = any_sound_list(random);
    let plain = book_of(BookKind::Plain, block, &names);
    let plain = lend(random, &plain);
    let told = |law: String| format!("book {}\n{law}", hex(&plain));
    let columns = converted(random, proved::book_to_columns, &plain).map_err(told)?;
    let books = [&plain[..], &columns[..]];
    asked(random, books, &names).map_err(told)?;
    batched(random, books, &names).map_err(told)?;
    checked_and_read(random, books, &names).map_err(told)?;
    Ok(0)
}

/// Both answer a question of each kind alike, and look equally far.
fn asked(random: &mut Random, books: [&[u8]; 2], names: &Names) -> Result<(), String> {
    let question = any_question(random, names);
    let question = lend(random, &question);
    for (name, ask) in ASKS {
        let [plain, columns] = books.map(|book| on_stack(STACK, || ask(book, &question)));
        if plain != columns {
            let question = hex(&question);
            let law = format!("{name} {question}");
            return Err(format!("{law}\nplain   {plain:?}\ncolumns {columns:?}"));
        }
    }
    Ok(())
}

/// Both answer every row of a batch alike.
fn batched(random: &mut Random, books: [&[u8]; 2], names: &Names) -> Result<(), String> {
    let batch = any_batch(random, names);
    let rows = batch.rows().into_iter().map(|row| proved::Row {
        kind: row.kind,
        start: row.start,
        length: row.length,
    });
    let rows = lend(random, &rows.collect::<Vec<_>>());
    let questions = lend(random, &batch.questions);
    let [plain, columns] = books.map(|book| {
        let mut answers = lend(random, &vec![Answer::default(); rows.len()]);
        let answer = on_stack(STACK, || {
            proved::book_batch(book, &questions, &rows, &mut answers)
        });
        (answer, answers.to_vec())
    });
    match plain == columns {
        true => Ok(()),
        false => Err(format!(
            "batch {}\n{:?}\nplain   {plain:?}\ncolumns {columns:?}",
            hex(&questions),
            &rows[..]
        )),
    }
}

/// Both have the same names and block size, and the same name at some position.
fn checked_and_read(random: &mut Random, books: [&[u8]; 2], names: &Names) -> Result<(), String> {
    let position = random.below(names.len() + 1);
    let [plain, columns] = books.map(|book| {
        let mut room = lend(random, &[0; LONGEST_NAME]);
        let checked = on_stack(STACK, || proved::book_check(book));
        let read = on_stack(STACK, || proved::book_read(book, position, &mut room));
        (checked, read, room.to_vec())
    });
    match plain == columns {
        true => Ok(()),
        false => Err(format!(
            "name {position}\nplain   {plain:?}\ncolumns {columns:?}"
        )),
    }
}

/// The other book, in a room of just its length, to be lent.
fn converted(
    random: &mut Random,
    convert: Convert<Answer>,
    book: &[u8],
) -> Result<Fenced<u8>, String> {
    let mut room = lend(random, &vec![0; book.len()]);
    let answer = on_stack(STACK, || convert(book, &mut room));
    match (answer.code, answer.first, answer.second) {
        (0, length, 0) if length == book.len() => Ok(room),
        _ => Err(format!("of {} bytes {answer:?}", book.len())),
    }
}

/// Asserts that both are the same bytes.
fn same(law: &str, expected: &[u8], found: &[u8]) -> Result<(), String> {
    if expected == found {
        return Ok(());
    }
    let (expected, found) = (hex(expected), hex(found));
    Err(format!("{law}\nexpected {expected}\nfound    {found}"))
}

/// A block size and names that have a plain book, and so a column book, too.
fn any_sound_list(random: &mut Random) -> (usize, Names) {
    loop {
        let block = any_block(random);
        let names = any_names(random, BookKind::Plain, block);
        let length = book_of(BookKind::Plain, block, &names).len();
        if names.len() <= MOST_NAMES && length <= LONGEST_BOOK {
            return (block, names);
        }
    }
}

#[cfg(test)]
mod tests {
    use super::*;
    use std::collections::BTreeMap;

    #[test]
    fn books_of_all_kinds_are_turned_and_refused_in_every_way() {
        let mut outcomes = BTreeMap::new();
        let mut random = Random::from_seed(1);
        for turn in 0..3000 {
            let (kind, convert): (_, Convert<model::Answer>) = match turn % 2 {
                0 => (BookKind::Plain, model::book_to_columns),
                _ => (BookKind::Columns, model::book_from_columns),
            };
            let (book, _) = match random.below(4) {
                0 => any_book(&mut random),
                _ => any_book_of(&mut random, kind),
            };
            let mut room = vec![0; any_room_length(&mut random, book.len())];
            let code = convert(&book, &mut room).code;
            let sound = model::book_check(&book).code == 0;
            *outcomes.entry((turn % 2, code, sound)).or_insert(0) += 1;
        }
        for way in [0, 1] {
            // turned, refused for the room, no book, and a sound book of another kind
            for outcome in [(0, true), (4, true), (2, false), (2, true)] {
                let times = outcomes.get(&(way, outcome.0, outcome.1));
                assert!(times > Some(&100), "{outcomes:?}");
            }
        }
    }
}
