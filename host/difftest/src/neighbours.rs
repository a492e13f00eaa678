//! Neighbours tell it all: document 02, change request 12, by the proved library
//! alone, for every kind of book. Nearest's number is told by the names beside the
//! question's place, and a question's range lies in that of each of its beginnings.

use crate::books::any_block;
use crate::lent::{hex, lend};
use crate::shapes::{any_kind, any_names};
use fenced::{on_stack, Fenced};
use format::{LONGEST_BOOK, LONGEST_NAME, LONGEST_QUESTION, MOST_NAMES};
use mistrogu::{Refusal, STACK};
use model::{book_of, BookKind};
use proved::Counted;
use vectors::lists::{self, compared_name, Names};
use vectors::questions::any_question;
use vectors::random::Random;
use vectors::spelling::{names_respelt, respelt};

/// Asks for the nearest name where there are names at place less 1 and at place:
/// 0, or the whole case.
pub fn both(random: &mut Random) -> Result<usize, String> {
    nearest(random, [true, true])
}

/// The same behind all names, where there is only the one at place less 1.
pub fn only_before(random: &mut Random) -> Result<usize, String> {
    nearest(random, [true, false])
}

/// The same where no name is less, and there is only the one at place.
pub fn only_behind(random: &mut Random) -> Result<usize, String> {
    nearest(random, [false, true])
}

/// Asks for the ranges of a question and of all its beginnings: 0, or the whole
/// case.
pub fn ranges(random: &mut Random) -> Result<usize, String> {
    let (_, book, names) = any_sound_book(random);
    let question = any_short_question(random, &names);
    let question = lend(random, &question);
    told(nested(random, &book, &question), &question, &book)
}

/// Asks for the nearest name where of the names at place less 1 and at place
/// these exist.
fn nearest(random: &mut Random, exist: [bool; 2]) -> Result<usize, String> {
    let (book, question) = any_with_neighbours(random, exist);
    let held = by_neighbours(random, &book, &question, exist);
    told(held, &question, &book)
}

/// 0 where the law holds; else how it does not, of which question and book.
fn told(held: Result<(), String>, question: &[u8], book: &[u8]) -> Result<usize, String> {
    match held {
        Ok(()) => Ok(0),
        Err(law) => {
            let (question, book) = (hex(question), hex(book));
            Err(format!("question {question}\nbook {book}\n{law}"))
        }
    }
}

/// Nearest's number is the greater of those that the names at place less 1 and at
/// place would give, whichever of these exist; and it is known which of them do.
fn by_neighbours(
    random: &mut Random,
    book: &[u8],
    question: &[u8],
    exist: [bool; 2],
) -> Result<(), String> {
    let kind = kind_of(book);
    let place = ask(proved::book_place, book, question)?.first;
    let before = match place {
        0 => None,
        _ => name_at(random, book, place - 1)?,
    };
    let neighbours = [before, name_at(random, book, place)?];
    let numbers = neighbours.iter().flatten();
    let expected = numbers.map(|name| number_of(kind, name, question)).max();
    let found = ask(proved::book_nearest, book, question)?;
    if neighbours.each_ref().map(Option::is_some) == exist && expected == Some(found.second) {
        return Ok(());
    }
    let names = neighbours.map(|name| name.map(|name| hex(&name)));
    Err([
        format!("before and behind place {place}"),
        format!("expected names {exist:?}"),
        format!("found    {names:?}"),
        format!("expected the number {expected:?}"),
        format!("found    {found:?}"),
    ]
    .join("\n"))
}

/// The kind that the mark of a sound book tells.
fn kind_of(book: &[u8]) -> BookKind {
    BookKind::of_marked(book).expect("a sound book")
}

/// The number that this name would give in a book of this kind: the greatest L, not
/// above the bytes that it shares with the question, that is 0, or the question's
/// length, or a place below it where the question's byte is not 128 to 191.
fn number_of(kind: BookKind, name: &[u8], question: &[u8]) -> usize {
    let [one, other] = [name, question].map(|bytes| compared_name(kind, bytes));
    let pairs = one.iter().zip(&other);
    let shared = pairs.take_while(|(one, other)| one == other).count();
    let may_end = |&length: &usize| {
        length == 0 || length == question.len() || !(128..=191).contains(&question[length])
    };
    (0..=shared).filter(may_end).max().expect("0 is one")
}

/// Every name in the question's range begins with it, and stands in the range of
/// each of its beginnings.
fn nested(random: &mut Random, book: &[u8], question: &[u8]) -> Result<(), String> {
    let range = ask(proved::book_range, book, question)?;
    let positions = range.first..range.first + range.second;
    let compared = |bytes: &[u8]| compared_name(kind_of(book), bytes);
    for position in positions.clone() {
        let name = name_at(random, book, position)?;
        if !name.is_some_and(|name| compared(&name).starts_with(&compared(question))) {
            return Err(format!("{range:?}\nname {position} does not begin so"));
        }
    }
    for length in 0..question.len() {
        let beginning = lend(random, &question[..length]);
        let wider = ask(proved::book_range, book, &beginning)?;
        let around = wider.first..wider.first + wider.second;
        if !positions.clone().all(|position| around.contains(&position)) {
            return Err(format!("{range:?}\nof its first {length} bytes {wider:?}"));
        }
    }
    Ok(())
}

/// Asks the proved library what it may not refuse.
fn ask(call: fn(&[u8], &[u8]) -> Counted, book: &[u8], question: &[u8]) -> Result<Counted, String> {
    let answer = on_stack(STACK, || call(book, question));
    match answer.code {
        0 => Ok(answer),
        _ => Err(format!("refused to {}: {answer:?}", hex(question))),
    }
}

/// The name at this position as the proved library reads it back, if there is one.
fn name_at(random: &mut Random, book: &[u8], position: usize) -> Result<Option<Vec<u8>>, String> {
    let mut room = lend(random, &[0; LONGEST_NAME]);
    let answer = on_stack(STACK, || proved::book_read(book, position, &mut room));
    match (answer.code, room.get(..answer.first)) {
        (0, Some(name)) => Ok(Some(name.to_vec())),
        (code, _) if code == Refusal::NoSuchPosition.number() => Ok(None),
        _ => Err(format!("name {position}: {answer:?}")),
    }
}

/// A sound book and a question, to be lent, where of the names at place less 1
/// and at place these exist.
fn any_with_neighbours(random: &mut Random, exist: [bool; 2]) -> (Fenced<u8>, Fenced<u8>) {
    loop {
        let (kind, book, names) = any_sound_book(random);
        let near = match exist {
            [true, true] => &names[..],
            [true, false] => &names[names.len() - 1..],
            _ => &names[..1],
        };
        let question = any_short_question(random, &near.to_vec());
        let compared = compared_name(kind, &question);
        let place = names.partition_point(|name| compared_name(kind, name) < compared);
        if exist == [place > 0, place < names.len()] {
            return (book, lend(random, &question));
        }
    }
}

/// A question of at most 200 bytes near these names.
fn any_short_question(random: &mut Random, names: &Names) -> Vec<u8> {
    let question = any_question(random, names);
    let mut question = respelt(random, &question);
    question.truncate(LONGEST_QUESTION);
    question
}

/// The bytes of a sound book with at least one name, to be lent, with its kind and
/// its names.
fn any_sound_book(random: &mut Random) -> (BookKind, Fenced<u8>, Names) {
    loop {
        let (kind, block) = (any_kind(random), any_block(random));
        let names = match random.below(3) {
            0 => {
                let names = half_letters(random);
                names_respelt(random, kind, &names)
            }
            _ => any_names(random, kind, block),
        };
        let book = book_of(kind, block, &names);
        if (1..=MOST_NAMES).contains(&names.len()) && book.len() <= LONGEST_BOOK {
            return (kind, lend(random, &book), names);
        }
    }
}

/// Names that go on from others, and part inside letters of several bytes: of few
/// bytes, some from 128 to 191 and some right beside these.
fn half_letters(random: &mut Random) -> Names {
    let few = random.string(b"e\x7F\x80\xA8\xA9\xBF\xC0\xC3", 2, 5);
    let (count, tail) = (random.between(1, 60), random.between(1, 8));
    lists::grown(random, &few, count, tail)
}
