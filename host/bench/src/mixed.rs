//! Mixed questions to the book in a file.
//!
//! The mix is the same each time: a fifth of the questions are names of the
//! book, a fifth beginnings of names, a fifth extensions, a fifth miss a name by
//! one byte, and a fifth are strangers. Each is asked in all five kinds.

use crate::asking::{call_of, shown_question};
use crate::{checking, read_file, shown, told, Given};
use format::Kind;
use model::questions::{exact, look_from, nearest_from, place, range, width};
use model::tree::tree;
use model::{book_check, open, Answer, Counted};
use vectors::lists::Names;
use vectors::questions::{of_shape, SHAPES};
use vectors::random::Random;

/// How many questions of each shape are asked.
const EACH: usize = 20;

/// Checks the book, then asks every question in every kind: a line for each
/// call, in the order in which they are made. Every answer has to be the second
/// program's.
pub fn run(words: &[String]) -> Result<String, String> {
    let (file, book) = read_book(words)?;
    let (kind, block, names) = open(&book).ok_or_else(|| format!("{file} is no book"))?;
    // The second program's calls open the book each time, which takes long; so its
    // questions are asked of the names, and the tree to go down in is made once.
    let rule = kind.rule();
    let root = tree(rule, &names).ok_or_else(|| format!("{file} has no names"))?;
    let expected = |kind: Kind, question: &[u8]| {
        let (first, second) = match kind {
            Kind::Exact => exact(rule, &names, question),
            Kind::Place => place(rule, &names, question),
            Kind::Range => range(rule, &names, question),
            Kind::Nearest => nearest_from(rule, &root, &names, question),
            Kind::Width => width(rule, &names, question),
        };
        let answer = Answer {
            code: 0,
            first,
            second,
        };
        Counted::of(answer, look_from(rule, block, &root, question))
    };
    ask_all(&book, &names, |kind, question, answer| match kind {
        None => shown(answer, book_check(&book)),
        Some(kind) => shown(answer, expected(kind, question)),
    })
}

/// The same calls and lines, whatever the answers are: under a profiler the second
/// program would take most of the time.
pub fn asked(words: &[String]) -> Result<String, String> {
    let (file, book) = read_book(words)?;
    let (_, _, names) = open(&book).ok_or_else(|| format!("{file} is no book"))?;
    ask_all(&book, &names, |_, _, answer| Ok(told(answer)))
}

/// The name of the book's file, and its bytes.
fn read_book(words: &[String]) -> Result<(&str, Vec<u8>), String> {
    let [file] = words else {
        return Err("questions needs the name of a book file".to_string());
    };
    Ok((file, read_file(file)?))
}

/// Checks, then asks: a line for each call, with what `tell` makes of what the
/// check gives, which has no kind, or a question.
fn ask_all(
    book: &[u8],
    names: &Names,
    tell: impl Fn(Option<Kind>, &[u8], Given) -> Result<String, String>,
) -> Result<String, String> {
    let checked = tell(None, &[], checking::measured_check(book).into())?;
    let mut lines = vec![format!("check {checked}")];
    for question in questions(names) {
        for kind in Kind::ALL {
            let given = call_of(kind)(book, &question);
            let answer = tell(Some(kind), &question, given.into())?;
            let (kind, question) = (kind.name(), shown_question(&question));
            lines.push(format!("{kind} {answer}: {question}"));
        }
    }
    Ok(lines.join("\n"))
}

/// The questions of the mix.
pub fn questions(names: &Names) -> Names {
    let mut random = Random::from_seed(1);
    let shapes = SHAPES.iter().flat_map(|&shape| [shape; EACH]);
    shapes
        .map(|shape| of_shape(&mut random, names, shape))
        .collect()
}
