//! `stopbook ask`: questions to a book, one on the command line or many from
//! standard input.

mod batch;
mod fields;
mod question;
mod sentence;

use crate::args::{Shape, Words};
use crate::book::Book;
use crate::files;
use crate::outcome::{Failure, Outcome, Streams};
use crate::{help, Command};
use mistrogu::Kind;
use question::{Got, Question};
use std::ffi::OsStr;
use std::os::unix::ffi::OsStrExt;

/// The command.
pub const COMMAND: Command = Command {
    name: "ask",
    shape: Shape {
        valued: &["--limit"],
        flags: &["--tsv", "--looked"],
    },
    help: help::ASK,
    run,
};

/// So many names of a range are shown where nothing else is said.
const USUAL_LIMIT: usize = 20;

/// How answers are told.
#[derive(Clone, Copy, Debug, PartialEq, Eq)]
struct Form {
    style: Style,
    /// Whether it is also told how far each question looked.
    looked: bool,
}

/// For whom answers are told.
#[derive(Clone, Copy, Debug, PartialEq, Eq)]
enum Style {
    /// In sentences, with so many names of a range at most.
    Sentences(usize),
    /// In lines of fields, for programs.
    Fields,
}

/// Asks a book.
fn run(words: &Words, streams: &mut Streams) -> Outcome {
    let form = read_form(words)?;
    match words.plain.as_slice() {
        [] => Err(Failure::usage("give a book")),
        [path] if files::is_standard(path) => Err(Failure::usage(
            "the questions come from standard input, so the book must be a file",
        )),
        [path] => batch::ask_lines(&mut Book::open(path)?, form, streams),
        [path, kind, text] => {
            let question = Question {
                kind: read_kind(kind)?,
                text: text.as_bytes().to_vec(),
            };
            ask_one(&mut Book::open(path)?, &question, form, streams)
        }
        [_, kind] => {
            read_kind(kind)?;
            Err(Failure::usage("give a question behind its kind"))
        }
        _ => Err(Failure::usage(
            "give one question; put quotes around one that has blanks",
        )),
    }
}

/// The form of the answers.
fn read_form(words: &Words) -> Result<Form, Failure> {
    Ok(Form {
        style: read_style(words)?,
        looked: words.has("--looked"),
    })
}

/// The style of the answers.
fn read_style(words: &Words) -> Result<Style, Failure> {
    let limit = words.number("--limit").map_err(Failure::Usage)?;
    match (words.has("--tsv"), limit) {
        (true, Some(_)) => Err(Failure::usage(
            "--limit is for names of a range, and --tsv prints none; give one of them",
        )),
        (true, None) => Ok(Style::Fields),
        (false, limit) => Ok(Style::Sentences(limit.unwrap_or(USUAL_LIMIT))),
    }
}

/// The kind that a word names.
fn read_kind(word: &OsStr) -> Result<Kind, Failure> {
    Kind::from_name(word.as_bytes()).ok_or_else(|| {
        let word = crate::text::shown_os(word);
        Failure::usage(format!("{word} is no kind; give {}", question::KINDS))
    })
}

/// Asks one question and prints the answer. As the only one it counts as line 1.
fn ask_one(book: &mut Book, question: &Question, form: Form, streams: &mut Streams) -> Outcome {
    let Got { reply, looked } = question::ask(book.bytes(), question, form.looked);
    if form.style == Style::Fields {
        let line = fields::of_question(1, question, reply.as_ref().ok(), looked);
        streams.out.write_all(line.as_bytes())?;
    }
    let reply = reply.map_err(|refusal| sentence::refusal(book, question, refusal))?;
    if let Style::Sentences(limit) = form.style {
        let mut text = sentence::tell(book, question, &reply, limit, streams.light)?;
        text.push_str(&sentence::tell_looked(looked));
        streams.out.write_all(text.as_bytes())?;
    }
    Ok(question::status(&reply))
}
