//! Questions from standard input, a kind and a question on each line, asked as
//! batches, or one by one where it is told how far each looked. Answers and refusals
//! come in the order of the lines, each with its line.

use super::question::{self, Got, Question, KINDS, NOWHERE};
use super::{fields, sentence, Form, Style};
use crate::book::Book;
use crate::outcome::{Failure, Outcome, Status, Streams};
use crate::text::{grouped, named};
use mistrogu::{Kind, MOST_ROWS};
use std::io::{self, BufRead, IsTerminal, Read};

/// So much of a line is read; what is longer is refused as a question.
const LONGEST_LINE: u64 = 65_536;

/// A line that waits for its answer.
struct Asked {
    number: usize,
    line: Vec<u8>,
    question: Result<Question, String>,
}

/// Asks every line of standard input. From a terminal each line is answered at
/// once.
pub fn ask_lines(book: &mut Book, form: Form, streams: &mut Streams) -> Outcome {
    let input = io::stdin();
    let most = match input.is_terminal() {
        true => {
            streams.note(&format!("on each line {KINDS}, a blank and a question"));
            1
        }
        false => MOST_ROWS,
    };
    ask_reader(book, &mut input.lock(), most, form, streams)
}

/// Asks every line, so many at a time. `No` where a line got no answer.
fn ask_reader(
    book: &mut Book,
    input: &mut dyn BufRead,
    most: usize,
    form: Form,
    streams: &mut Streams,
) -> Outcome {
    let mut status = Status::Done;
    let mut waiting = Vec::new();
    let mut number = 0;
    while let Some(line) = read_line(input)? {
        number += 1;
        if line.is_empty() {
            continue;
        }
        waiting.push(Asked {
            number,
            question: read_question(&line),
            line,
        });
        if waiting.len() >= most {
            status = worse(status, ask_waiting(book, &waiting, form, streams)?);
            waiting.clear();
        }
    }
    Ok(worse(status, ask_waiting(book, &waiting, form, streams)?))
}

/// The first of the two that is not `Done`.
fn worse(one: Status, other: Status) -> Status {
    match one {
        Status::Done => other,
        no => no,
    }
}

/// The next line without its end, or none at the end of the input. A line that
/// is too long is cut, and its rest is skipped.
fn read_line(input: &mut dyn BufRead) -> Result<Option<Vec<u8>>, Failure> {
    let cannot = |error: io::Error| Failure::File(format!("standard input: {error}"));
    let mut line = Vec::new();
    let mut part = input.take(LONGEST_LINE);
    if part.read_until(b'\n', &mut line).map_err(cannot)? == 0 {
        return Ok(None);
    }
    if line.last() != Some(&b'\n') {
        input.skip_until(b'\n').map_err(cannot)?;
    }
    if line.last() == Some(&b'\n') {
        line.pop();
    }
    if line.last() == Some(&b'\r') {
        line.pop();
    }
    Ok(Some(line))
}

/// The kind before the first blank, and the question behind it.
fn read_question(line: &[u8]) -> Result<Question, String> {
    let mut words = line.splitn(2, |&byte| byte == b' ');
    let word = words.next().unwrap_or_default();
    let text = words.next().unwrap_or_default().to_vec();
    match Kind::from_name(word) {
        Some(kind) => Ok(Question { kind, text }),
        None => Err(format!(
            "{} is no kind; begin the line with {KINDS}",
            named(word)
        )),
    }
}

/// Asks the waiting questions and prints the answers.
fn ask_waiting(book: &mut Book, waiting: &[Asked], form: Form, streams: &mut Streams) -> Outcome {
    let questions = waiting
        .iter()
        .filter_map(|asked| asked.question.as_ref().ok());
    let questions: Vec<Question> = questions.cloned().collect();
    let all = question::ask_all(book.bytes(), &questions, form.looked)
        .map_err(|refusal| Failure::refused(format!("{}: {refusal}", book.source())))?;
    let mut all = all.into_iter();
    let mut status = Status::Done;
    for asked in waiting {
        let answered = match &asked.question {
            Ok(question) => match all.next() {
                Some(got) => tell(book, asked, question, got, form, streams)?,
                None => Status::No,
            },
            Err(why) => tell_other(asked, why, form, streams)?,
        };
        status = worse(status, answered);
    }
    streams.out.flush()?;
    Ok(status)
}

/// Tells what the question of a line got: `No` where it was refused.
fn tell(
    book: &mut Book,
    asked: &Asked,
    question: &Question,
    Got { reply, looked }: Got,
    form: Form,
    streams: &mut Streams,
) -> Outcome {
    let number = asked.number;
    match (form.style, &reply) {
        (Style::Fields, reply) => {
            let line = fields::of_question(number, question, reply.as_ref().ok(), looked);
            streams.out.write_all(line.as_bytes())?;
        }
        (Style::Sentences(limit), Ok(reply)) => {
            let text = sentence::tell(book, question, reply, limit, streams.light)?;
            let looked = sentence::tell_looked(looked);
            write!(streams.out, "line {}: {text}{looked}", grouped(number))?;
        }
        (Style::Sentences(_), Err(_)) => {}
    }
    let Err(refusal) = reply else {
        return Ok(Status::Done);
    };
    if let Failure::Refused(text) = sentence::refusal(book, question, refusal) {
        note_line(number, &text, streams);
    }
    Ok(Status::No)
}

/// Tells why a line is no question.
fn tell_other(asked: &Asked, why: &str, form: Form, streams: &mut Streams) -> Outcome {
    if form.style == Style::Fields {
        let looked = form.looked.then_some(NOWHERE);
        let line = fields::of_other(asked.number, &asked.line, looked);
        streams.out.write_all(line.as_bytes())?;
    }
    note_line(asked.number, why, streams);
    Ok(Status::No)
}

/// Says what is wrong with a line, behind what was answered before it.
fn note_line(number: usize, text: &str, streams: &mut Streams) {
    let _ = streams.out.flush();
    let number = grouped(number);
    streams.note(&format!("standard input, line {number}: {text}"));
}

#[cfg(test)]
mod tests {
    use super::*;
    use crate::layout::tests::EXAMPLE;
    use crate::light::Light;

    #[test]
    fn a_line_is_a_kind_and_a_question() {
        let question = read_question(b"place  Old Mill ").unwrap();
        assert_eq!(question.kind, Kind::Place);
        assert_eq!(question.text, b" Old Mill ");
        assert_eq!(read_question(b"range").unwrap().text, b"");
        assert_eq!(read_question(b"range ").unwrap().text, b"");
        let wrong = read_question(b"\x1Bfind Mar").unwrap_err();
        assert!(wrong.starts_with("\\1Bfind is no kind"));
        assert!(read_question(b" exact Mar").is_err());
    }

    #[test]
    fn lines_lose_their_ends_and_long_ones_are_cut() {
        let mut text = b"exact Mar\r\n\nlast".to_vec();
        let mut input = &text[..];
        let mut next = || read_line(&mut input).unwrap();
        assert_eq!(next().as_deref(), Some(&b"exact Mar"[..]));
        assert_eq!(next().as_deref(), Some(&b""[..]));
        assert_eq!(next().as_deref(), Some(&b"last"[..]));
        assert_eq!(next(), None);
        text = vec![b'x'; 100_000];
        text.extend(b"\nplace a\n");
        let mut input = &text[..];
        assert_eq!(
            read_line(&mut input).unwrap().map(|line| line.len()),
            Some(65_536)
        );
        assert_eq!(
            read_line(&mut input).unwrap().as_deref(),
            Some(&b"place a"[..])
        );
    }

    /// What these lines get from the book of document 01.
    fn asked(lines: &str, most: usize) -> (Status, String, String) {
        let mut book = Book::of(EXAMPLE.to_vec(), "example".to_string()).unwrap();
        let (mut out, mut err) = (Vec::new(), Vec::new());
        let mut streams = Streams {
            out: &mut out,
            err: &mut err,
            light: Light::Brackets,
        };
        let form = Form {
            style: Style::Sentences(20),
            looked: false,
        };
        let status = ask_reader(&mut book, &mut lines.as_bytes(), most, form, &mut streams);
        let text = |bytes| String::from_utf8(bytes).expect("answers are text");
        (status.expect("the lines are read"), text(out), text(err))
    }

    #[test]
    fn the_size_of_a_batch_does_not_show() {
        let lines = "exact Marina\n".repeat(130) + "place Mark\nexact Zoo\n";
        let marina = |number| format!("line {number}: Marina is stop 1\n");
        let expected = (1..=130).map(marina).collect::<String>()
            + "line 131: Mark would stand at 2, between Marina and Market Square\n"
            + "line 132: Zoo is no stop; it would stand last, after Market Square\n";
        for most in [1, 63, 64] {
            let found = asked(&lines, most);
            assert_eq!(found, (Status::Done, expected.clone(), String::new()));
        }
    }

    #[test]
    fn a_bad_line_is_named_and_the_others_go_on() {
        let lines = format!("find Mar\n\nplace {}\nexact Mar\n", "x".repeat(201));
        let (status, out, err) = asked(&lines, 64);
        assert_eq!(status, Status::No);
        assert_eq!(out, "line 4: Mar is stop 0\n");
        assert!(err.contains("line 1: find is no kind"));
        assert!(err.contains("line 3: the question has 201 bytes"));
    }
}
