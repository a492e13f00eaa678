//! `book_batch`, of the book in a file: 64 of the mixed questions, a fifth in each
//! kind. Of bytes that are no book they are strangers.

use crate::asking::{call_of, shown_question};
use crate::{mixed, read_file, shown, Ready};
use format::{Kind, MOST_ROWS};
use model::questions::{look_from, Look};
use model::tree::tree;
use model::{book_batch, open, Answer, Counted};
use proved::Row;
use vectors::batches::Batch;
use vectors::lists::Names;

/// A batch to a book, and what the second program answers.
struct Prepared {
    book: Vec<u8>,
    questions: Vec<u8>,
    rows: Vec<Row>,
    expected: Answer,
    expected_rows: Vec<Answer>,
}

impl Prepared {
    /// As many answer rows as there are rows.
    fn unset_answers(&self) -> Vec<proved::Answer> {
        vec![proved::Answer::default(); self.rows.len()]
    }

    /// Makes the call.
    fn ask(&self, answers: &mut [proved::Answer]) -> proved::Answer {
        measured_batch(&self.book, &self.questions, &self.rows, answers)
    }

    /// Whether all answer rows are the second program's. It is never inlined, so
    /// that its frame is not taken for a part of the call's stack.
    #[inline(never)]
    fn compare(&self, answers: &[proved::Answer]) -> Result<(), String> {
        for (&answer, &expected) in answers.iter().zip(&self.expected_rows) {
            shown(answer, expected)?;
        }
        Ok(())
    }
}

/// Makes the call ready from a file's name.
pub fn ready(words: &[String]) -> Result<Ready, String> {
    let prepared = prepare(words)?;
    let expected = prepared.expected;
    let mut answers = prepared.unset_answers();
    Ok(Ready::new(
        move || {
            let answer = prepared.ask(&mut answers);
            prepared.compare(&answers).expect("the second program's");
            answer
        },
        expected,
    ))
}

/// Asks the batch, then each of its questions alone: a line for each call, in
/// the order in which they are made. Alone each tells how far it looked, too.
pub fn together(words: &[String]) -> Result<String, String> {
    let prepared = prepare(words)?;
    let opened = open(&prepared.book);
    let (kind, block, names) = opened.ok_or_else(|| format!("{} is no book", words.join(" ")))?;
    let (rule, root) = (kind.rule(), tree(kind.rule(), &names));
    let alone = |answer: Answer, question: &[u8]| {
        let look = match (answer.code, &root) {
            (0, Some(root)) => look_from(rule, block, root, question),
            _ => Look::default(),
        };
        Counted::of(answer, look)
    };
    let mut answers = prepared.unset_answers();
    let answer = shown(prepared.ask(&mut answers), prepared.expected)?;
    prepared.compare(&answers)?;
    let mut lines = vec![format!("batch {answer}")];
    for (row, &expected) in prepared.rows.iter().zip(&prepared.expected_rows) {
        let question = &prepared.questions[row.start..row.start + row.length];
        let kind = Kind::from_number(row.kind).expect("every row has a kind");
        let given = call_of(kind)(&prepared.book, question);
        let answer = shown(given, alone(expected, question))?;
        let (kind, question) = (kind.name(), shown_question(question));
        lines.push(format!("{kind} {answer}: {question}"));
    }
    Ok(lines.join("\n"))
}

/// Makes the batch for the book in a file, and asks the second program.
fn prepare(words: &[String]) -> Result<Prepared, String> {
    let [file] = words else {
        return Err("a batch needs the name of a book file".to_string());
    };
    let book = read_file(file)?;
    let names = open(&book).map_or_else(Names::new, |(_, _, names)| names);
    let batch = mixed_batch(&names);
    let rows = batch.rows();
    let mut expected_rows = vec![Answer::default(); rows.len()];
    let expected = book_batch(&book, &batch.questions, &rows, &mut expected_rows);
    let rows = rows.iter().map(|row| Row {
        kind: row.kind,
        start: row.start,
        length: row.length,
    });
    Ok(Prepared {
        book,
        questions: batch.questions,
        rows: rows.collect(),
        expected,
        expected_rows,
    })
}

/// Questions from all over the mix, one kind after the other.
fn mixed_batch(names: &Names) -> Batch {
    let questions = mixed::questions(names);
    let rows = (0..MOST_ROWS).map(|number| {
        let question = &questions[number * questions.len() / MOST_ROWS];
        let kind = Kind::ALL[number % Kind::ALL.len()];
        (kind.number() as u64, &question[..])
    });
    Batch::of(rows)
}

/// The call that is measured, and nothing else.
#[inline(never)]
fn measured_batch(
    book: &[u8],
    questions: &[u8],
    rows: &[Row],
    answers: &mut [proved::Answer],
) -> proved::Answer {
    proved::book_batch(book, questions, rows, answers)
}
