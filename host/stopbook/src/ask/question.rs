//! Questions and what they get.

use crate::outcome::Status;
use mistrogu::counted::{self, Counted, Looked};
use mistrogu::{Batch, Kind, Refusal, Reply};

/// The kinds, for messages.
pub const KINDS: &str = "exact, place, range, nearest or width";

/// A question.
#[derive(Clone, Debug, PartialEq, Eq)]
pub struct Question {
    /// What is asked.
    pub kind: Kind,
    /// The bytes that it is asked of.
    pub text: Vec<u8>,
}

/// What a question got.
#[derive(Clone, Debug, PartialEq, Eq)]
pub struct Got {
    /// The answer, or why there is none.
    pub reply: Result<Reply, Refusal>,
    /// How far it looked, where that is told.
    pub looked: Option<Looked>,
}

/// How far a question looked that was refused.
pub const NOWHERE: Looked = Looked {
    visits: 0,
    entries: 0,
};

/// Asks one question by its own call; where that is told, with how far it looked.
pub fn ask(book: &[u8], question: &Question, looked: bool) -> Got {
    let counted = ask_counted(book, question);
    let far = counted.as_ref().map_or(NOWHERE, |counted| counted.looked);
    Got {
        reply: counted.map(|counted| counted.answer),
        looked: looked.then_some(far),
    }
}

/// Asks one question by its own call.
fn ask_counted(book: &[u8], question: &Question) -> Result<Counted<Reply>, Refusal> {
    let text = &question.text;
    match question.kind {
        Kind::Exact => counted::exact(book, text).map(|got| got.map(Reply::Exact)),
        Kind::Place => counted::place(book, text).map(|got| got.map(Reply::Place)),
        Kind::Range => counted::range(book, text).map(|got| got.map(Reply::Range)),
        Kind::Nearest => counted::nearest(book, text).map(|got| got.map(Reply::Nearest)),
        Kind::Width => counted::width(book, text).map(|got| got.map(Reply::Width)),
    }
}

/// Asks questions, at most as many as a batch has rows: by one call, or one by one
/// where it is told how far each looked, since a batch does not tell it.
pub fn ask_all(book: &[u8], questions: &[Question], looked: bool) -> Result<Vec<Got>, Refusal> {
    if looked {
        let each = questions.iter();
        return Ok(each.map(|question| ask(book, question, true)).collect());
    }
    let replies = ask_batch(book, questions)?.into_iter();
    let got = |reply| Got {
        reply,
        looked: None,
    };
    Ok(replies.map(got).collect())
}

/// Asks questions by one call.
fn ask_batch(book: &[u8], questions: &[Question]) -> Result<Vec<Result<Reply, Refusal>>, Refusal> {
    let mut buffer = Vec::new();
    let mut batch: Batch = Batch::new();
    for question in questions {
        let start = buffer.len();
        buffer.extend_from_slice(&question.text);
        batch.push(question.kind, start..buffer.len())?;
    }
    Ok(batch.ask(book, &buffer)?.collect())
}

/// Whether a reply says yes. A place and a nearest name there always are.
pub fn status(reply: &Reply) -> Status {
    let is_no = match reply {
        Reply::Exact(found) => found.is_none(),
        Reply::Range(range) => range.is_empty(),
        Reply::Width(width) => *width == 0,
        Reply::Place(_) | Reply::Nearest(_) => false,
    };
    match is_no {
        true => Status::No,
        false => Status::Done,
    }
}

#[cfg(test)]
mod tests {
    use super::*;
    use crate::layout::tests::EXAMPLE;
    use mistrogu::Nearest;

    /// The reply of nearest.
    fn near(position: usize, lit: usize) -> Reply {
        Reply::Nearest(Nearest { position, lit })
    }

    /// The twelve rows of document 01, and some of document 02's kind.
    fn rows() -> Vec<(Question, Reply)> {
        let rows = [
            (Kind::Exact, "Marina", Reply::Exact(Some(1))),
            (Kind::Exact, "Marin", Reply::Exact(None)),
            (Kind::Place, "", Reply::Place(0)),
            (Kind::Place, "Mark", Reply::Place(2)),
            (Kind::Place, "Maxim", Reply::Place(3)),
            (Kind::Range, "Mar", Reply::Range(0..3)),
            (Kind::Range, "Mark", Reply::Range(2..3)),
            (Kind::Range, "Mas", Reply::Range(3..3)),
            (Kind::Nearest, "Mango", near(0, 2)),
            (Kind::Nearest, "Maxim", near(1, 2)),
            (Kind::Nearest, "Zoo", near(0, 0)),
            (Kind::Nearest, "M", near(0, 1)),
            (Kind::Width, "", Reply::Width(13)),
            (Kind::Width, "Mari", Reply::Width(6)),
            (Kind::Width, "Mas", Reply::Width(0)),
        ];
        let row = |(kind, text, reply): (Kind, &str, Reply)| {
            let text = text.as_bytes().to_vec();
            (Question { kind, text }, reply)
        };
        rows.map(row).to_vec()
    }

    #[test]
    fn each_row_of_the_documents_is_answered_alone() {
        for (question, reply) in rows() {
            let got = ask(EXAMPLE, &question, false);
            let expected = Got {
                reply: Ok(reply),
                looked: None,
            };
            assert_eq!(got, expected, "{question:?}");
        }
    }

    #[test]
    fn all_rows_of_the_documents_are_answered_in_a_batch_and_one_by_one() {
        let (questions, replies): (Vec<Question>, Vec<Reply>) = rows().into_iter().unzip();
        let expected: Vec<Result<Reply, Refusal>> = replies.into_iter().map(Ok).collect();
        for looked in [false, true] {
            let found = ask_all(EXAMPLE, &questions, looked).expect("so few rows are a batch");
            assert!(found.iter().all(|got| got.looked.is_some() == looked));
            let found: Vec<_> = found.into_iter().map(|got| got.reply).collect();
            assert_eq!(found, expected);
        }
    }

    #[test]
    fn a_long_question_is_refused_alone_and_in_a_batch() {
        let long = Question {
            kind: Kind::Place,
            text: vec![b'a'; 201],
        };
        let fine = Question {
            kind: Kind::Place,
            text: vec![b'a'; 200],
        };
        let refused = Err(Refusal::QuestionTooLong);
        assert_eq!(ask(EXAMPLE, &long, false).reply, refused);
        let found = ask_batch(EXAMPLE, &[long, fine]).expect("the batch goes on");
        assert_eq!(found, [refused, Ok(Reply::Place(3))]);
    }

    #[test]
    fn a_refused_question_looked_nowhere() {
        let long = Question {
            kind: Kind::Place,
            text: vec![b'a'; 201],
        };
        assert_eq!(ask(EXAMPLE, &long, true).looked, Some(NOWHERE));
        assert_eq!(ask(EXAMPLE, &long, false).looked, None);
    }
}
