//! Many questions to one book in one call.

use core::iter::FusedIterator;
use core::ops::Range;

use proved::{Answer, Row};

use crate::{accepted, found, near, span, Kind, Nearest, Refusal, MOST_ROWS};

/// What a question was answered, by its kind.
#[derive(Clone, Debug, PartialEq, Eq, Hash)]
pub enum Reply {
    /// The position of the name that equals the question, if there is one.
    Exact(Option<usize>),
    /// How many names are less.
    Place(usize),
    /// The positions of the names that begin with it.
    Range(Range<usize>),
    /// A name that shares most with it, and how much of it to light.
    Nearest(Nearest),
    /// The length of the longest name that begins with it, 0 where none does.
    Width(usize),
}

impl Reply {
    /// The kind of question that it is a reply to.
    pub fn kind(&self) -> Kind {
        match self {
            Reply::Exact(_) => Kind::Exact,
            Reply::Place(_) => Kind::Place,
            Reply::Range(_) => Kind::Range,
            Reply::Nearest(_) => Kind::Nearest,
            Reply::Width(_) => Kind::Width,
        }
    }

    /// What the two numbers say to a question of this kind.
    fn of(kind: Kind, numbers: (usize, usize)) -> Self {
        match kind {
            Kind::Exact => Reply::Exact(found(numbers)),
            Kind::Place => Reply::Place(numbers.0),
            Kind::Range => Reply::Range(span(numbers)),
            Kind::Nearest => Reply::Nearest(near(numbers)),
            Kind::Width => Reply::Width(numbers.0),
        }
    }
}

/// A row that asks nothing, in a place that no question has.
const NO_ROW: Row = Row {
    kind: 0,
    start: 0,
    length: 0,
};

/// An answer that no call has written.
const NO_ANSWER: Answer = Answer {
    code: 0,
    first: 0,
    second: 0,
};

/// Questions to be asked of one book in one call, which checks it once: `PLACES` of
/// them at most, and never more than 64.
///
/// A question is a kind and a span of a buffer that they all share. What it gets is
/// read by the kind that it was asked with, and can't be read by another. How far it
/// looked a batch does not tell: [`counted`](crate::counted) does. A batch has 48 bytes
/// for each place, and 8 more.
///
/// ```
/// use mistrogu::{build, Batch, Kind, Nearest, Refusal, Reply};
///
/// let mut room = [0; 100];
/// let length = build(b"\x03Mar\x06Marina\x0DMarket Square", 2, &mut room)?;
/// let book = &room[..length];
///
/// // One buffer can serve several questions: here each is a beginning of the next.
/// let questions = b"Marina";
/// let mut batch = Batch::<6>::new();
/// batch.push(Kind::Nearest, 0..1)?;
/// batch.push(Kind::Range, 0..3)?;
/// batch.push(Kind::Exact, 0..5)?;
/// batch.push(Kind::Exact, 0..6)?;
/// batch.push(Kind::Width, 0..6)?;
/// batch.push(Kind::Place, 0..7)?;
///
/// let mut replies = batch.ask(book, questions)?;
/// let nearest = Nearest { position: 0, lit: 1 };
/// assert_eq!(replies.next(), Some(Ok(Reply::Nearest(nearest))));
/// assert_eq!(replies.next(), Some(Ok(Reply::Range(0..3))));
/// assert_eq!(replies.next(), Some(Ok(Reply::Exact(None))));
/// assert_eq!(replies.next(), Some(Ok(Reply::Exact(Some(1)))));
/// assert_eq!(replies.next(), Some(Ok(Reply::Width(6))));
/// assert_eq!(replies.next(), Some(Err(Refusal::BadRow)));
/// assert_eq!(replies.next(), None);
/// # Ok::<(), mistrogu::Refusal>(())
/// ```
///
/// The rows that the library is lent are not to be had, so none can be changed or
/// read by itself:
///
/// ```compile_fail,E0432
/// use mistrogu::Row;
/// ```
///
/// ```compile_fail,E0432
/// use mistrogu::Answer;
/// ```
#[derive(Clone, Debug)]
pub struct Batch<const PLACES: usize = MOST_ROWS> {
    rows: [Row; PLACES],
    answers: [Answer; PLACES],
    /// How many places have a question.
    length: usize,
}

impl<const PLACES: usize> Batch<PLACES> {
    /// A batch without questions.
    pub const fn new() -> Self {
        Batch {
            rows: [NO_ROW; PLACES],
            answers: [NO_ANSWER; PLACES],
            length: 0,
        }
    }

    /// Puts a question behind the others: its kind, and the span of the buffer that
    /// it is. A span that ends before it starts has no bytes.
    ///
    /// Refused with [`BadBatch`](Refusal::BadBatch) where no place is left; the batch
    /// is then as it was.
    pub fn push(&mut self, kind: Kind, span: Range<usize>) -> Result<(), Refusal> {
        let row = self.rows.get_mut(self.length).ok_or(Refusal::BadBatch)?;
        *row = Row {
            kind: kind.number(),
            start: span.start,
            length: span.len(),
        };
        self.length += 1;
        Ok(())
    }

    /// Takes all questions out.
    pub fn clear(&mut self) {
        self.length = 0;
    }

    /// How many questions there are.
    pub fn len(&self) -> usize {
        self.length
    }

    /// Whether there are none.
    pub fn is_empty(&self) -> bool {
        self.length == 0
    }

    /// Asks all questions of this book; they are spans of `questions`. Gives what
    /// each got, in their order: what it alone would get, whatever the others are.
    ///
    /// A question can be refused for itself, in this order:
    /// [`BadRow`](Refusal::BadRow) where its span ends past the buffer,
    /// [`QuestionTooLong`](Refusal::QuestionTooLong), [`NoNames`](Refusal::NoNames);
    /// the others are answered all the same.
    ///
    /// The call is refused, in this order, with [`BadBatch`](Refusal::BadBatch) where
    /// there are over 64 questions, or [`NoBook`](Refusal::NoBook).
    pub fn ask(&mut self, book: &[u8], questions: &[u8]) -> Result<Replies<'_>, Refusal> {
        let rows = &self.rows[..self.length];
        let answers = &mut self.answers[..self.length];
        accepted(proved::book_batch(book, questions, rows, answers))?;
        Ok(Replies { rows, answers })
    }
}

impl<const PLACES: usize> Default for Batch<PLACES> {
    fn default() -> Self {
        Self::new()
    }
}

/// What the questions of a [`Batch`] got, in their order, each read by the kind that
/// it was asked with.
#[derive(Clone, Debug)]
pub struct Replies<'batch> {
    /// The questions that are left, and as many answers.
    rows: &'batch [Row],
    answers: &'batch [Answer],
}

impl Iterator for Replies<'_> {
    type Item = Result<Reply, Refusal>;

    fn next(&mut self) -> Option<Self::Item> {
        let (row, rows) = self.rows.split_first()?;
        let (answer, answers) = self.answers.split_first()?;
        (self.rows, self.answers) = (rows, answers);
        let kind = Kind::from_number(row.kind).expect("a question is pushed with its kind");
        Some(accepted(*answer).map(|numbers| Reply::of(kind, numbers)))
    }

    fn size_hint(&self) -> (usize, Option<usize>) {
        (self.rows.len(), Some(self.rows.len()))
    }
}

impl ExactSizeIterator for Replies<'_> {}

impl FusedIterator for Replies<'_> {}
