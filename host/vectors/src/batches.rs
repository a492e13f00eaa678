//! Batches of questions: a buffer, and rows that point into it.

use crate::lists::Names;
use crate::questions::any_question;
use crate::random::Random;
use crate::sets::word;
use format::{LONGEST_QUESTION, MOST_ROWS};
use model::Row;

/// As many rows as a batch of ours has at most: one too many.
pub const ONE_TOO_MANY: usize = MOST_ROWS + 1;

/// A row: kind, start and length, any numbers of 64 bits.
pub type Numbers = [u64; 3];

/// A buffer and rows.
#[derive(Clone, Default)]
pub struct Batch {
    /// The buffer.
    pub questions: Vec<u8>,
    /// The rows. They need not be good ones.
    pub rows: Vec<Numbers>,
}

impl Batch {
    /// A batch of these questions, each with its kind.
    pub fn of<'asked>(asked: impl IntoIterator<Item = (u64, &'asked [u8])>) -> Batch {
        let mut batch = Batch::default();
        for (kind, question) in asked {
            batch.ask(kind, question);
        }
        batch
    }

    /// Puts a question behind the others in the buffer, and a row for it.
    pub fn ask(&mut self, kind: u64, question: &[u8]) {
        let start = self.questions.len() as u64;
        self.rows.push([kind, start, question.len() as u64]);
        self.questions.extend_from_slice(question);
    }

    /// The rows as the second program takes them.
    pub fn rows(&self) -> Vec<Row> {
        let rows = self.rows.iter();
        rows.map(|&[kind, start, length]| Row {
            kind: word(kind),
            start: word(start),
            length: word(length),
        })
        .collect()
    }
}

/// A batch of at most 65 questions near these names. Some rows are not for the
/// questions that were put into the buffer for them.
pub fn any_batch(random: &mut Random, names: &Names) -> Batch {
    let count = match random.below(12) {
        0 => 0,
        1 => 1,
        2 => MOST_ROWS,
        3 if random.once_in(4) => ONE_TOO_MANY,
        4 | 5 => random.between(0, MOST_ROWS),
        _ => random.between(2, 9),
    };
    let mut batch = Batch::default();
    for _ in 0..count {
        let question = any_question(random, names);
        batch.ask(any_kind(random), &question);
    }
    let buffer = batch.questions.len() as u64;
    for row in &mut batch.rows {
        if random.once_in(3) {
            let [start, length] = any_span(random, buffer);
            *row = [any_kind(random), start, length];
        }
    }
    batch
}

/// How many places for answers go with so many rows: mostly as many.
pub fn any_places(random: &mut Random, rows: usize) -> usize {
    match random.below(24) {
        0 => random.between(0, ONE_TOO_MANY),
        1 => rows.saturating_sub(1),
        2 => (rows + 1).min(ONE_TOO_MANY),
        _ => rows,
    }
}

/// A kind: mostly 1 to 5.
fn any_kind(random: &mut Random) -> u64 {
    match random.below(40) {
        0 => *random.one_of(&[0, 6, 7, 256 + 1, (1 << 32) + 1, u64::MAX]),
        1 => random.any(),
        _ => random.between(1, 5) as u64,
    }
}

/// Start and length of a span that is mostly inside a buffer of this length:
/// often it ends with the buffer, or one byte past it.
fn any_span(random: &mut Random, buffer: u64) -> [u64; 2] {
    let longest = LONGEST_QUESTION as u64 + 1;
    let start = random.below(buffer as usize + 1) as u64;
    let left = buffer - start;
    match random.below(16) {
        0 => [start, left],
        1 => [start, left + 1],
        2 => [buffer, 0],
        3 => [buffer + 1, 0],
        4 => [start, u64::MAX - random.below(300) as u64],
        5 => [u64::MAX - random.below(300) as u64, start],
        6 => [random.any(), random.any()],
        7 => {
            let length = longest.min(buffer);
            [buffer - length, length]
        }
        _ => [start, random.below(left.min(longest) as usize + 1) as u64],
    }
}
