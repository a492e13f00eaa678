//! Random calls of `book_batch`.

use crate::agreeing::same_answer;
use crate::books::any_book;
use crate::lent::{hex, lend, Lent};
use fenced::on_stack;
use mistrogu::STACK;
use vectors::batches::{any_batch, any_places};
use vectors::random::Random;
use vectors::spelling::respelt;

/// How many answer rows are watched beside those lent.
const WATCHED: usize = 2;

/// Makes one call of both programs: the code they agree on, or the whole case.
pub fn run(random: &mut Random) -> Result<usize, String> {
    let (book, names) = any_book(random);
    let mut batch = any_batch(random, &names);
    batch.questions = respelt(random, &batch.questions);
    if random.once_in(100) {
        // A buffer of which the low 16 bits of the length alone would be less.
        let length = batch.questions.len() + random.between(65_530, 65_750);
        batch.questions.resize(length, b'a');
    }
    let questions = lend(random, &batch.questions);
    let rows = batch.rows();
    let places = any_places(random, rows.len());
    let lent = Lent::any(random, places, WATCHED, any_answer);

    let (mut expected, mut found) = (lent.clone(), lent.clone());
    let expected_answer = ask_model(&book, &questions, &rows, expected.room());
    let proved_rows: Vec<proved::Row> = rows.iter().copied().map(proved_row).collect();
    let proved_rows = lend(random, &proved_rows);
    let room = found.room();
    let found_answer = on_stack(STACK, || {
        proved::book_batch(&book, &questions, &proved_rows, room)
    });
    if same_answer(expected_answer, found_answer) && expected == found {
        return Ok(expected_answer.code);
    }
    let differs = expected.first_difference(&found);
    let shown = |answers: &Lent<proved::Answer>| answers.shown(|rows| format!("{rows:?}"));
    Err([
        format!("rows {rows:?}"),
        format!("places {places}, {WATCHED} watched beside them"),
        format!("questions {}", hex(&questions)),
        format!("book {}", hex(&book)),
        format!("expected {expected_answer:?}"),
        format!("found    {found_answer:?}"),
        format!("answer rows differ at {differs:?}"),
        format!("answer rows before   {}", shown(&lent)),
        format!("answer rows expected {}", shown(&expected)),
        format!("answer rows found    {}", shown(&found)),
    ]
    .join("\n"))
}

/// The second program's batch, with answer rows as the proved library has them.
fn ask_model(
    book: &[u8],
    questions: &[u8],
    rows: &[model::Row],
    answers: &mut [proved::Answer],
) -> model::Answer {
    let mut own: Vec<model::Answer> = answers.iter().copied().map(model_answer).collect();
    let answer = model::book_batch(book, questions, rows, &mut own);
    for (answer, own) in answers.iter_mut().zip(own) {
        *answer = proved_answer(own);
    }
    answer
}

/// An answer with any numbers in it.
fn any_answer(random: &mut Random) -> proved::Answer {
    proved::Answer {
        code: random.any() as usize,
        first: random.any() as usize,
        second: random.any() as usize,
    }
}

/// The same answer as the second program has it.
fn model_answer(answer: proved::Answer) -> model::Answer {
    model::Answer {
        code: answer.code,
        first: answer.first,
        second: answer.second,
    }
}

/// The same answer as the proved library has it.
fn proved_answer(answer: model::Answer) -> proved::Answer {
    proved::Answer {
        code: answer.code,
        first: answer.first,
        second: answer.second,
    }
}

/// The same row as the proved library has it.
fn proved_row(row: model::Row) -> proved::Row {
    proved::Row {
        kind: row.kind,
        start: row.start,
        length: row.length,
    }
}
