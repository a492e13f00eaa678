//! Document 01, "Questions", the paragraph on batches, with refusals 11 and 12,
//! and with document 02's kind 5.

mod common;

use common::answers::{book_exact, book_nearest, book_place, book_range, book_width};
use common::{mar_names, no, yes, Random, BOOK_BY_2, BOOK_BY_4, EMPTY_BOOK, UNSET};
use model::{book_batch, book_read, Answer, Row};

fn row(kind: usize, start: usize, length: usize) -> Row {
    Row {
        kind,
        start,
        length,
    }
}

/// The answer rows of a batch that is accepted.
fn batch(book: &[u8], questions: &[u8], rows: &[Row]) -> Vec<Answer> {
    let mut answers = vec![UNSET; rows.len()];
    let answer = book_batch(book, questions, rows, &mut answers);
    assert_eq!(answer, yes(rows.len(), 0));
    answers
}

/// Asserts that a whole batch is refused and no answer row is changed.
fn assert_batch_refused(
    book: &[u8],
    questions: &[u8],
    rows: &[Row],
    answer_rows: usize,
    code: usize,
) {
    let mut answers = vec![UNSET; answer_rows];
    assert_eq!(book_batch(book, questions, rows, &mut answers), no(code));
    assert_eq!(answers, vec![UNSET; answer_rows]);
}

/// What the question of a good row gets when asked alone.
fn alone(book: &[u8], questions: &[u8], row: Row) -> Answer {
    let question = &questions[row.start..row.start + row.length];
    match row.kind {
        1 => book_exact(book, question),
        2 => book_place(book, question),
        3 => book_range(book, question),
        4 => book_nearest(book, question),
        5 => book_width(book, question),
        _ => panic!("a good row has a kind from 1 to 5"),
    }
}

// Accepted rows

#[test]
fn the_twelve_checked_rows_in_one_batch() {
    let questions = b"MarinaMarkMaximMangoMasZoo";
    #[rustfmt::skip]
    let checked = [
        (row(1, 0, 6),  yes(1, 1)), // Exact Marina
        (row(1, 0, 5),  yes(0, 0)), // Exact Marin
        (row(2, 0, 0),  yes(0, 0)), // Place, empty question
        (row(2, 6, 4),  yes(2, 0)), // Place Mark
        (row(2, 10, 5), yes(3, 0)), // Place Maxim
        (row(3, 0, 3),  yes(0, 3)), // Range Mar
        (row(3, 6, 4),  yes(2, 1)), // Range Mark
        (row(3, 20, 3), yes(3, 0)), // Range Mas
        (row(4, 15, 5), yes(0, 2)), // Nearest Mango
        (row(4, 10, 5), yes(1, 2)), // Nearest Maxim
        (row(4, 23, 3), yes(0, 0)), // Nearest Zoo
        (row(4, 0, 1),  yes(0, 1)), // Nearest M
    ];
    let rows = checked.map(|(row, _)| row);
    let expected = checked.map(|(_, answer)| answer);
    assert_eq!(batch(&BOOK_BY_2, questions, &rows), expected);
}

#[test]
fn kind_5_is_width() {
    let rows = [row(5, 0, 0), row(5, 0, 3), row(5, 0, 6), row(5, 6, 3)];
    let expected = [yes(13, 0), yes(13, 0), yes(6, 0), yes(0, 0)];
    assert_eq!(batch(&BOOK_BY_2, b"MarinaMas", &rows), expected);
}

#[test]
fn a_batch_gives_its_number_of_rows() {
    for count in 0..=64 {
        let rows = vec![row(1, 0, 3); count];
        assert_eq!(batch(&BOOK_BY_2, b"Mar", &rows), vec![yes(0, 1); count]);
    }
}

#[test]
fn a_batch_of_no_rows_is_accepted_with_zeros() {
    assert_eq!(book_batch(&BOOK_BY_2, b"", &[], &mut []), yes(0, 0));
    assert_eq!(book_batch(&EMPTY_BOOK, b"Mar", &[], &mut []), yes(0, 0));
}

#[test]
fn every_row_gets_what_its_question_alone_would_get() {
    let questions = b"Market Square Marina Mar";
    let mut rows = Vec::new();
    for start in 0..=questions.len() {
        for length in 0..=questions.len() - start {
            rows.extend((1..=5).map(|kind| row(kind, start, length)));
        }
    }
    for some in rows.chunks(64) {
        let expected: Vec<Answer> = some
            .iter()
            .map(|&row| alone(&BOOK_BY_4, questions, row))
            .collect();
        assert_eq!(batch(&BOOK_BY_4, questions, some), expected);
    }
}

#[test]
fn spans_may_overlap_and_repeat() {
    let rows = [row(1, 0, 6), row(1, 0, 3), row(1, 0, 6), row(3, 1, 0)];
    let expected = [yes(1, 1), yes(0, 1), yes(1, 1), yes(0, 3)];
    assert_eq!(batch(&BOOK_BY_2, b"Marina", &rows), expected);
}

#[test]
fn no_row_depends_on_another_row() {
    let mut random = Random::from_seed(64);
    let questions = b"MarinaMarketSquare";
    for _ in 0..200 {
        let rows: Vec<Row> = (0..12)
            .map(|_| row(random.below(7), random.below(20), random.below(8)))
            .collect();
        let together = batch(&BOOK_BY_2, questions, &rows);
        for (row, answer) in rows.iter().zip(&together) {
            assert_eq!(batch(&BOOK_BY_2, questions, &[*row]), [*answer], "{row:?}");
        }
        let turned: Vec<Row> = rows.iter().rev().copied().collect();
        let mut answers = batch(&BOOK_BY_2, questions, &turned);
        answers.reverse();
        assert_eq!(answers, together);
    }
}

#[test]
fn no_row_depends_on_question_bytes_outside_its_span() {
    let asked = row(1, 3, 6);
    let mut random = Random::from_seed(11);
    for _ in 0..200 {
        let mut questions: Vec<u8> = (0..20).map(|_| random.byte()).collect();
        questions[3..9].copy_from_slice(b"Marina");
        assert_eq!(batch(&BOOK_BY_2, &questions, &[asked]), [yes(1, 1)]);
    }
}

#[test]
fn of_the_rest_of_the_buffer_only_its_length_counts() {
    let asked = row(1, 0, 6);
    assert_eq!(batch(&BOOK_BY_2, b"Marina", &[asked]), [yes(1, 1)]);
    assert_eq!(batch(&BOOK_BY_2, b"Marina and more", &[asked]), [yes(1, 1)]);
    assert_eq!(batch(&BOOK_BY_2, b"Marin", &[asked]), [no(11)]);
}

#[test]
fn the_book_of_a_batch_may_be_the_buffer_of_its_questions() {
    // Names stand uncut in the entries at offsets 2 and 12.
    let rows = [row(1, 2, 3), row(1, 12, 13)];
    assert_eq!(batch(&BOOK_BY_2, &BOOK_BY_2, &rows), [yes(0, 1), yes(2, 1)]);
}

// Refused rows: 11, 1, 10

#[test]
fn refusal_11_for_a_kind_that_is_not_1_to_5() {
    for kind in [0, 6, 7, 255, 256, 257, 261, usize::MAX] {
        assert_eq!(batch(&BOOK_BY_2, b"Mar", &[row(kind, 0, 3)]), [no(11)]);
    }
}

#[test]
fn refusal_11_for_start_plus_length_past_the_buffer() {
    let rows = [
        row(1, 0, 4),
        row(1, 1, 3),
        row(1, 3, 1),
        row(1, 4, 0),
        row(1, 100, 0),
        row(1, 0, usize::MAX),
        row(1, usize::MAX, 0),
    ];
    assert_eq!(batch(&BOOK_BY_2, b"Mar", &rows), [no(11); 7]);
}

#[test]
fn refusal_11_for_a_sum_past_the_machine_s_word() {
    // With the overflow lost, the first four would come out as 0, 1, 3 and 2.
    let rows = [
        row(3, usize::MAX, 1),
        row(3, usize::MAX, 2),
        row(3, 4, usize::MAX),
        row(3, usize::MAX - 2, 5),
        row(3, usize::MAX, usize::MAX),
    ];
    assert_eq!(batch(&BOOK_BY_2, b"Mar", &rows), [no(11); 5]);
}

#[test]
fn the_end_of_the_buffer_with_length_0_is_inside() {
    assert_eq!(batch(&BOOK_BY_2, b"Mar", &[row(3, 3, 0)]), [yes(0, 3)]);
    assert_eq!(batch(&BOOK_BY_2, b"", &[row(3, 0, 0)]), [yes(0, 3)]);
    assert_eq!(batch(&BOOK_BY_2, b"", &[row(3, 1, 0)]), [no(11)]);
}

#[test]
fn refusal_1_for_a_row_of_201_bytes_that_fits_the_buffer() {
    let questions = [b'M'; 250];
    for kind in 1..=5 {
        assert_eq!(
            batch(&BOOK_BY_2, &questions, &[row(kind, 49, 201)]),
            [no(1)]
        );
    }
    let rows = [
        row(1, 50, 200),
        row(2, 50, 200),
        row(3, 50, 200),
        row(4, 50, 200),
        row(5, 50, 200),
    ];
    let expected = [yes(0, 0), yes(0, 0), yes(0, 0), yes(0, 1), yes(0, 0)];
    assert_eq!(batch(&BOOK_BY_2, &questions, &rows), expected);
}

#[test]
fn a_buffer_may_be_far_longer_than_a_question() {
    let mut questions = vec![0; 100_000];
    questions[99_997..].copy_from_slice(b"Mar");
    assert_eq!(
        batch(&BOOK_BY_2, &questions, &[row(1, 99_997, 3)]),
        [yes(0, 1)]
    );
}

#[test]
fn refusal_10_for_nearest_of_a_book_without_names() {
    let rows = [1, 2, 3, 4, 5].map(|kind| row(kind, 0, 3));
    let expected = [yes(0, 0), yes(0, 0), yes(0, 0), no(10), yes(0, 0)];
    assert_eq!(batch(&EMPTY_BOOK, b"Mar", &rows), expected);
}

#[test]
fn in_one_row_11_comes_before_1() {
    let questions = [b'M'; 300];
    // bad kind and 201 bytes; past the buffer and 201 bytes
    let rows = [row(0, 0, 201), row(6, 0, 201), row(1, 100, 201)];
    assert_eq!(batch(&BOOK_BY_2, &questions, &rows), [no(11); 3]);
}

#[test]
fn in_one_row_11_and_1_come_before_10() {
    let questions = [b'M'; 300];
    let rows = [row(4, 299, 2), row(4, 0, 201), row(4, 0, 200)];
    assert_eq!(
        batch(&EMPTY_BOOK, &questions, &rows),
        [no(11), no(1), no(10)]
    );
}

#[test]
fn a_refused_row_does_not_end_the_batch() {
    let rows = [row(1, 0, 3), row(9, 0, 3), row(1, 9, 9), row(3, 0, 3)];
    let expected = [yes(0, 1), no(11), no(11), yes(0, 3)];
    assert_eq!(batch(&BOOK_BY_2, b"Mar", &rows), expected);
}

// Refused batches: 12, 2

#[test]
fn refusal_12_for_65_rows() {
    assert_batch_refused(&BOOK_BY_2, b"Mar", &[row(1, 0, 3); 65], 65, 12);
    assert_batch_refused(&BOOK_BY_2, b"Mar", &[row(1, 0, 3); 1000], 1000, 12);
}

#[test]
fn refusal_12_for_unequal_numbers_of_rows() {
    for (questions, answers) in [(0, 1), (1, 0), (3, 4), (4, 3), (64, 65), (65, 64), (0, 64)] {
        let rows = vec![row(1, 0, 3); questions];
        assert_batch_refused(&BOOK_BY_2, b"Mar", &rows, answers, 12);
    }
}

#[test]
fn refusal_2_for_a_batch_to_bytes_that_are_no_book() {
    assert_batch_refused(b"", b"Mar", &[row(1, 0, 3)], 1, 2);
    assert_batch_refused(&BOOK_BY_2[1..], b"Mar", &[row(1, 0, 3); 64], 64, 2);
    assert_batch_refused(&BOOK_BY_2[1..], b"", &[], 0, 2);
}

#[test]
fn refusal_12_comes_before_2() {
    assert_batch_refused(b"", b"Mar", &[row(1, 0, 3); 65], 65, 12);
    assert_batch_refused(b"", b"Mar", &[row(1, 0, 3)], 2, 12);
}

#[test]
fn refusals_12_and_2_come_before_those_of_a_row() {
    assert_batch_refused(b"", b"Mar", &[row(0, 9, 9)], 1, 2);
    assert_batch_refused(&BOOK_BY_2, b"Mar", &[row(0, 9, 9)], 0, 12);
}

#[test]
fn a_batch_and_reading_back_agree_on_positions() {
    for (position, name) in mar_names().iter().enumerate() {
        let answers = batch(&BOOK_BY_2, name, &[row(1, 0, name.len())]);
        let mut room = [0; 13];
        book_read(&BOOK_BY_2, answers[0].first, &mut room);
        assert_eq!(answers[0].first, position);
        assert_eq!(&room[..name.len()], name.as_slice());
    }
}
