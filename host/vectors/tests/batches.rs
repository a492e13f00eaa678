//! Batches are what their functions say.

use model::{book_batch, book_of, Answer, BookKind};
use std::collections::BTreeSet;
use vectors::batches::{any_batch, any_places, Batch};
use vectors::lists::{self, Names};
use vectors::random::Random;

#[test]
fn a_batch_of_questions_has_a_row_for_each() {
    let batch = Batch::of([(3, &b"Mar"[..]), (2, b""), (1, b"Marina")]);
    assert_eq!(batch.questions, b"MarMarina");
    assert_eq!(batch.rows, [[3, 0, 3], [2, 3, 0], [1, 3, 6]]);
}

#[test]
fn random_batches_bring_every_refusal_and_any_names_will_do() {
    for (names, expected) in [
        (lists::stops(), [0, 1, 11].to_vec()),
        (Names::new(), [0, 1, 10, 11].to_vec()),
    ] {
        let book = book_of(BookKind::Plain, 16, &names);
        let mut random = Random::from_seed(4);
        let (mut calls, mut codes) = (BTreeSet::new(), BTreeSet::new());
        let mut counts = BTreeSet::new();
        for _ in 0..500 {
            let batch = any_batch(&mut random, &names);
            let places = any_places(&mut random, batch.rows.len());
            let mut answers = vec![Answer::default(); places];
            let answer = book_batch(&book, &batch.questions, &batch.rows(), &mut answers);
            calls.insert(answer.code);
            codes.extend(answers[..answer.first].iter().map(|answer| answer.code));
            counts.extend([batch.rows.len(), places]);
        }
        assert_eq!(calls.into_iter().collect::<Vec<_>>(), [0, 12]);
        assert_eq!(codes.into_iter().collect::<Vec<_>>(), expected);
        assert_eq!(counts.first(), Some(&0));
        assert_eq!(counts.last(), Some(&65));
    }
}
