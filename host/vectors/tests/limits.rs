//! The cases are made at the shared limits and answered by the second program,
//! which has its own: they have to be the same.

use model::{announcer, calls, layout, names};

#[test]
fn the_second_program_has_the_same_limits() {
    for (shared, own) in [
        (format::LONGEST_NAME, names::LONGEST_NAME),
        (format::LONGEST_QUESTION, calls::LONGEST_QUESTION),
        (format::MOST_NAMES, names::MOST_NAMES),
        (format::LARGEST_BLOCK, layout::LARGEST_BLOCK),
        (format::LONGEST_BOOK, layout::LONGEST_BOOK),
        (format::MOST_ROWS, calls::MOST_ROWS),
        (format::MOST_STOPS, announcer::MOST_POSITIONS),
        (format::NODE, layout::NODE_LENGTH),
        (format::TRAILER, layout::TRAILER_LENGTH),
    ] {
        assert_eq!(shared, own);
    }
}

#[test]
fn the_second_program_has_the_same_kinds_of_book() {
    let shared = format::BookKind::ALL.map(|kind| (format!("{kind:?}"), kind.mark()));
    let own = model::BookKind::ALL.map(|kind| (format!("{kind:?}"), kind.mark()));
    assert_eq!(shared, own);
    for (shared, own) in format::BookKind::ALL.iter().zip(model::BookKind::ALL) {
        for byte in 0..=255u8 {
            let symbol = usize::from(shared.compared(byte)) + 1;
            assert_eq!(symbol, own.rule().symbol(byte), "{own:?} {byte}");
        }
    }
}

#[test]
fn the_second_program_has_the_same_kinds_of_question() {
    for number in 0..=7 {
        let shared = format::Kind::from_number(number).map(|kind| format!("{kind:?}"));
        let own = model::questions::Kind::of_number(number).map(|kind| format!("{kind:?}"));
        assert_eq!(shared, own);
    }
}
