//! Lists that cost most, and those of which one parameter doubles, are lists.

use format::{LONGEST_BOOK, LONGEST_NAME, LONGEST_QUESTION, MOST_NAMES};
use model::names::{is_strictly_rising, leading_equal, shared_symbols};
use model::{book_check, book_of, BookKind, Rule};
use vectors::growth;
use vectors::random::Random;
use vectors::worst::{
    any, chains, dearest_check, dearest_folded_check, dearest_question, fitting_chains, spelt,
    turned, Comb, Worst,
};

/// Names rise and are long enough, a book can be made, the question can be asked.
fn assert_sound(worst: &Worst) {
    let what = &worst.what;
    let rule = worst.kind.rule();
    assert!(is_strictly_rising(rule, &worst.names), "{what}");
    let lengths = worst.names.iter().map(Vec::len);
    assert!(lengths.clone().min() > Some(0), "{what}");
    assert!(lengths.max() <= Some(LONGEST_NAME), "{what}");
    assert!(worst.question.len() <= LONGEST_QUESTION, "{what}");
    assert!(worst.names.len() <= MOST_NAMES, "{what}");
    assert!(worst.book().len() <= LONGEST_BOOK, "{what}");
}

/// As many of the first names fit as it says, and one more does not.
fn assert_fitting(worst: &Worst) {
    let (what, fitting) = (&worst.what, worst.fitting());
    let length = |count: usize| book_of(worst.kind, worst.block, &worst.names[..count]).len();
    assert!(length(fitting) <= LONGEST_BOOK, "{what}");
    if fitting < worst.names.len().min(MOST_NAMES) {
        assert!(length(fitting + 1) > LONGEST_BOOK, "{what}");
    }
}

#[test]
fn the_dearest_are_sound_and_as_large_as_they_say() {
    let (check, question) = (dearest_check(), dearest_question());
    let folded = dearest_folded_check();
    for (worst, names, bytes) in [
        (&check, 1003, 65_511),
        (&question, 2000, 36_148),
        (&folded, 551, 65_472),
    ] {
        assert_sound(worst);
        assert_eq!((worst.names.len(), worst.book().len()), (names, bytes));
    }
    // The name that the question comes to is the last of a block.
    let first = question.names.partition_point(|name| name.len() < 200);
    assert_eq!(first % question.block, question.block - 1);
}

#[test]
fn as_many_names_fit_as_a_book_has_space_for() {
    let comb = Comb {
        levels: 42,
        step: 1,
        leaves: 254,
        tail: 0,
        last: 254,
        block: 1,
        astray: false,
    };
    for (length, block) in [(4, 1), (10, 1), (11, 1), (64, 2), (200, 1), (200, 16)] {
        assert_fitting(&chains(2000, length, block));
        assert_sound(&fitting_chains(2000, length, block));
    }
    assert_eq!(fitting_chains(2000, 200, 1).names.len(), 542);
    assert_eq!(chains(2001, 4, 64).fitting(), MOST_NAMES);
    assert_fitting(&comb.worst());
    let fitting = comb.fitting().expect("such a comb");
    assert_eq!((fitting.leaves, fitting.last), (41, 7));
    assert_sound(&fitting.worst());
    let one_more = Comb { last: 8, ..fitting };
    assert!(one_more.worst().book().len() > LONGEST_BOOK);
    let other = Comb {
        leaves: 42,
        last: 2,
        ..fitting
    };
    assert!(other.worst().book().len() > LONGEST_BOOK);
}

#[test]
fn turned_names_share_letters_and_no_byte_from_their_place_on() {
    for place in [0, 1, 7] {
        let worst = turned(&spelt(2, 11, 64), place);
        assert_sound(&worst);
        assert_eq!(worst.kind, BookKind::Folded);
        let mut more = 0;
        for pair in worst.names.windows(2) {
            let bytes = leading_equal(&pair[0], &pair[1]);
            assert!(bytes <= place);
            let letters = shared_symbols(Rule::Folded, &pair[0], &pair[1]);
            more += usize::from(letters > bytes);
        }
        assert!(more > worst.names.len() / 9, "{place}: {more}");
    }
    for shape in [
        spelt(26, 3, 4),
        chains(2000, 16, 8),
        fitting_chains(2000, 200, 64),
    ] {
        let worst = turned(&shape, 0);
        assert_sound(&worst);
        assert_eq!(book_check(&worst.book()).code, 0, "{}", worst.what);
        assert_fitting(&turned(&shape, 2));
    }
}

#[test]
fn what_is_made_at_random_is_sound() {
    let mut random = Random::from_seed(1);
    for _ in 0..3 {
        assert_sound(&any(&mut random));
    }
    let comb = Comb {
        levels: 3,
        step: 4,
        leaves: 2,
        tail: 5,
        last: 3,
        block: 2,
        astray: true,
    };
    assert!(comb.can_be());
    let worst = comb.worst();
    assert_sound(&worst);
    assert_eq!(worst.names.len(), 3 * 2 + 3);
    // It goes astray at a byte that the way down does not look at.
    assert_eq!(worst.question[..4], [255, b'm' + 1, b'm', b'm']);
}

#[test]
fn one_parameter_doubles() {
    let all = growth::all();
    for grown in &all {
        assert_sound(&grown.list);
    }
    for pair in all.windows(2) {
        if pair[0].parameter == pair[1].parameter {
            let doubled = 2 * pair[0].value;
            assert!((doubled..=doubled + 1).contains(&pair[1].value));
        }
    }
    let count = |parameter| {
        let named = all.iter().filter(|grown| grown.parameter == parameter);
        named
            .map(|grown| grown.list.names.len())
            .collect::<Vec<usize>>()
    };
    assert_eq!(count("names"), [125, 250, 500, 1000, 2000]);
    assert_eq!(count("levels"), [200; 5]);
    assert_eq!(count("children in a row"), [256; 5]);
}
