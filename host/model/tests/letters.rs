//! Document 02, change request 3: nearest's number says how much of a question to
//! light, and no half letter is lit. Sentence by sentence, then all short
//! questions.

mod common;

use common::answers::book_nearest;
use common::{all_strings, built, names, shared, whole_letters, yes, UNSET};
use model::questions::{lit, node_reached};
use model::tree::tree;
use model::{book_batch, Answer, Row, Rule};

/// A letter, the two bytes of é, the two of an accent that stands behind its
/// letter, and what is around 128 and 191: 127, 191 itself and 192.
const BYTES: [u8; 8] = [0x61, 0xC3, 0xA9, 0xCC, 0x81, 0x7F, 0xBF, 0xC0];

/// Nearest's number in a book of this one name.
fn number(name: &[u8], question: &[u8]) -> usize {
    let answer = book_nearest(&built(&[name.to_vec()], 1), question);
    assert_eq!((answer.code, answer.first), (0, 0), "{name:?} {question:?}");
    answer.second
}

/// What nearest gave before: the first name of the node that the question leads
/// to, and how many bytes the two share.
fn old_nearest(names: &[Vec<u8>], question: &[u8]) -> (usize, usize) {
    let root = tree(Rule::Plain, names).expect("there are names");
    let position = node_reached(Rule::Plain, &root, question).first;
    (position, shared(&names[position], question))
}

/// A row of a batch that asks for the nearest.
fn row(start: usize, length: usize) -> Row {
    Row {
        kind: 4,
        start,
        length,
    }
}

/// Whether a number up to the question's length may be lit, in the request's
/// own words.
fn may_be_lit(question: &[u8], number: usize) -> bool {
    number == 0 || number == question.len() || !matches!(question[number], 128..=191)
}

/// Does something with every question of up to five of the eight bytes, and
/// every number of shared bytes.
fn for_all_short_questions(act: impl Fn(&[u8], usize)) {
    let questions = all_strings(&BYTES, 5);
    assert_eq!(questions.len(), 1 + 8 + 64 + 512 + 4096 + 32_768);
    for question in questions {
        for shared in 0..=question.len() {
            act(&question, shared);
        }
    }
}

// "Nearest's number drives the highlight, and in names with accents it stops
// inside a character. Document 01 is wrong to count raw shared bytes."

#[test]
fn the_number_does_not_stop_inside_a_character() {
    // Of a character the first bytes are shared, and the last one is not.
    for (name, question, raw, expected) in [
        ("Café", "Cafè", 4, 3),
        ("Müller", "Möller", 2, 1),
        ("Cañada", "Caída", 3, 2),
        ("Αθήνα", "Αίγιο", 3, 2),
        ("Минск", "Москва", 3, 2),
        ("駅前", "駆け", 2, 0),
        ("G𝄞", "G𝄟", 4, 1),
    ] {
        let (name, question) = (name.as_bytes(), question.as_bytes());
        assert_eq!(shared(name, question), raw);
        assert_eq!(number(name, question), expected, "{question:?}");
    }
}

#[test]
fn the_number_is_that_of_the_shared_bytes_where_they_end_before_or_behind_a_character() {
    for (name, question, expected) in [
        ("Café", "Cafe", 3),
        ("Café", "Caf駅", 3),
        ("Café", "Cafés", 5),
        ("Café du Marché", "Cafés", 5),
        ("Müller", "Muller", 1),
        ("Cañada", "Caña", 5),
        ("Αθήνα", "Αρκαδία", 2),
        ("Москва", "Мост", 6),
        ("G𝄞", "G𝄞s", 5),
    ] {
        let (name, question) = (name.as_bytes(), question.as_bytes());
        assert_eq!(shared(name, question), expected);
        assert_eq!(number(name, question), expected, "{question:?}");
    }
}

#[test]
fn an_accent_behind_its_letter_is_a_character_of_its_own() {
    // e and U+0301, e and U+0300: the accents share their first byte.
    assert_eq!(
        number("Cafe\u{301}".as_bytes(), "Cafe\u{300}".as_bytes()),
        4
    );
    assert_eq!(
        number("Cafe\u{301}".as_bytes(), "Cafe\u{301}s".as_bytes()),
        6
    );
    // é in one piece is no e.
    assert_eq!(number("Cafe\u{301}".as_bytes(), "Café".as_bytes()), 3);
    assert_eq!(number("Café".as_bytes(), "Cafe\u{301}".as_bytes()), 3);
}

#[test]
fn text_is_lit_up_to_the_last_whole_character_that_is_shared() {
    let letters = ['a', 'é', 'è', '\u{301}', '駅', '駆', '𝄞', '𝄟'];
    let numbers: Vec<u8> = (0..letters.len() as u8).collect();
    let texts = |longest| {
        let strings = all_strings(&numbers, longest).into_iter();
        strings.map(|string| {
            let letters = string.iter().map(|&number| letters[usize::from(number)]);
            letters.collect::<String>()
        })
    };
    let names: Vec<String> = texts(2).collect();
    for question in texts(3) {
        for name in &names {
            let shared = shared(name.as_bytes(), question.as_bytes());
            let mut boundaries = (0..=shared).rev();
            let expected = boundaries.find(|&at| question.is_char_boundary(at));
            assert_eq!(
                Some(lit(question.as_bytes(), shared)),
                expected,
                "{question}"
            );
        }
    }
}

// "The number becomes the greatest L, not above the shared bytes, that is 0, or
// the question's length, or a place where the question's byte is not 128 to 191."

#[test]
fn the_number_is_never_above_the_shared_bytes() {
    for_all_short_questions(|question, shared| {
        assert!(lit(question, shared) <= shared, "{question:?} {shared}");
    });
}

#[test]
fn the_number_is_0_or_the_length_or_a_place_where_the_byte_is_not_128_to_191() {
    for_all_short_questions(|question, shared| {
        let number = lit(question, shared);
        assert!(may_be_lit(question, number), "{question:?} {shared}");
    });
}

#[test]
fn no_greater_number_would_do() {
    for_all_short_questions(|question, shared| {
        let mut greater = lit(question, shared) + 1..=shared;
        let none = !greater.any(|number| may_be_lit(question, number));
        assert!(none, "{question:?} {shared}");
    });
}

#[test]
fn the_number_is_that_of_all_letters_that_are_shared_whole() {
    for_all_short_questions(|question, shared| {
        let expected = whole_letters(question, shared);
        assert_eq!(lit(question, shared), expected, "{question:?} {shared}");
    });
}

#[test]
fn the_number_is_0_where_no_greater_one_fits() {
    // The first character is shared in part, or its first byte is missing.
    assert_eq!(number("Évry".as_bytes(), "Èze".as_bytes()), 0);
    assert_eq!(number(b"\x80\x80", b"\x80\x81"), 0);
    assert_eq!(number(b"\xBF\xBF\xBF", b"\xBF\xBF\x80"), 0);
    assert_eq!(number(b"Zoo", "Èze".as_bytes()), 0);
}

#[test]
fn a_place_fits_for_every_byte_but_128_to_191() {
    for byte in 0..=255u8 {
        // Another byte stands there in the name.
        let name = [b'a', byte ^ 1];
        let expected = match byte {
            128..=191 => 0,
            _ => 1,
        };
        assert_eq!(number(&name, &[b'a', byte]), expected, "{byte}");
    }
}

#[test]
fn bytes_127_and_192_are_not_stepped_over_and_128_and_191_are() {
    for (byte, expected) in [(127, 3), (128, 2), (191, 2), (192, 3)] {
        assert_eq!(number(b"ab\xC3", &[b'a', b'b', 0xC3, byte]), expected);
    }
}

#[test]
fn a_run_of_stray_bytes_is_stepped_over_to_its_start() {
    let question = b"ab\x80\xBF\x81\x80\xA9c";
    let expected = [0, 1, 1, 1, 1, 1, 1, 7, 8];
    for (raw, expected) in expected.into_iter().enumerate() {
        // The name goes on with a byte that the question has nowhere.
        let name = [&question[..raw], b"~"].concat();
        assert_eq!(shared(&name, question), raw);
        assert_eq!(number(&name, question), expected, "{raw}");
    }
}

#[test]
fn the_longest_question_steps_back_from_its_last_byte_to_its_first() {
    let mut question = vec![0x80; 200];
    question[0] = b'a';
    let mut name = question.clone();
    name[199] = 0x81;
    assert_eq!(shared(&name, &question), 199);
    assert_eq!(number(&name, &question), 0);
    assert_eq!(number(&question, &question), 200);
}

// "It is taken from the question alone."

#[test]
fn what_the_name_goes_on_with_does_not_count() {
    for byte in 0..=255u8 {
        if byte != b'x' {
            assert_eq!(number(&[b'a', b'b', byte], b"abx"), 2, "{byte}");
        }
        if byte != 0xA9 {
            assert_eq!(number(&[b'a', 0xC3, byte], "aé".as_bytes()), 1, "{byte}");
        }
    }
    assert_eq!(number(b"ab", b"abx"), 2);
    assert_eq!(number(b"a\xC3", "aé".as_bytes()), 1);
}

#[test]
fn a_question_in_a_batch_is_its_own_span_alone() {
    // The buffer goes on with the second byte of é, and with a stray one.
    let buffer = b"Caf\xC3\xA9\xA9";
    let book = built(&names(&["Café"]), 1);
    let rows = [
        (0, 3, 3),
        (0, 4, 4),
        (0, 5, 5),
        (0, 6, 3),
        (4, 1, 0),
        (5, 1, 0),
    ];
    let asked = rows.map(|(start, length, _)| row(start, length));
    let mut answers = [UNSET; 6];
    assert_eq!(book_batch(&book, buffer, &asked, &mut answers), yes(6, 0));
    assert_eq!(answers, rows.map(|(_, _, expected)| yes(0, expected)));
}

// "Demand 2's statement that no name does better is proved for the new number."

/// Every list of one to four of twelve names over the eight bytes.
fn small_lists() -> Vec<Vec<Vec<u8>>> {
    let candidates: [&[u8]; 12] = [
        b"\x61",
        b"\x61\xC3",
        b"\x61\xC3\x81",
        b"\x61\xC3\xA9",
        b"\x7F",
        b"\x81",
        b"\x81\xA9",
        b"\xC0\xBF",
        b"\xC3\xA9",
        b"\xC3\xA9\x61",
        b"\xC3\xBF",
        b"\xCC\x81",
    ];
    let sets = (1..1 << 12).filter(|set: &u32| set.count_ones() <= 4);
    let list = |set: u32| {
        let chosen = (0..12).filter(|at| set >> at & 1 == 1);
        chosen.map(|at: usize| candidates[at].to_vec()).collect()
    };
    sets.map(list).collect()
}

/// What nearest gives to each of these questions, asked in batches.
fn nearest_to_all(book: &[u8], questions: &[Vec<u8>]) -> Vec<Answer> {
    let mut all = Vec::new();
    for some in questions.chunks(64) {
        let mut start = 0;
        let rows = some.iter().map(|question| {
            let length = question.len();
            start += length;
            row(start - length, length)
        });
        let rows: Vec<Row> = rows.collect();
        let mut answers = vec![UNSET; rows.len()];
        let answer = book_batch(book, &some.concat(), &rows, &mut answers);
        assert_eq!(answer, yes(rows.len(), 0));
        all.extend(answers);
    }
    all
}

/// Asks every question of up to three of the eight bytes of each small list, and
/// holds position and number to what is expected of the names and the question.
fn hold_small_lists(expected: impl Fn(&[Vec<u8>], &[u8]) -> (usize, usize)) {
    let questions = all_strings(&BYTES, 3);
    for names in small_lists() {
        let answers = nearest_to_all(&built(&names, 2), &questions);
        for (question, answer) in questions.iter().zip(answers) {
            let (position, number) = expected(&names, question);
            assert_eq!(answer, yes(position, number), "{names:?} {question:?}");
        }
    }
}

#[test]
fn no_name_does_better_by_the_new_number() {
    hold_small_lists(|names, question| {
        let (position, _) = old_nearest(names, question);
        let numbers = names
            .iter()
            .map(|name| whole_letters(question, shared(name, question)));
        (position, numbers.max().expect("there are names"))
    });
}

// How the request is read

#[test]
fn the_byte_that_decides_is_the_one_behind_the_lit_part() {
    // The last lit byte may be any: here it is the second one of é.
    assert_eq!(number("ére".as_bytes(), "éra".as_bytes()), 3);
    assert_eq!(number("ér".as_bytes(), "éa".as_bytes()), 2);
    assert_eq!(number(b"\xA9b", b"\xA9a"), 1);
}

#[test]
fn none_and_the_whole_question_may_be_lit_whatever_its_bytes_are() {
    for question in all_strings(&BYTES, 3) {
        assert_eq!(lit(&question, 0), 0, "{question:?}");
        assert_eq!(lit(&question, question.len()), question.len());
    }
}

#[test]
fn the_empty_question_lights_nothing() {
    assert_eq!(number("Évry".as_bytes(), b""), 0);
    assert_eq!(number(b"\x80", b""), 0);
}

#[test]
fn a_question_that_ends_inside_a_character_and_is_shared_in_full_keeps_its_length() {
    assert_eq!(number("Café".as_bytes(), b"Caf\xC3"), 4);
    assert_eq!(number("G𝄞".as_bytes(), b"G\xF0\x9D\x84"), 4);
    assert_eq!(number(b"\x80\x81", b"\x80"), 1);
    // One that is not shared in full does not.
    assert_eq!(number(b"G\xF0\x9D", b"G\xF0\x9D\x84"), 1);
}

#[test]
fn nothing_is_taken_off_where_the_name_goes_on_inside_a_character() {
    // The e that was asked for has an accent in the name.
    assert_eq!(number("Cafe\u{301}".as_bytes(), b"Cafe"), 4);
    assert_eq!(number("Cafe\u{301}".as_bytes(), b"Cafes"), 4);
    assert_eq!(number(b"Caf\xA9", b"Cafe"), 3);
}

#[test]
fn the_position_is_the_old_one_and_only_the_number_is_another() {
    hold_small_lists(|names, question| {
        let (position, raw) = old_nearest(names, question);
        (position, whole_letters(question, raw))
    });
}

#[test]
fn the_position_is_that_of_the_descent_also_where_only_half_a_letter_led_there() {
    // È and É share their first byte, which leads past Zoo to the names with É.
    let book = built(&names(&["Zoo", "Écluse", "École"]), 2);
    assert_eq!(book_nearest(&book, "Èze".as_bytes()), yes(1, 0));
    assert_eq!(book_nearest(&book, "Éco".as_bytes()), yes(2, 4));
    assert_eq!(book_nearest(&book, b"Ecole"), yes(0, 0));
    // Of é, ê and ë the middle one, by its last byte, though nothing is lit.
    let book = built(&names(&["né", "nê", "në"]), 2);
    assert_eq!(book_nearest(&book, "mê".as_bytes()), yes(1, 0));
    assert_eq!(book_nearest(&book, "nè".as_bytes()), yes(0, 1));
}
