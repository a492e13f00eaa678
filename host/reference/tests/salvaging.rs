//! Salvage held to the second program, on sound and on damaged cards.

use model::{book_of, BookKind};
use reference::{book_salvage, Kept};
use vectors::damage::spoil_bytes;
use vectors::hostile;
use vectors::lists::{self, Names};
use vectors::random::Random;
use vectors::rooms::filled_room;

/// The most blocks of a card.
const MOST_BLOCKS: usize = 2000;
/// The most bytes that are written.
const MOST_WRITTEN: usize = 402_000;

/// Salvages a card into a room of so many bytes and so many rows, both ways.
fn hold_with(data: &[u8], space: usize, rows: usize) {
    let (mut room, mut expected_room) = (filled_room(space), filled_room(space));
    // No call has written such rows.
    let (kept, names) = (77, 78);
    let mut report = vec![Kept { kept, names }; rows];
    let mut expected_report = vec![model::Kept { kept, names }; rows];
    let answer = book_salvage(data, &mut room, &mut report);
    let expected = model::book_salvage(data, &mut expected_room, &mut expected_report);
    assert_eq!(
        (answer.code, answer.first, answer.second),
        (expected.code, expected.first, expected.second),
        "{data:?}"
    );
    assert_eq!(room, expected_room, "the room of {data:?}");
    for (row, expected) in report.iter().zip(&expected_report) {
        let expected = (expected.kept, expected.names);
        assert_eq!((row.kept, row.names), expected, "the rows of {data:?}");
    }
}

/// How many blocks the trailer tells of, and how many bytes the second program
/// writes with as many rows.
fn sizes(data: &[u8]) -> (usize, usize) {
    let trailer = data.last_chunk::<16>().unwrap_or(&[1; 16]);
    let number = |at: usize| usize::from(u16::from_le_bytes([trailer[at], trailer[at + 1]]));
    let rows = number(0).div_ceil(number(2).max(1)).min(MOST_BLOCKS);
    let mut room = vec![0; MOST_WRITTEN];
    let mut report = vec![model::Kept::default(); rows];
    let salvaged = model::book_salvage(data, &mut room, &mut report);
    (rows, salvaged.first)
}

/// Salvages a card with rooms and rows that fit, and with others.
fn hold(data: &[u8]) {
    let (rows, length) = sizes(data);
    for space in [length, length + 3, length.saturating_sub(1), 0] {
        hold_with(data, space, rows);
    }
    hold_with(data, length, rows + 1);
    hold_with(data, 0, rows.saturating_sub(1));
}

/// Some names.
fn any_names(random: &mut Random) -> Names {
    let all = lists::all_bytes();
    match random.below(5) {
        0 => lists::random(random, b"ab", 60, 1, 6),
        1 => lists::random(random, &all, 40, 1, 200),
        2 => lists::grown(random, b"abc", 60, 12),
        3 => lists::chain(random.byte(), random.between(1, 60)),
        _ => lists::fan(&random.string(b"ab", 1, 5)),
    }
}

/// A card with some names.
fn any_card(random: &mut Random) -> Vec<u8> {
    let block = random.between(1, 9);
    book_of(BookKind::Plain, block, &any_names(random))
}

#[test]
fn salvages_sound_cards_alike() {
    let mut random = Random::from_seed(1);
    hold(&book_of(BookKind::Plain, 7, &[]));
    for _ in 0..300 {
        hold(&any_card(&mut random));
    }
    hold(&book_of(BookKind::Plain, 1, &lists::pairs(2000)));
    hold(&book_of(BookKind::Plain, 64, &lists::fan(&[b'a'; 199])));
}

#[test]
fn salvages_damaged_cards_alike() {
    let mut random = Random::from_seed(2);
    for _ in 0..3000 {
        let mut card = any_card(&mut random);
        for _ in 0..random.between(1, 4) {
            let entries = card.len() / 3;
            let at = random.below(entries.max(1));
            card[at] = match random.below(3) {
                0 => random.byte(),
                1 => card[at].wrapping_add(1),
                _ => card[at].wrapping_sub(1),
            };
        }
        if random.once_in(4) {
            spoil_bytes(&mut random, &mut card);
        }
        hold(&card);
    }
}

#[test]
fn salvages_one_changed_byte_alike_wherever_it_is() {
    let card = book_of(BookKind::Plain, 2, &lists::stops()[..7]);
    for at in 0..card.len() {
        for byte in 0..=255 {
            let mut card = card.clone();
            card[at] = byte;
            hold(&card);
        }
    }
}

#[test]
fn salvages_hostile_books_alike() {
    for kind in hostile::kinds() {
        hold(&kind.with_names(6).bytes());
        hold(&kind.largest().bytes());
    }
}

#[test]
fn folded_cards_have_no_map() {
    let mut random = Random::from_seed(5);
    for names in [Names::new(), lists::example(), any_names(&mut random)] {
        let names = lists::sorted_for(BookKind::Folded, names);
        let card = book_of(BookKind::Folded, 2, &names);
        hold(&card);
        assert_eq!(book_salvage(&card, &mut [], &mut []).code, 13);
    }
}

#[test]
fn a_card_without_names_may_have_nodes() {
    let mut card = vec![0xFF; 24];
    card.extend(b"\0\0\x02\0\0\0\0\0\x02\0\x28\0NBK2");
    hold(&card);
    hold_with(&card, 0, 0);
    assert_eq!(book_salvage(&card, &mut [], &mut []).code, 0);
}
