//! The announcer's calls held to the second program's check, exact and range.

use model::{book_of, BookKind};
use reference::{announce_clip, announce_route, Answer};
use vectors::damage::spoil_bytes;
use vectors::lists::{self, Names};
use vectors::questions::any_question;
use vectors::random::Random;
use vectors::spelling::names_respelt;

type Numbers = (usize, usize, usize);

fn ours(answer: Answer) -> Numbers {
    (answer.code, answer.first, answer.second)
}

/// Whether the announcer takes books with this one's mark.
fn is_full(book: &[u8]) -> bool {
    BookKind::of_marked(book).is_some_and(|kind| BookKind::FULL.contains(&kind))
}

/// The clip for a text, as the second program's answers have it.
fn clip_by(book: &[u8], clips: &[u16], text: &[u8]) -> Numbers {
    let [checked, exact, range] = [
        model::book_check(book),
        model::book_exact(book, text).answer(),
        model::book_range(book, text).answer(),
    ];
    match (checked.code, exact.code) {
        (0, _) if !is_full(book) => (2, 0, 0),
        (0, _) if clips.len() != checked.first => (16, 0, 0),
        (0, 0) if exact.second == 1 => (0, 1, clips[exact.first].into()),
        (0, 0) if range.second == 1 => (0, 1, clips[range.first].into()),
        (0, 0) => (0, 0, range.second),
        (0, code) | (code, _) => (code, 0, 0),
    }
}

/// What a route gives, and its room, as the second program's check has them.
fn route_by(book: &[u8], clips: &[u16], positions: &[usize], room: &mut [u16]) -> Numbers {
    let checked = model::book_check(book);
    let bad = positions
        .iter()
        .position(|&position| position >= checked.first);
    match (checked.code, bad) {
        (0, _) if !is_full(book) => (2, 0, 0),
        (0, _) if clips.len() != checked.first => (16, 0, 0),
        (0, _) if positions.len() > 120 => (12, 0, 0),
        (0, Some(place)) => (3, place, 0),
        (0, None) if room.len() < positions.len() => (4, 0, 0),
        (0, None) => {
            for (place, &position) in positions.iter().enumerate() {
                room[place] = clips[position];
            }
            (0, 2 * positions.len(), 0)
        }
        (code, _) => (code, 0, 0),
    }
}

/// Names for a book of this kind.
fn any_names(random: &mut Random, kind: BookKind) -> Names {
    let names = match random.below(4) {
        0 => Names::new(),
        1 => lists::random(random, b"ab", 40, 1, 6),
        2 => lists::grown(random, b"abc", 40, 12),
        _ => lists::fan(&random.string(b"ab", 1, 5)),
    };
    names_respelt(random, kind, &names)
}

/// Numbers of clips, mostly as many as names.
fn any_clips(random: &mut Random, names: usize) -> Vec<u16> {
    let count = match random.below(6) {
        0 => names.saturating_sub(1),
        1 => names + 1,
        _ => names,
    };
    let clip = |_| u16::from_le_bytes([random.byte(), random.byte()]);
    (0..count).map(clip).collect()
}

/// A route, mostly of good positions.
fn any_route(random: &mut Random, names: usize) -> Vec<usize> {
    let stops = *random.one_of(&[0, 1, 2, 17, 119, 120, 121]);
    let mut positions: Vec<usize> = (0..stops).map(|_| random.below(names.max(1))).collect();
    for _ in 0..random.below(3) {
        if !positions.is_empty() {
            let place = random.below(positions.len());
            positions[place] = names + random.below(2);
        }
    }
    positions
}

#[test]
fn announces_as_the_second_program_answers() {
    let mut random = Random::from_seed(9);
    for _ in 0..600 {
        let kind = *random.one_of(&BookKind::ALL);
        let names = any_names(&mut random, kind);
        let mut book = book_of(kind, random.between(1, 64), &names);
        if random.below(5) == 0 {
            spoil_bytes(&mut random, &mut book);
        }
        let clips = any_clips(&mut random, names.len());
        let text = any_question(&mut random, &names);
        let expected = clip_by(&book, &clips, &text);
        assert_eq!(ours(announce_clip(&book, &clips, &text)), expected);

        let positions = any_route(&mut random, names.len());
        let space = (positions.len() + 2).saturating_sub(random.below(4));
        let (mut one, mut other) = (vec![0xAAAA; space], vec![0xAAAA; space]);
        let given = announce_route(&book, &clips, &positions, &mut one);
        let expected = route_by(&book, &clips, &positions, &mut other);
        assert_eq!((ours(given), one), (expected, other));
    }
}
