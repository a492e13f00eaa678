//! Document 02, change request 9, tried out: small books of both kinds with every
//! short text and every short route, tables that are a clip too short or too long,
//! and random books and routes, each compared with a direct look at the list.
//!
//! The comparisons here use nothing of the model but its two calls, its layout of
//! sound books and, for changed bytes, whether they are a book. No question is
//! asked: the names are taken in small letters where the book is folded, and those
//! that begin with the text are picked out of the list.

mod common;

use common::{all_strings, answer, built_as, names, no, yes, Random};
use model::{announce_clip, announce_route, open, Answer, BookKind};
use std::collections::BTreeMap;

/// What a room holds before a call, so that every change shows.
const FILLING: u16 = 0xAAAA;

/// A book with a clip table, which may be none for it.
struct Held<'bytes> {
    book: &'bytes [u8],
    /// The names as the book compares them, or nothing where it is none.
    compared: Option<Vec<Vec<u8>>>,
    kind: BookKind,
    clips: &'bytes [u16],
}

/// How often each code was given, by the clip call and by the route.
#[derive(Default)]
struct Codes {
    clip: BTreeMap<(usize, usize), usize>,
    route: BTreeMap<usize, usize>,
}

/// Bytes as a book of this kind compares them.
fn compared(kind: BookKind, bytes: &[u8]) -> Vec<u8> {
    match kind {
        BookKind::Plain | BookKind::Columns => bytes.to_vec(),
        BookKind::Folded => bytes.to_ascii_lowercase(),
    }
}

impl<'bytes> Held<'bytes> {
    /// A book of these names, with these clips.
    fn of(
        kind: BookKind,
        names: &[Vec<u8>],
        book: &'bytes [u8],
        clips: &'bytes [u16],
    ) -> Held<'bytes> {
        let names = names.iter().map(|name| compared(kind, name));
        Held {
            book,
            compared: Some(names.collect()),
            kind,
            clips,
        }
    }

    /// The names, or the refusal that both calls begin with.
    fn names(&self) -> Result<&[Vec<u8>], Answer> {
        let names = self.compared.as_ref().ok_or(no(2))?;
        match names.len() == self.clips.len() {
            true => Ok(names),
            false => Err(no(16)),
        }
    }

    /// The clip call's answer, by a direct look.
    fn direct_clip(&self, text: &[u8]) -> Answer {
        let names = match self.names() {
            Err(refusal) => return refusal,
            Ok(_) if text.len() > 200 => return no(1),
            Ok(names) => names,
        };
        let text = compared(self.kind, text);
        let beginning: Vec<usize> = (0..names.len())
            .filter(|&at| names[at].starts_with(&text))
            .collect();
        // A name that begins with the text and is no longer is the text.
        let mut equal = beginning
            .iter()
            .filter(|&&at| names[at].len() == text.len());
        match (equal.next(), &beginning[..]) {
            (Some(&at), _) | (None, &[at]) => yes(1, self.clips[at].into()),
            (None, several) => yes(0, several.len()),
        }
    }

    /// The route's answer and the room behind it, by a direct look.
    fn direct_route(&self, positions: &[usize], mut room: Vec<u16>) -> (Answer, Vec<u16>) {
        let bad = positions.iter().position(|&at| at >= self.clips.len());
        let refusal = match (self.names(), bad) {
            (Err(refusal), _) => Some(refusal),
            _ if positions.len() >= 121 => Some(no(12)),
            (_, Some(index)) => Some(answer(3, index, 0)),
            _ if room.len() < positions.len() => Some(no(4)),
            _ => None,
        };
        match refusal {
            Some(refusal) => (refusal, room),
            None => {
                for (place, &at) in room.iter_mut().zip(positions) {
                    *place = self.clips[at];
                }
                (yes(positions.len() + positions.len(), 0), room)
            }
        }
    }

    /// Holds the clip call to the direct look.
    fn try_clip(&self, text: &[u8], codes: &mut Codes) {
        let expected = self.direct_clip(text);
        let found = announce_clip(self.book, self.clips, text);
        let told = (&self.compared, self.clips, text);
        assert_eq!(found, expected, "{told:?}");
        let kind = (found.code, found.first);
        *codes.clip.entry(kind).or_default() += 1;
    }

    /// Holds a route to the direct look, in a room of this length.
    fn try_route(&self, positions: &[usize], room_length: usize, codes: &mut Codes) {
        let before = vec![FILLING; room_length];
        let mut room = before.clone();
        let found = announce_route(self.book, self.clips, positions, &mut room);
        let expected = self.direct_route(positions, before);
        let told = (&self.compared, self.clips, positions);
        assert_eq!((found, room), expected, "{told:?}");
        *codes.route.entry(found.code).or_default() += 1;
    }
}

impl Codes {
    /// Asserts that each of these outcomes was there: a refusal, a clip (1) or a
    /// number of names (0); and none but these.
    fn assert_clip(&self, expected: &[(usize, usize)]) {
        assert!(self.clip.keys().eq(expected), "{:?}", self.clip);
    }

    /// Asserts that each of these codes was there, and none but these.
    fn assert_route(&self, expected: &[usize]) {
        assert!(self.route.keys().eq(expected), "{:?}", self.route);
    }
}

/// So many clips, of which no two are the same and none is its own position.
fn clips(wanted: usize) -> Vec<u16> {
    (0..wanted).map(|at| 9 + 7 * at as u16).collect()
}

/// Tables for so many names: one clip less where there are any, as many, one more.
fn tables(names: usize) -> Vec<Vec<u16>> {
    let lengths = names.saturating_sub(1)..=names + 1;
    lengths.map(clips).collect()
}

/// Every list of some of these names, in their order.
fn every_choice(candidates: &[Vec<u8>]) -> Vec<Vec<Vec<u8>>> {
    let sets = 0..1usize << candidates.len();
    sets.map(|set| {
        let chosen = (0..candidates.len()).filter(|at| set >> at & 1 == 1);
        chosen.map(|at| candidates[at].clone()).collect()
    })
    .collect()
}

/// Every route of at most so many positions, each one of these.
fn every_route(positions: &[usize], longest: usize) -> Vec<Vec<usize>> {
    let places: Vec<u8> = (0..positions.len() as u8).collect();
    let routes = all_strings(&places, longest).into_iter();
    routes
        .map(|route| {
            let route = route.into_iter();
            route.map(|place| positions[usize::from(place)]).collect()
        })
        .collect()
}

/// Six names for each kind of book. Those for a folded one do not rise as bytes.
fn candidates(kind: BookKind) -> Vec<Vec<u8>> {
    match kind {
        BookKind::Plain | BookKind::Columns => names(&["A", "Aa", "a", "aa", "ab", "b"]),
        BookKind::Folded => names(&["a", "AA", "Ab", "b", "BA", "bB"]),
    }
}

#[test]
fn every_list_of_six_names_and_every_short_text() {
    let texts = all_strings(b"aAbB", 3);
    let mut codes = Codes::default();
    for kind in BookKind::FULL {
        for names in every_choice(&candidates(kind)) {
            let book = built_as(kind, &names, 2);
            for clips in tables(names.len()) {
                let held = Held::of(kind, &names, &book, &clips);
                texts
                    .iter()
                    .for_each(|text| held.try_clip(text, &mut codes));
            }
        }
    }
    codes.assert_clip(&[(0, 0), (0, 1), (16, 0)]);
}

#[test]
fn every_list_of_four_names_and_every_short_route() {
    let mut codes = Codes::default();
    for kind in BookKind::FULL {
        for names in every_choice(&candidates(kind)[..4]) {
            let (count, book) = (names.len(), built_as(kind, &names, 3));
            let routes = every_route(&[0, 1, count, count + 1, usize::MAX], 4);
            for clips in tables(count) {
                let held = Held::of(kind, &names, &book, &clips);
                for route in &routes {
                    for room_length in route.len().saturating_sub(1)..=route.len() + 1 {
                        held.try_route(route, room_length, &mut codes);
                    }
                }
            }
        }
    }
    codes.assert_route(&[0, 3, 4, 16]);
}

#[test]
fn every_length_of_a_route_up_to_300() {
    let names = names(&["Mar", "Marina", "Market Square"]);
    let (book, clips) = (built_as(BookKind::Plain, &names, 2), clips(3));
    let held = Held::of(BookKind::Plain, &names, &book, &clips);
    let mut codes = Codes::default();
    for length in 0..300 {
        let mut positions: Vec<usize> = (0..length).map(|index| index % 3).collect();
        for room_length in [0, length.saturating_sub(1), length, length + 1, 400] {
            held.try_route(&positions, room_length, &mut codes);
        }
        for index in 0..length {
            let own = std::mem::replace(&mut positions[index], 3);
            held.try_route(&positions, length, &mut codes);
            positions[index] = own;
        }
    }
    codes.assert_route(&[0, 3, 4, 12]);
}

#[test]
fn every_length_of_a_text_up_to_300() {
    let names = [1, 2, 100, 199, 200].map(|length| vec![b'n'; length]);
    let clips = clips(5);
    let mut codes = Codes::default();
    for kind in BookKind::FULL {
        let book = built_as(kind, &names, 2);
        let held = Held::of(kind, &names, &book, &clips);
        for length in 0..300 {
            held.try_clip(&vec![b'n'; length], &mut codes);
            held.try_clip(&vec![b'N'; length], &mut codes);
        }
    }
    codes.assert_clip(&[(0, 0), (0, 1), (1, 0)]);
}

#[test]
fn every_byte_of_a_book_changed() {
    let mut codes = Codes::default();
    for kind in BookKind::FULL {
        let book = built_as(kind, &names(&["Mar", "marina", "market"]), 2);
        for at in 0..book.len() {
            for step in [1, 32, 255] {
                let mut changed = book.clone();
                changed[at] = changed[at].wrapping_add(step);
                let opened = open(&changed);
                let (compared, kind) = match opened {
                    None => (None, kind),
                    Some((kind, _, names)) => {
                        let names = names.iter().map(|name| compared(kind, name));
                        (Some(names.collect()), kind)
                    }
                };
                for clips in tables(3) {
                    let held = Held {
                        book: &changed,
                        compared: compared.clone(),
                        kind,
                        clips: &clips,
                    };
                    for text in [&b"mar"[..], b"Mar", b"", b"mari", &[b'm'; 201]] {
                        held.try_clip(text, &mut codes);
                    }
                    held.try_route(&[2, 0, 1], 4, &mut codes);
                    held.try_route(&[2, 0, 3], 2, &mut codes);
                    held.try_route(&[3; 121], 2, &mut codes);
                }
            }
        }
    }
    codes.assert_clip(&[(0, 0), (0, 1), (1, 0), (2, 0), (16, 0)]);
    codes.assert_route(&[0, 2, 3, 12, 16]);
}

/// At most so many random names that rise in a book of this kind.
fn random_names(kind: BookKind, random: &mut Random, most: usize) -> Vec<Vec<u8>> {
    let wanted = random.below(most + 1);
    let strings = (0..wanted).map(|_| random.string(b"aAbB[\xC3\xFF", 1, 6));
    let mut names: Vec<Vec<u8>> = strings.collect();
    names.sort_by_key(|name| compared(kind, name));
    names.dedup_by_key(|name| compared(kind, name));
    names
}

/// A name, a part of it, more than it, or something else.
fn random_text(random: &mut Random, names: &[Vec<u8>]) -> Vec<u8> {
    let other = random.string(b"aAbB[\xC3\xFF", 0, 3);
    let Some(name) = names.get(random.below(names.len() + 1)) else {
        return other;
    };
    match random.below(4) {
        0 => name.clone(),
        1 => [&name[..], &other].concat(),
        _ => name[..random.below(name.len() + 1)].to_vec(),
    }
}

/// A route over so many names: mostly of good positions, and mostly not too long.
fn random_route(random: &mut Random, names: usize) -> Vec<usize> {
    let length = match random.below(4) {
        0 => 118 + random.below(5),
        _ => random.below(30),
    };
    let positions = (0..length).map(|_| match random.below(60) {
        0 => names,
        1 => usize::MAX - random.below(2),
        _ => random.below(names.max(1)),
    });
    positions.collect()
}

#[test]
fn random_books_texts_and_routes() {
    let mut codes = Codes::default();
    for seed in 60_000..60_800 {
        let mut random = Random::from_seed(seed);
        for kind in BookKind::FULL {
            let names = random_names(kind, &mut random, 40);
            let book = built_as(kind, &names, 1 + random.below(9));
            for clips in tables(names.len()) {
                let held = Held::of(kind, &names, &book, &clips);
                for _ in 0..6 {
                    held.try_clip(&random_text(&mut random, &names), &mut codes);
                    let route = random_route(&mut random, names.len());
                    let room_length = (route.len() + random.below(4)).saturating_sub(1);
                    held.try_route(&route, room_length, &mut codes);
                }
            }
        }
    }
    codes.assert_clip(&[(0, 0), (0, 1), (16, 0)]);
    codes.assert_route(&[0, 3, 4, 12, 16]);
}
