//! The clip for a text and the clips of a route, as the plain list of names has them.

use mistrogu::{
    build, build_folded, clip, route, to_columns, BookKind, List, Refusal, Spoken, MOST_STOPS,
};

const NAMES: [&str; 8] = [
    "Alder Bridge",
    "Harbour",
    "Harbour East",
    "Harbour Gate",
    "Mar",
    "Marina",
    "Market Square",
    "Zoo",
];
/// One clip for each of them, with one clip twice.
const CLIPS: [u16; 8] = [40, 0, 65_535, 7, 301, 7, 1, 300];

/// The book of this kind of these names, in blocks of three.
fn book_of(kind: BookKind, names: &[&str]) -> Vec<u8> {
    let mut lent = [0; 2000];
    let mut list = List::new(&mut lent);
    for name in names {
        list.push(name.as_bytes()).unwrap();
    }
    let mut room = vec![0; mistrogu::LONGEST_BOOK];
    let length = match kind {
        BookKind::Plain | BookKind::Columns => build(list.records(), 3, &mut room),
        BookKind::Folded => build_folded(list.records(), 3, &mut room),
    };
    room.truncate(length.unwrap());
    if kind == BookKind::Columns {
        let mut columns = vec![0; room.len()];
        to_columns(&room, &mut columns).unwrap();
        return columns;
    }
    room
}

/// What the list says of a text: by its letters where the book is folded.
fn by_the_list(kind: BookKind, text: &str) -> Spoken {
    let letters = |text: &str| match kind {
        BookKind::Plain | BookKind::Columns => text.to_string(),
        BookKind::Folded => text.to_ascii_lowercase(),
    };
    let text = letters(text);
    let clips = || NAMES.into_iter().map(letters).zip(CLIPS);
    let exact = clips().find(|(name, _)| *name == text);
    let begin: Vec<u16> = clips()
        .filter(|(name, _)| name.starts_with(&text))
        .map(|(_, clip)| clip)
        .collect();
    match (exact, &begin[..]) {
        (Some((_, clip)), _) | (None, &[clip]) => Spoken::Clip(clip),
        (None, several) => Spoken::Names(several.len()),
    }
}

#[test]
fn every_beginning_of_every_name_and_what_misses_it_is_answered_by_the_list() {
    for kind in BookKind::FULL {
        let book = book_of(kind, &NAMES);
        for name in NAMES {
            for length in 0..=name.len() {
                let begin = &name[..length];
                let upper = begin.to_uppercase();
                for text in [begin, &upper, &format!("{begin}x"), &format!("x{begin}")] {
                    let spoken = clip(&book, &CLIPS, text.as_bytes());
                    assert_eq!(spoken, Ok(by_the_list(kind, text)), "{kind:?} {text}");
                }
            }
        }
    }
}

#[test]
fn a_name_has_its_own_clip_though_others_begin_with_it() {
    let book = book_of(BookKind::Plain, &NAMES);
    for (text, clip_of_it) in [("Harbour", 0), ("Mar", 301)] {
        assert_eq!(
            clip(&book, &CLIPS, text.as_bytes()),
            Ok(Spoken::Clip(clip_of_it))
        );
    }
    assert_eq!(clip(&book, &CLIPS, b"Harbou"), Ok(Spoken::Names(3)));
    assert_eq!(clip(&book, &CLIPS, b"Harbour "), Ok(Spoken::Names(2)));
    assert_eq!(clip(&book, &CLIPS, b"Harbour E"), Ok(Spoken::Clip(65_535)));
}

#[test]
fn the_empty_text_means_the_only_name_there_is() {
    for kind in BookKind::FULL {
        for names in 0..NAMES.len() {
            let book = book_of(kind, &NAMES[..names]);
            let expected = match names {
                1 => Spoken::Clip(CLIPS[0]),
                _ => Spoken::Names(names),
            };
            assert_eq!(clip(&book, &CLIPS[..names], b""), Ok(expected));
        }
    }
}

#[test]
fn a_route_is_a_row_of_clips_in_its_order() {
    for kind in BookKind::FULL {
        let book = book_of(kind, &NAMES);
        for length in [0, 1, 2, 17, MOST_STOPS] {
            let positions: Vec<usize> = (0..length).map(|stop| (5 * stop + 3) % 8).collect();
            let expected: Vec<u16> = positions.iter().map(|&stop| CLIPS[stop]).collect();
            let mut room = [0xAAAA; MOST_STOPS + 1];
            assert_eq!(
                route(&book, &CLIPS, &positions, &mut room),
                Ok(&expected[..])
            );
            assert!(room[length..].iter().all(|&clip| clip == 0xAAAA));
            let mut just = vec![0; length];
            assert_eq!(
                route(&book, &CLIPS, &positions, &mut just),
                Ok(&expected[..])
            );
        }
    }
}

#[test]
fn the_first_bad_position_is_told_whatever_stands_behind_it() {
    let book = book_of(BookKind::Plain, &NAMES);
    for place in 0..MOST_STOPS {
        let mut positions = [7; MOST_STOPS];
        for (behind, bad) in [(1, 8), (MOST_STOPS, usize::MAX)] {
            positions[place..]
                .iter_mut()
                .take(behind)
                .for_each(|stop| *stop = bad);
            let mut room = [0xAAAA; MOST_STOPS];
            let refused = route(&book, &CLIPS, &positions, &mut room).unwrap_err();
            assert_eq!((refused.refusal.number(), refused.place), (3, place));
            assert_eq!(room, [0xAAAA; MOST_STOPS]);
        }
    }
}

#[test]
fn a_column_book_is_refused_with_2_before_all_else() {
    let book = book_of(BookKind::Columns, &NAMES);
    for clips in [&CLIPS[..], &CLIPS[1..]] {
        for text in [&b"Mar"[..], &[b'M'; 201]] {
            assert_eq!(clip(&book, clips, text), Err(Refusal::NoBook));
        }
        let mut room = [0xAAAA; 3];
        for positions in [&[][..], &[1, 2], &[9; MOST_STOPS + 1]] {
            let refused = route(&book, clips, positions, &mut room).unwrap_err();
            assert_eq!((refused.refusal, refused.place), (Refusal::NoBook, 0));
        }
        assert_eq!(room, [0xAAAA; 3]);
    }
}
