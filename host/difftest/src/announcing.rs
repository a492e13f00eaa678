//! Random calls of `announce_clip` and `announce_route`; and, by the proved library
//! alone, what both have to do with the book's own calls, and a route with its
//! pieces.

use crate::agreeing;
use crate::asking::any_lent_question;
use crate::books::{any_book, any_book_of};
use crate::lent::{any_room_length, hex, lend, Lent};
use fenced::{on_stack, Fenced};
use format::{LONGEST_NAME, MOST_STOPS};
use mistrogu::{Refusal, STACK};
use model::BookKind;
use proved::Answer;
use vectors::announcing::{any_clip_count, any_route};
use vectors::lists::Names;
use vectors::random::Random;
use vectors::sets::word;

/// How many numbers are watched beside a room for clips.
const WATCHED: usize = 16;

/// Makes one call of `announce_clip` of both programs: the code they agree on, or the
/// whole case.
pub fn clip(random: &mut Random) -> Result<usize, String> {
    let (book, clips, names) = any_book_with_clips(random);
    let text = any_lent_question(random, &names);
    let expected = model::announce_clip(&book, &clips, &text);
    let found = on_stack(STACK, || proved::announce_clip(&book, &clips, &text));
    agreeing::on_answer(expected, found).map_err(|answers| {
        let text = hex(&text);
        format!("text {text}\n{}\n{answers}", told(&book, &clips))
    })
}

/// The same of `announce_route`.
pub fn route(random: &mut Random) -> Result<usize, String> {
    let (book, clips, names) = any_book_with_clips(random);
    let positions = any_positions(random, names.len());
    let room_length = any_room_length(random, positions.len());
    let room = Lent::any(random, room_length, WATCHED, any_clip);
    agreeing::on_lent(
        room,
        shown,
        STACK,
        |room| model::announce_route(&book, &clips, &positions, room),
        |room| proved::announce_route(&book, &clips, &positions, room),
    )
    .map_err(|rooms| {
        let positions = &positions[..];
        format!("route {positions:?}\n{}\n{rooms}", told(&book, &clips))
    })
}

/// A text's clip is what the book's own answers lead to: 0 or the code of the
/// refusal, or the whole case.
pub fn by_questions(random: &mut Random) -> Result<usize, String> {
    let (book, clips, names) = any_book_with_clips(random);
    let text = any_lent_question(random, &names);
    let found = on_stack(STACK, || proved::announce_clip(&book, &clips, &text));
    let expected = answered(&book, &clips, &text);
    if found == expected {
        return Ok(found.code);
    }
    let text = hex(&text);
    let answers = format!("the book says {expected:?}\nfound         {found:?}");
    Err(format!("text {text}\n{}\n{answers}", told(&book, &clips)))
}

/// What the clip of a text has to be by the answers of check, exact and range.
fn answered(book: &[u8], clips: &[u16], text: &[u8]) -> Answer {
    let checked = on_stack(STACK, || proved::book_check(book));
    if checked.code != 0 {
        return checked;
    }
    if !is_served(book) {
        return refused(Refusal::NoBook, 0);
    }
    if clips.len() != checked.first {
        return refused(Refusal::BadClipTable, 0);
    }
    let exact = on_stack(STACK, || proved::book_exact(book, text));
    let range = on_stack(STACK, || proved::book_range(book, text));
    let (first, second) = match (exact.second, range.second) {
        _ if exact.code != 0 => return exact.answer(),
        (1, _) => (1, usize::from(clips[exact.first])),
        (_, 1) => (1, usize::from(clips[range.first])),
        (_, count) => (0, count),
    };
    Answer {
        code: 0,
        first,
        second,
    }
}

/// A route is its positions one by one: 0 or the code of the refusal, or the whole
/// case.
pub fn by_pieces(random: &mut Random) -> Result<usize, String> {
    let (book, clips, names) = any_book_with_clips(random);
    let positions = any_positions(random, names.len());
    let found = announced(random, &book, &clips, &positions);
    let expected = in_pieces(random, &book, &clips, &positions);
    match expected {
        Ok(expected) if expected == found => Ok(found.0.code),
        _ => Err([
            format!("route {:?}", &positions[..]),
            told(&book, &clips),
            format!("in pieces {expected:?}"),
            format!("found     {found:?}"),
        ]
        .join("\n")),
    }
}

/// What a route comes to by its pieces: by the empty route, and by each position
/// alone, which has the clip that stands there in the table. Or what is wrong with a
/// piece.
fn in_pieces(
    random: &mut Random,
    book: &[u8],
    clips: &[u16],
    positions: &[usize],
) -> Result<(Answer, Vec<u16>), String> {
    let (empty, _) = announced(random, book, clips, &[]);
    if empty.code != 0 {
        return Ok((empty, vec![]));
    }
    if positions.len() > MOST_STOPS {
        return Ok((refused(Refusal::BadBatch, 0), vec![]));
    }
    let mut row = Vec::new();
    for (index, &position) in positions.iter().enumerate() {
        let (answer, own) = announced(random, book, clips, &[position]);
        match (clips.get(position), &own[..]) {
            (Some(clip), [own]) if answer == written(1) && own == clip => row.push(*own),
            (None, []) if answer == refused(Refusal::NoSuchPosition, 0) => {
                return Ok((refused(Refusal::NoSuchPosition, index), vec![]));
            }
            _ => return Err(format!("position {position} alone: {answer:?}, {own:?}")),
        }
    }
    Ok((written(positions.len()), row))
}

/// What the proved library gives for a route, and the clips that it writes into a
/// room for just as many.
fn announced(
    random: &mut Random,
    book: &[u8],
    clips: &[u16],
    positions: &[usize],
) -> (Answer, Vec<u16>) {
    let positions = lend(random, positions);
    let mut room = lend(random, &vec![0; positions.len()]);
    let answer = on_stack(STACK, || {
        proved::announce_route(book, clips, &positions, &mut room)
    });
    match answer.code {
        0 => (answer, room.to_vec()),
        _ => (answer, vec![]),
    }
}

/// A name that is read back has the clip that stands at its position, as a text and
/// in a route: 0, or the code of the refusal to read, or the whole case.
pub fn by_names(random: &mut Random) -> Result<usize, String> {
    let (book, names) = mostly_full_book(random);
    let checked = on_stack(STACK, || proved::book_check(&book));
    let clips = some_clips(random, checked.first);
    let position = word(random.around(names.len()));
    let mut room = lend(random, &[0; LONGEST_NAME]);
    let read = on_stack(STACK, || proved::book_read(&book, position, &mut room));
    let (row, _) = announced(random, &book, &clips, &[position]);
    let expected = match is_served(&book) {
        true => read.code,
        false => Refusal::NoBook.number(),
    };
    if expected != 0 {
        return match row.code == expected {
            true => Ok(expected),
            false => Err(format!(
                "{position}: {read:?}, {row:?}\n{}",
                told(&book, &clips)
            )),
        };
    }
    let name = lend(random, &room[..read.first]);
    let found = on_stack(STACK, || proved::announce_clip(&book, &clips, &name));
    let clip = usize::from(clips[position]);
    if row == written(1) && (found.code, found.first, found.second) == (0, 1, clip) {
        return Ok(0);
    }
    let (name, book) = (hex(&name), told(&book, &clips));
    Err(format!("{position}: {name}\n{found:?}, {row:?}\n{book}"))
}

/// Whether the announcer serves books with this mark: full ones of either rule.
fn is_served(book: &[u8]) -> bool {
    let kind = BookKind::of_marked(book);
    kind.is_some_and(|kind| BookKind::FULL.contains(&kind))
}

/// The refusal, with this number beside it.
fn refused(refusal: Refusal, first: usize) -> Answer {
    Answer {
        code: refusal.number(),
        first,
        second: 0,
    }
}

/// So many clips are written, each of two bytes.
fn written(clips: usize) -> Answer {
    Answer {
        code: 0,
        first: 2 * clips,
        second: 0,
    }
}

/// A book, mostly a full one, and the names that went into it, with a table that
/// mostly has as many clips.
fn any_book_with_clips(random: &mut Random) -> (Fenced<u8>, Fenced<u16>, Names) {
    let (book, names) = mostly_full_book(random);
    let count = any_clip_count(random, names.len());
    let clips = some_clips(random, count);
    (book, clips, names)
}

/// A book of any kind, mostly of one that the announcer serves, and the names that
/// went into it.
fn mostly_full_book(random: &mut Random) -> (Fenced<u8>, Names) {
    if random.once_in(8) {
        return any_book(random);
    }
    let kind = *random.one_of(&BookKind::FULL);
    any_book_of(random, kind)
}

/// So many clips, to be lent.
fn some_clips(random: &mut Random, count: usize) -> Fenced<u16> {
    let clips: Vec<u16> = (0..count).map(|_| any_clip(random)).collect();
    lend(random, &clips)
}

/// Any clip: now and then a number as a few names have, or the highest.
fn any_clip(random: &mut Random) -> u16 {
    match random.below(12) {
        0 => random.below(4) as u16,
        1 => u16::MAX,
        _ => random.any() as u16,
    }
}

/// The positions of a route through so many names, to be lent.
fn any_positions(random: &mut Random, names: usize) -> Fenced<usize> {
    let mut route = any_route(random, names);
    if random.once_in(200) {
        // A number of positions of which the low 16 bits alone would be fine.
        route.resize(random.between(65_536, 65_536 + MOST_STOPS), 0);
    }
    let positions: Vec<usize> = route.into_iter().map(word).collect();
    lend(random, &positions)
}

/// Clips as they are shown.
fn shown(clips: &[u16]) -> String {
    let clips: Vec<String> = clips.iter().map(u16::to_string).collect();
    clips.join(" ")
}

/// What both calls take.
fn told(book: &[u8], clips: &[u16]) -> String {
    format!("{} clips {}\nbook {}", clips.len(), shown(clips), hex(book))
}

#[cfg(test)]
mod tests {
    use super::*;
    use std::collections::BTreeMap;

    /// How often each kind of outcome is there, of so many.
    fn outcomes<K: Ord>(count: usize, mut one: impl FnMut(&mut Random) -> K) -> BTreeMap<K, usize> {
        let mut outcomes = BTreeMap::new();
        let mut random = Random::from_seed(1);
        for _ in 0..count {
            *outcomes.entry(one(&mut random)).or_default() += 1;
        }
        outcomes
    }

    #[test]
    fn texts_have_clips_by_name_and_by_range_and_numbers_of_names() {
        let outcomes = outcomes(3000, |random| {
            let (book, clips, names) = any_book_with_clips(random);
            let text = any_lent_question(random, &names);
            let answer = model::announce_clip(&book, &clips, &text);
            let [exact, range] = [model::book_exact, model::book_range].map(|ask| {
                let asked = ask(&book, &text);
                asked.second.min(2)
            });
            match answer.code {
                0 => (0, exact, range),
                code => (code, 0, 0),
            }
        });
        for outcome in [
            (0, 0, 0),
            (0, 0, 1),
            (0, 0, 2),
            (0, 1, 1),
            (0, 1, 2),
            (1, 0, 0),
            (2, 0, 0),
            (16, 0, 0),
        ] {
            assert!(outcomes.get(&outcome) > Some(&40), "{outcomes:?}");
        }
    }

    #[test]
    fn routes_are_refused_in_every_way_and_often_taken() {
        let outcomes = outcomes(3000, |random| {
            let (book, clips, names) = any_book_with_clips(random);
            let positions = any_positions(random, names.len());
            let mut room = vec![0; any_room_length(random, positions.len())];
            model::announce_route(&book, &clips, &positions, &mut room).code
        });
        for code in [0, 2, 3, 4, 12, 16] {
            assert!(outcomes.get(&code) > Some(&60), "{outcomes:?}");
        }
        assert!(outcomes[&0] > 300, "{outcomes:?}");
    }
}
