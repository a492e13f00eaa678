//! `announce_clip` and `announce_route`, of the book in a file. The clip at each
//! position is the position's own number.

use crate::asking::{read_question, shown_question};
use crate::{checking, mixed, read_file, read_number, shown, told, Given, Ready};
use format::MOST_STOPS;
use model::open;

/// A book, and a clip for each of its names.
struct Table {
    book: Vec<u8>,
    clips: Vec<u16>,
}

impl Table {
    /// The book in a file. Bytes that are no book have no clips.
    fn read(file: &str) -> Result<Table, String> {
        let book = read_file(file)?;
        let names = model::book_check(&book).first;
        let names = u16::try_from(names).map_err(|error| format!("{file}: {error}"))?;
        let clips = (0..names).collect();
        Ok(Table { book, clips })
    }

    /// What the second program's answers make of a text.
    fn expected(&self, text: &[u8]) -> model::Answer {
        let exact = model::book_exact(&self.book, text).answer();
        let range = model::book_range(&self.book, text).answer();
        let [code, first, second] = match (exact.code, exact.second, range.second) {
            (0, 1, _) => [0, 1, exact.first],
            (0, _, 1) => [0, 1, range.first],
            (0, _, names) => [0, 0, names],
            (code, ..) => [code, 0, 0],
        };
        model::Answer {
            code,
            first,
            second,
        }
    }
}

/// Makes `announce_clip` ready from a file's name and a text.
pub fn clip(words: &[String]) -> Result<Ready, String> {
    let [file, text] = words else {
        return Err("clip needs the name of a book file and a text, or hex: and digits".into());
    };
    let (table, text) = (Table::read(file)?, read_question(text)?);
    let expected = table.expected(&text);
    Ok(Ready::new(
        move || measured_clip(&table.book, &table.clips, &text),
        expected,
    ))
}

/// Makes `announce_route` ready from a file's name and a number of stops, or the
/// most that a route has: they go all over the book, back and forth.
pub fn route(words: &[String]) -> Result<Ready, String> {
    let (file, stops) = match words {
        [file] => (file, MOST_STOPS),
        [file, stops] => (file, read_number(stops)?),
        _ => return Err("route needs the name of a book file, and may have a number".into()),
    };
    let table = Table::read(file)?;
    let positions = positions(table.clips.len(), stops);
    let expected = model::Answer {
        code: model::book_check(&table.book).code,
        first: 2 * positions.len(),
        second: 0,
    };
    let mut room = vec![0; positions.len()];
    Ok(Ready::new(
        move || {
            let answer = measured_route(&table.book, &table.clips, &positions, &mut room);
            compare(&positions, &room);
            answer
        },
        expected,
    ))
}

/// So many positions of so many names.
fn positions(names: usize, stops: usize) -> Vec<usize> {
    let stops = if names == 0 { 0 } else { stops };
    (0..stops).map(|stop| 997 * stop % names).collect()
}

/// Asserts that each clip is that of its position. It is never inlined, so that its
/// frame is not taken for a part of the call's stack.
#[inline(never)]
fn compare(positions: &[usize], room: &[u16]) {
    let same = |(&position, &clip): (&usize, &u16)| position == usize::from(clip);
    assert!(
        positions.iter().zip(room).all(same),
        "the route's own clips"
    );
}

/// Checks the book, then asks for the clip of each text of the mix: a line for each
/// call, in the order in which they are made. Every answer has to be what the second
/// program's answers make of it.
pub fn texts(words: &[String]) -> Result<String, String> {
    let table = read_table(words)?;
    announce_all(&table, |text, given| match text {
        None => shown(given, model::book_check(&table.book)),
        Some(text) => shown(given, table.expected(text)),
    })
}

/// The same calls and lines, whatever the answers are, for a profiler.
pub fn announced(words: &[String]) -> Result<String, String> {
    announce_all(&read_table(words)?, |_, given| Ok(told(given)))
}

/// The table of the book that the words name.
fn read_table(words: &[String]) -> Result<Table, String> {
    let [file] = words else {
        return Err("texts needs the name of a book file".to_string());
    };
    Table::read(file)
}

/// Checks, then announces: a line for each call, with what `tell` makes of what the
/// check gives, which has no text, or a text.
fn announce_all(
    table: &Table,
    tell: impl Fn(Option<&[u8]>, Given) -> Result<String, String>,
) -> Result<String, String> {
    let (_, _, names) = open(&table.book).ok_or("the file is no book")?;
    let checked = tell(None, checking::measured_check(&table.book).into())?;
    let mut lines = vec![format!("check {checked}")];
    for text in mixed::questions(&names) {
        let given = measured_clip(&table.book, &table.clips, &text);
        let answer = tell(Some(&text), given.into())?;
        lines.push(format!("clip {answer}: {}", shown_question(&text)));
    }
    Ok(lines.join("\n"))
}

/// The call that is measured, and nothing else.
#[inline(never)]
fn measured_clip(book: &[u8], clips: &[u16], text: &[u8]) -> proved::Answer {
    proved::announce_clip(book, clips, text)
}

/// The same for `announce_route`.
#[inline(never)]
fn measured_route(
    book: &[u8],
    clips: &[u16],
    positions: &[usize],
    room: &mut [u16],
) -> proved::Answer {
    proved::announce_route(book, clips, positions, room)
}

#[cfg(test)]
mod tests {
    use super::positions;

    #[test]
    fn a_route_goes_all_over_the_book() {
        let route = positions(1_800, 120);
        assert_eq!((route.len(), route[0], route[2]), (120, 0, 194));
        assert!(route.iter().all(|&position| position < 1_800));
        let mut apart = route.clone();
        apart.sort_unstable();
        apart.dedup();
        assert_eq!(apart.len(), 120);
        assert_eq!(positions(1, 3), [0, 0, 0]);
        assert_eq!(positions(0, 3), []);
    }
}
