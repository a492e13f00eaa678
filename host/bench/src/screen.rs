//! What a passenger screen asks when something is typed: which names begin so, and
//! the first ten of them.

use crate::asking::{call_of, read_question, shown_question};
use crate::reading::measured_read;
use crate::{read_file, shown};
use format::{Kind, LONGEST_NAME};

/// How many names a screen shows.
const HITS: usize = 10;

/// Asks for the range, then reads its first names: a line for each call, in the
/// order in which they are made.
pub fn run(words: &[String]) -> Result<String, String> {
    let [file, typed] = words else {
        return Err("screen needs the name of a book file and what is typed".to_string());
    };
    let (book, typed) = (read_file(file)?, read_question(typed)?);
    let range = call_of(Kind::Range)(&book, &typed);
    let answer = shown(range, model::book_range(&book, &typed))?;
    let mut lines = vec![format!("range {answer}: {}", shown_question(&typed))];
    let mut room = [0; LONGEST_NAME];
    for position in (range.first..range.first + range.second).take(HITS) {
        let read = measured_read(&book, position, &mut room);
        let answer = shown(
            read,
            model::book_read(&book, position, &mut [0; LONGEST_NAME]),
        )?;
        let name = shown_question(&room[..read.first]);
        lines.push(format!("read {answer}: {name}"));
    }
    Ok(lines.join("\n"))
}
