//! A text of names, read from a file; what is wrong with its lines is told, and what
//! looks as if it were.

use crate::args::Words;
use crate::files;
use crate::looks::{self, Alike, Blanks};
use crate::names::{self, Bad, Double, Line, Names, Taking};
use crate::outcome::{Failure, Streams};
use crate::text::{counted, grouped, named, quoted};
use mistrogu::{BookKind, MOST_NAMES};
use std::ffi::OsStr;

/// So much of a names file is read, and no more.
const LONGEST_FILE: u64 = 64 << 20;
/// So many bad lines, and so many doubles, are told one by one.
const MOST_TOLD: usize = 20;
/// So many lines are told one by one of each kind that merely looks wrong, and of
/// those with control characters, which mostly come together.
const MOST_LOOKS: usize = 10;

/// What lines of a kind are called: a noun, and what stands behind it.
struct What(&'static str, &'static str);

/// The options that say how lines are taken.
pub const TRIM: &str = "--trim";
/// See [`TRIM`].
pub const AS_IS: &str = "--as-is";

/// How the lines of texts are to be taken.
pub fn read_taking(words: &Words) -> Result<Taking, Failure> {
    match (words.has(TRIM), words.has(AS_IS)) {
        (false, false) => Ok(Taking::Careful),
        (true, false) => Ok(Taking::Trimmed),
        (false, true) => Ok(Taking::AsIs),
        (true, true) => Err(Failure::usage("give --trim or --as-is, not both")),
    }
}

/// A text of names that was read.
#[derive(Debug)]
pub struct Text {
    /// What messages call it.
    pub source: String,
    /// Its names, rising for their kind of book, each once, where it stands first.
    pub lines: Vec<Line>,
}

impl Text {
    /// Reads a file, or standard input, as names for this kind of book, tells of
    /// doubles and of what looks wrong, and refuses bad lines.
    pub fn read(
        kind: BookKind,
        taking: Taking,
        input: &OsStr,
        streams: &mut Streams,
    ) -> Result<Text, Failure> {
        let source = files::input_name(input);
        let bytes = files::read(input, LONGEST_FILE + 1)?;
        if bytes.len() as u64 > LONGEST_FILE {
            let text = format!("{source} has more than 64 MiB, too much for a list of names");
            return Err(Failure::refused(text));
        }
        refuse_utf16(&bytes, &source)?;
        let names = names::parse(kind, taking, &bytes);
        tell(&names, taking, &source, streams);
        match names.bad.len() + names.control.len() {
            0 => Ok(Text {
                source,
                lines: names.rising,
            }),
            bad => Err(bad_lines(bad, &source, "nothing is written")),
        }
    }

    /// Its names.
    pub fn names(&self) -> Vec<Vec<u8>> {
        self.lines.iter().map(|line| line.name.clone()).collect()
    }
}

/// Refuses a text that looks like UTF-16.
pub fn refuse_utf16(bytes: &[u8], source: &str) -> Result<(), Failure> {
    if names::is_utf16(bytes) {
        let text = format!("{source} is UTF-16; save it as UTF-8 and try again");
        return Err(Failure::refused(text));
    }
    Ok(())
}

/// What was read from the lines of a text that has no names, or a refusal where a
/// line is bad, and what does not happen then. The bad ones are named first.
pub fn refuse_bad<T>(
    lines: impl Iterator<Item = Result<T, Bad>>,
    source: &str,
    outcome: &str,
    streams: &mut Streams,
) -> Result<Vec<T>, Failure> {
    let (mut read, mut bad) = (Vec::new(), Vec::new());
    for line in lines {
        match line {
            Ok(item) => read.push(item),
            Err(line) => bad.push(line),
        }
    }
    if bad.is_empty() {
        return Ok(read);
    }
    tell_bad(&bad, MOST_TOLD, What("bad line", ""), source, streams);
    Err(bad_lines(bad.len(), source, outcome))
}

/// So many bad lines, and what does not happen for them.
fn bad_lines(bad: usize, source: &str, outcome: &str) -> Failure {
    let lines = counted(bad, "bad line");
    let which = if bad == 1 { "it" } else { "them" };
    Failure::refused(format!(
        "{source}: {lines}, so {outcome}; mend {which} and try again"
    ))
}

/// Tells all that is to be told of the lines of a text.
fn tell(names: &Names, taking: Taking, source: &str, streams: &mut Streams) {
    tell_bad(&names.bad, MOST_TOLD, What("bad line", ""), source, streams);
    let control = What("line", " with control characters");
    tell_bad(&names.control, MOST_LOOKS, control, source, streams);
    tell_doubles(&names.doubles, source, streams);
    if taking != Taking::AsIs {
        tell_blanks(&names.rising, source, streams);
        let alike = looks::alike(&names.rising);
        tell_alike(&alike, source, None, streams);
    }
}

/// Names the bad lines.
fn tell_bad(bad: &[Bad], most: usize, what: What, source: &str, streams: &mut Streams) {
    for line in bad.iter().take(most) {
        let number = grouped(line.number);
        streams.note(&format!("{source}, line {number}: {}", line.why));
    }
    tell_rest(bad.len(), most, what, source, streams);
}

/// Names the doubles, and says how many there are.
fn tell_doubles(doubles: &[Double], source: &str, streams: &mut Streams) {
    for double in doubles.iter().take(MOST_TOLD) {
        let Double { line, first } = double;
        let [number, before] = [line.number, first.number].map(grouped);
        let name = named(&line.name);
        let spelt = match first.name == line.name {
            true => String::new(),
            false => format!(" {}", named(&first.name)),
        };
        streams.note(&format!(
            "{source}, line {number}: {name} again, as{spelt} in line {before}; dropped"
        ));
    }
    tell_rest(
        doubles.len(),
        MOST_TOLD,
        What("double", ""),
        source,
        streams,
    );
    if !doubles.is_empty() {
        let count = counted(doubles.len(), "double");
        streams.note(&format!("{source}: {count} dropped"));
    }
}

/// Names the lines with blanks that cannot be seen: first those that have something
/// else, too.
fn tell_blanks(lines: &[Line], source: &str, streams: &mut Streams) {
    let found = lines
        .iter()
        .filter_map(|line| Some((line, Blanks::of(&line.name)?)));
    let mut found: Vec<(&Line, Blanks)> = found.collect();
    found.sort_by_key(|(line, _)| line.number);
    let (only, ends): (Vec<_>, Vec<_>) = found
        .into_iter()
        .partition(|(_, blanks)| *blanks == Blanks::Only);
    let names = What("name", " with blanks at an end");
    for (found, what) in [(ends, names), (only, What("line", " of blanks"))] {
        for (line, blanks) in found.iter().take(MOST_LOOKS) {
            let (number, name) = (grouped(line.number), quoted(&line.name));
            let has = in_words(*blanks);
            streams.note(&format!("{source}, line {number}: {name} {has}"));
        }
        tell_rest(found.len(), MOST_LOOKS, what, source, streams);
    }
}

/// What is said of a name with such blanks.
fn in_words(blanks: Blanks) -> &'static str {
    match blanks {
        Blanks::Before => "has blanks before it; --trim takes them off",
        Blanks::Behind => "has blanks behind it; --trim takes them off",
        Blanks::Around => "has blanks before and behind it; --trim takes them off",
        Blanks::Only => "is a name of blanks alone; --trim leaves it out",
    }
}

/// Names those that look alike, with both lines; where the first of the two is in
/// another text, that is named.
fn tell_alike(alike: &[Alike], source: &str, other: Option<&str>, streams: &mut Streams) {
    for found in alike.iter().take(MOST_LOOKS) {
        let [number, first] = [found.line.number, found.first.number].map(grouped);
        let place = match other {
            Some(other) => format!("{other}, line {first}"),
            None => format!("line {first}"),
        };
        let [name, before] = [&found.line.name, &found.first.name].map(|name| quoted(name));
        let difference = found.difference();
        streams.note(&format!(
            "{source}, line {number}: {name} looks like {before} in {place}; \
             they differ in {difference}"
        ));
    }
    tell_rest(
        alike.len(),
        MOST_LOOKS,
        What("look-alike", ""),
        source,
        streams,
    );
}

/// Names those of a second text that look like one of a first.
pub fn tell_alike_across([first, second]: &[Text; 2], streams: &mut Streams) {
    let alike = looks::alike_across(&first.lines, &second.lines);
    tell_alike(&alike, &second.source, Some(&first.source), streams);
}

/// Says how many more there are than were told.
fn tell_rest(count: usize, told: usize, what: What, source: &str, streams: &mut Streams) {
    if count > told {
        let What(noun, behind) = what;
        let more = counted(count - told, &format!("more {noun}"));
        streams.note(&format!("{source}: and {more}{behind}"));
    }
}

/// More names than a book can have. What has them is told by a subject and its
/// verb: `stops.txt has`.
pub fn too_many(who_has: &str, names: usize) -> Failure {
    let over = names.saturating_sub(MOST_NAMES);
    let [names, most, over] = [names, MOST_NAMES, over].map(grouped);
    Failure::refused(format!(
        "{who_has} {names} names, and {most} are the most: {over} too many; \
         take some out or make two books"
    ))
}
