//! Writes test vectors, says what they are for, and writes lists, books and what
//! only looks like a book, to measure with.

use model::BookKind;
use std::path::Path;
use std::process::ExitCode;
use std::{env, fs, io};
use vectors::hostile;
use vectors::lists::{self, Names};
use vectors::sets::Files;
use vectors::spelling::by_turns;
use vectors::worst;
use vectors::{SETS, TESTED_SETS};

const USAGE: &str = "\
vectors SET FOLDER       write FOLDER/SET.cases and FOLDER/SET.expected
vectors purposes SET     say what each case of the set is for
vectors lists FOLDER     write lists to measure with, as FOLDER/NAME.list; those for folded books as NAME-folded.list, and with
                         capitals and small letters by turns as NAME-turns.list
vectors books FOLDER K   write their books with that block size, as FOLDER/NAME.book and so on
vectors hostile FOLDER   write the largest books that are none by their nodes, as FOLDER/KIND.book
vectors worst FOLDER     write the dearest that were found, as FOLDER/NAME.list, .book and, with its question in hex, .question
The sets are:";

fn main() -> ExitCode {
    let words: Vec<String> = env::args().skip(1).collect();
    let words: Vec<&str> = words.iter().map(String::as_str).collect();
    let done = match words[..] {
        ["lists", folder] => write_lists(Path::new(folder)),
        ["books", folder, block] => write_books(Path::new(folder), block),
        ["hostile", folder] => write_hostile(Path::new(folder)),
        ["worst", folder] => write_worst(Path::new(folder)),
        ["purposes", name] => with_set(name, |set| {
            print!("{}", set.purposes());
            Ok(())
        }),
        [name, folder] => with_set(name, |set| write_set(set, Path::new(folder))),
        _ => Err(usage()),
    };
    match done {
        Ok(()) => ExitCode::SUCCESS,
        Err(message) => {
            eprintln!("{message}");
            ExitCode::FAILURE
        }
    }
}

/// What can be asked of this program.
fn usage() -> String {
    let names: Vec<&str> = all_sets().map(|set| set.name()).collect();
    format!("{USAGE} {}", names.join(", "))
}

/// Every set there is.
fn all_sets() -> impl Iterator<Item = &'static dyn Files> {
    SETS.into_iter().chain(TESTED_SETS)
}

/// Does something with the set of this name.
fn with_set(name: &str, act: impl Fn(&dyn Files) -> io::Result<()>) -> Result<(), String> {
    match all_sets().find(|set| set.name() == name) {
        None => Err(usage()),
        Some(set) => act(set).map_err(|error| format!("{name}: {error}")),
    }
}

/// Writes the two files of a set and says how large they are.
fn write_set(set: &dyn Files, folder: &Path) -> io::Result<()> {
    let (name, cases, expected) = (set.name(), set.case_file(), set.expected());
    fs::create_dir_all(folder)?;
    fs::write(folder.join(format!("{name}.cases")), &cases)?;
    fs::write(folder.join(format!("{name}.expected")), &expected)?;
    let (lines, bytes) = (expected.lines().count(), cases.len());
    println!("{name}: {lines} cases, {bytes} bytes");
    Ok(())
}

/// Lists of the shapes that cost most, and the worked example.
fn shapes() -> [(&'static str, Names); 7] {
    [
        ("example", lists::example()),
        ("stops", lists::stops()),
        ("chain", lists::chain(b'a', 200)),
        ("mirror", lists::mirror(b'a', b'b', 200)),
        ("pairs", lists::pairs(2000)),
        ("binary", lists::binary(lists::MOST_BINARY)),
        ("long", lists::long(300)),
    ]
}

/// Each of these lists for a plain book, for a folded one, and for a folded one in
/// which neighbours share no byte.
fn shapes_of_both_kinds() -> Vec<(String, BookKind, Names)> {
    let mut lists = Vec::new();
    for (name, names) in shapes() {
        let folded = lists::sorted_for(BookKind::Folded, names.clone());
        let turns = by_turns(&folded);
        lists.push((name.to_string(), BookKind::Plain, names));
        lists.push((format!("{name}-folded"), BookKind::Folded, folded));
        lists.push((format!("{name}-turns"), BookKind::Folded, turns));
    }
    lists
}

/// Writes the lists.
fn write_lists(folder: &Path) -> Result<(), String> {
    for (name, _, names) in shapes_of_both_kinds() {
        write_file(folder, &format!("{name}.list"), &model::write_list(&names))?;
    }
    Ok(())
}

/// Writes the books of the lists with this block size.
fn write_books(folder: &Path, block: &str) -> Result<(), String> {
    let block = block.parse().map_err(|error| format!("{block}: {error}"))?;
    for (name, kind, names) in shapes_of_both_kinds() {
        let book = model::book_of(kind, block, &names);
        write_file(folder, &format!("{name}.book"), &book)?;
    }
    Ok(())
}

/// Writes the largest hostile book of each kind.
fn write_hostile(folder: &Path) -> Result<(), String> {
    for kind in hostile::kinds() {
        let name = format!("{}.book", kind.how.replace(' ', "-"));
        write_file(folder, &name, &kind.largest().bytes())?;
    }
    Ok(())
}

/// Writes the lists and questions that cost most.
fn write_worst(folder: &Path) -> Result<(), String> {
    for (name, worst) in [
        ("dearest-check", worst::dearest_check()),
        ("dearest-question", worst::dearest_question()),
        ("dearest-folded-check", worst::dearest_folded_check()),
    ] {
        let digits = worst.question.iter().map(|byte| format!("{byte:02X}"));
        let question = format!("hex:{}\n", digits.collect::<String>());
        write_file(
            folder,
            &format!("{name}.list"),
            &model::write_list(&worst.names),
        )?;
        write_file(folder, &format!("{name}.book"), &worst.book())?;
        write_file(folder, &format!("{name}.question"), question.as_bytes())?;
    }
    Ok(())
}

/// Writes one file, and its folder where it is not there.
fn write_file(folder: &Path, name: &str, bytes: &[u8]) -> Result<(), String> {
    let path = folder.join(name);
    fs::create_dir_all(folder)
        .and_then(|()| fs::write(&path, bytes))
        .map_err(|error| format!("{}: {error}", path.display()))
}
