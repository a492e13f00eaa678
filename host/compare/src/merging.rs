//! Two lists merged, by every subject that can, and by `sort -mu`.

use crate::counting::count_program;
use crate::items::{item, of_library, of_model, of_reference, Call, Data, Item};
use crate::{answered, Numbers};
use compare::steps::{Step, LIBRARY, MODEL, REFERENCE};
use std::fs;
use std::path::Path;
use std::process::Command;

/// Merging two lists into a room for both.
struct Merging<F> {
    data: &'static Data,
    room: Vec<u8>,
    merge: F,
}

impl<F: FnMut(&[u8], &[u8], &mut [u8]) -> Numbers + Send> Call for Merging<F> {
    fn turns(&self) -> usize {
        1
    }

    fn make(&mut self, _: usize) -> Numbers {
        let [first, second] = &self.data.lists;
        (self.merge)(first, second, &mut self.room)
    }

    fn is_right(&self, _: usize, numbers: Numbers) -> bool {
        let list = &self.data.list;
        numbers == answered([0, list.len(), 0]) && self.room.starts_with(list)
    }
}

/// The merge of each subject that has one.
pub fn items(data: &'static Data) -> Vec<Item> {
    let of = |subject, merge: fn(&[u8], &[u8], &mut [u8]) -> Numbers| {
        let both = data.lists.iter().map(Vec::len).sum();
        let room = vec![0; both];
        item(subject, Step::Merge, Merging { data, room, merge })
    };
    vec![
        of(LIBRARY, |first, second, room| {
            of_library(proved::list_merge(first, second, room))
        }),
        of(REFERENCE, |first, second, room| {
            of_reference(reference::list_merge(first, second, room))
        }),
        of(MODEL, |first, second, room| {
            of_model(model::list_merge(first, second, room))
        }),
    ]
}

/// Writes the names of both lists as lines of text into this folder, lets `sort
/// -mu` merge them, and gives the instructions that it takes more than for two
/// files without lines.
pub fn count_sort(data: &Data, work: &Path) -> Result<u64, String> {
    let file = |name: &str, bytes: Vec<u8>| {
        let path = work.join(name);
        let written = fs::write(&path, bytes);
        written.map_err(|error| format!("{}: {error}", path.display()))?;
        Ok::<_, String>(path)
    };
    let [first, second] = &data.parts;
    let lists = [
        file("first.txt", lines(first))?,
        file("second.txt", lines(second))?,
    ];
    let none = file("none.txt", Vec::new())?;

    let output = sort([&lists[0], &lists[1]]).output();
    let output = output.map_err(|error| format!("sort: {error}"))?;
    if output.stdout != lines(&data.names) {
        return Err("WRONG: sort -mu merges to other lines".to_string());
    }
    let all = count_program(&sort([&lists[0], &lists[1]]), &work.join("sort"))?;
    let start = count_program(&sort([&none, &none]), &work.join("sort"))?;
    Ok(all.saturating_sub(start))
}

/// The command that merges two sorted files of lines.
fn sort(files: [&Path; 2]) -> Command {
    let mut command = Command::new("sort");
    command.arg("-mu").args(files).env("LC_ALL", "C");
    command
}

/// A line for each name.
fn lines(names: &[Vec<u8>]) -> Vec<u8> {
    let lines = names.iter().map(|name| [&name[..], b"\n"].concat());
    lines.collect::<Vec<_>>().concat()
}
