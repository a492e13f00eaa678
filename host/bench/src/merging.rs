//! `list_merge`, `list_judge` and `list_head`, of the lists in two files; and a
//! list parted into two, to merge them again.

use crate::{read_file, read_number, Given, Ready};
use model::names::read_names;
use model::{list_head, list_judge, list_merge, write_list, Rule};
use std::fs;
use vectors::lists::Names;

/// Makes `list_merge` ready from two files' names, with a room for both lists.
pub fn merge(words: &[String]) -> Result<Ready, String> {
    let [first, second] = read_lists(words)?;
    let mut room = vec![0; first.len() + second.len()];
    let expected = list_merge(&first, &second, &mut room);
    Ok(Ready::new(
        move || measured_merge(&first, &second, &mut room),
        expected,
    ))
}

/// Makes `list_judge` ready from two files' names.
pub fn judge(words: &[String]) -> Result<Ready, String> {
    let [first, second] = read_lists(words)?;
    let expected = list_judge(&first, &second);
    Ok(Ready::new(
        move || measured_judge(&first, &second),
        expected,
    ))
}

/// Makes `list_head` ready from two files' names and how many records of each
/// are passed. List, start and length of the head stand for the three numbers
/// of an answer.
pub fn step(words: &[String]) -> Result<Ready, String> {
    let [files @ .., passed_first, passed_second] = words else {
        return Err("step needs the names of two list files and two numbers".to_string());
    };
    let [first, second] = read_lists(files)?;
    let (passed_first, passed_second) = (read_number(passed_first)?, read_number(passed_second)?);
    let expected = list_head(&first, &second, passed_first, passed_second);
    let expected = Given::Answer([expected.list, expected.start, expected.length]);
    Ok(Ready::new(
        move || {
            let head = measured_step(&first, &second, passed_first, passed_second);
            Given::Answer([head.list, head.start, head.length])
        },
        expected,
    ))
}

/// The lists in two files.
fn read_lists(files: &[String]) -> Result<[Vec<u8>; 2], String> {
    match files {
        [first, second] => Ok([read_file(first)?, read_file(second)?]),
        _ => Err("two lists need the names of two list files".to_string()),
    }
}

/// Writes the records of a list to two files: those with odd numbers to the
/// first, those with even numbers, counted from 0, to the second.
pub fn split(words: &[String]) -> Result<String, String> {
    let [file, odd, even] = words else {
        return Err("split needs the names of a list file and of two new ones".to_string());
    };
    let list = read_file(file)?;
    let names = read_names(Rule::Plain, &list, usize::MAX);
    let names =
        names.map_err(|(code, record)| format!("{file}: record {record}: refusal {code}"))?;
    let mut lines = Vec::new();
    for (path, first) in [(odd, 1), (even, 0)] {
        let part = every_second(&names, first);
        fs::write(path, write_list(&part)).map_err(|error| format!("{path}: {error}"))?;
        lines.push(format!("{path}: {} names", part.len()));
    }
    Ok(lines.join("\n"))
}

/// Every second name, from this one on.
fn every_second(names: &Names, first: usize) -> Names {
    names.iter().skip(first).step_by(2).cloned().collect()
}

/// The call that is measured, and nothing else.
#[inline(never)]
fn measured_merge(first: &[u8], second: &[u8], room: &mut [u8]) -> proved::Answer {
    proved::list_merge(first, second, room)
}

/// The same for `list_judge`.
#[inline(never)]
fn measured_judge(first: &[u8], second: &[u8]) -> proved::Answer {
    proved::list_judge(first, second)
}

/// The same for `list_head`.
#[inline(never)]
fn measured_step(
    first: &[u8],
    second: &[u8],
    passed_first: usize,
    passed_second: usize,
) -> proved::Head {
    proved::list_head(first, second, passed_first, passed_second)
}

#[cfg(test)]
mod tests {
    use super::every_second;
    use model::{list_merge, write_list};
    use vectors::lists;

    #[test]
    fn a_parted_list_is_merged_again() {
        let names = lists::example();
        let [odd, even] = [1, 0].map(|first| write_list(&every_second(&names, first)));
        assert_eq!(odd, b"\x06Marina");
        assert_eq!(even, b"\x03Mar\x0DMarket Square");
        let mut room = [0; 25];
        assert_eq!(list_merge(&odd, &even, &mut room).code, 0);
        assert_eq!(room[..], write_list(&names));
    }
}
