//! Tells the most stack that any input can cost each exported call.
//!
//! `bound ARCHIVE HEADER` reads the frames from the archive, prints for each call
//! the deepest way and for each function its frame, and holds the numbers of
//! `mistrogu.h` to that. Where a call can take more than the header says, or where
//! the code is not understood, it says so, and the exit status is 1.

use bound::function::{functions, Function};
use bound::page::{Call, GUESTS};
use bound::way::Ways;
use bound::{dump, header, object, page};
use std::path::Path;
use std::process::ExitCode;
use std::{env, fs};

/// How the names of the calls begin.
const CALLS: [&str; 3] = ["book_", "list_", "announce_"];

fn main() -> ExitCode {
    let words: Vec<String> = env::args().skip(1).collect();
    match run(&words) {
        Ok(()) => ExitCode::SUCCESS,
        Err(message) => {
            eprintln!("bound: {message}");
            ExitCode::FAILURE
        }
    }
}

/// Prints the tables and holds the header to them.
fn run(words: &[String]) -> Result<(), String> {
    let [archive, header] = words else {
        return Err("bound ARCHIVE HEADER".to_string());
    };
    let objects = object::read(&dump::dump(Path::new(archive))?)?;
    let functions = functions(&objects)?;
    let ways = Ways::of(&functions)?;
    let calls = calls(&functions, &ways);
    print!("{}", page::page(&calls, &ways.cycles(), &functions));
    let bounds = calls.iter().map(|(name, way, _)| (*name, way.bytes));
    let bounds: Vec<header::Bound> = bounds.collect();
    let text = fs::read_to_string(header).map_err(|error| format!("{header}: {error}"))?;
    header::hold(&text, &bounds)
}

/// The deepest way of each exported call, and what fits each guest, by name.
fn calls<'a>(functions: &'a [Function], ways: &Ways) -> Vec<Call<'a>> {
    let numbered = functions.iter().enumerate();
    let is_call = |name: &str| CALLS.iter().any(|begins| name.starts_with(begins));
    let calls = numbered.filter(|(_, function)| function.is_exported && is_call(&function.name));
    let call = |(number, function): (usize, &'a Function)| {
        let fits = GUESTS.map(|kib| ways.fit(number, 1024 * kib));
        (&*function.name, ways.deepest(number), fits)
    };
    let mut calls: Vec<Call> = calls.map(call).collect();
    calls.sort_unstable_by_key(|call| call.0);
    calls
}
