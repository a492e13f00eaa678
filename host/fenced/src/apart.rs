//! A test in a process of its own, which a fence may end.
//!
//! The test runs itself again: the program at hand is started anew with the
//! test's name and a word, and there the test sees the [`word`] and does what
//! it is for. The first process looks how the second one ended, and what it
//! said last.

use std::env;
use std::process::{Command, Output};

/// The variable that holds the word.
const VARIABLE: &str = "FENCED_APART";

/// Runs the test of this name, of the test program at hand, in a process of its
/// own, with a word that it can see there.
pub fn run_test(name: &str, word: &str) -> Output {
    let program = env::current_exe().expect("a test program knows its own path");
    let mut command = Command::new(program);
    command.args([name, "--exact", "--nocapture"]);
    command.env(VARIABLE, word);
    command.output().expect("a test program can be started")
}

/// The word for this process, where it is one for a single test.
pub fn word() -> Option<String> {
    env::var(VARIABLE).ok()
}

/// The last lines that the process wrote to standard error, where it tells of
/// what it is about to do.
pub fn last_lines(output: &Output) -> String {
    let said = String::from_utf8_lossy(&output.stderr);
    let lines: Vec<&str> = said.lines().collect();
    lines[lines.len().saturating_sub(4)..].join("\n")
}
