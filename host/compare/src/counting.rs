//! Instructions, counted by valgrind's callgrind.
//!
//! The program runs itself under callgrind. Only what is inside of
//! [`measured_call`] is counted, and a profile is written at the end of each.

use crate::items::Item;
use crate::{Call, Numbers};
use compare::steps::Step;
use std::collections::BTreeMap;
use std::env;
use std::fs;
use std::hint::black_box;
use std::path::Path;
use std::process::{Command, Stdio};

/// The word that makes the program run every call once.
pub const INNER: &str = "--calls";

/// The function to look for.
const PATTERN: &str = "measured_call";

/// The call that is measured, and nothing else.
#[no_mangle]
#[inline(never)]
fn measured_call(call: &mut dyn Call, turn: usize) -> Numbers {
    // What is done with the answer keeps this from ending in a jump.
    black_box(call.make(black_box(turn)))
}

/// Makes every call with each of its inputs, after one that is not counted.
pub fn make_all(items: &mut [Item]) -> Result<(), String> {
    for item in items {
        item.call.make(0);
        for turn in 0..item.call.turns() {
            let numbers = measured_call(&mut *item.call, turn);
            if !item.call.is_right(turn, numbers) {
                let (subject, step) = (item.subject, item.step);
                return Err(format!(
                    "WRONG: subject {subject}, {step:?}, input {turn}: {numbers:?}"
                ));
            }
        }
    }
    Ok(())
}

/// Runs this program under callgrind, with these words about peers and with
/// this folder for its profiles, and gives the instructions of every call.
pub fn count(
    items: &[Item],
    peers: &[String],
    work: &Path,
) -> Result<BTreeMap<(usize, Step), Vec<u64>>, String> {
    let profile = work.join("profile");
    let program = env::current_exe().map_err(|error| error.to_string())?;
    let mut valgrind = callgrind(&profile);
    valgrind
        .arg(format!("--toggle-collect={PATTERN}"))
        .arg(format!("--dump-after={PATTERN}"))
        .arg(program)
        .arg(INNER)
        .args(peers);
    run(valgrind)?;
    let mut number = 0;
    let mut counts = BTreeMap::new();
    for item in items {
        let mut of_item = Vec::new();
        for _ in 0..item.call.turns() {
            number += 1;
            of_item.push(total(&profile.with_extension(number.to_string()))?);
        }
        counts.insert((item.subject, item.step), of_item);
    }
    Ok(counts)
}

/// The instructions of another program with its words, from its start to its
/// end; what it prints is dropped.
pub fn count_program(command: &Command, profile: &Path) -> Result<u64, String> {
    let mut valgrind = callgrind(profile);
    valgrind
        .arg(command.get_program())
        .args(command.get_args())
        .stdout(Stdio::null());
    for (name, value) in command.get_envs() {
        valgrind.env(name, value.unwrap_or_default());
    }
    run(valgrind)?;
    total(profile)
}

/// Callgrind, which writes to this profile; what it runs is put behind.
fn callgrind(profile: &Path) -> Command {
    let mut valgrind = Command::new("valgrind");
    valgrind
        .args(["--quiet", "--tool=callgrind"])
        .arg(format!("--callgrind-out-file={}", profile.display()));
    valgrind
}

/// Runs callgrind.
fn run(mut valgrind: Command) -> Result<(), String> {
    let status = valgrind.status();
    let status = status.map_err(|error| format!("valgrind: {error}"))?;
    if !status.success() {
        return Err("the calls failed under valgrind".to_string());
    }
    Ok(())
}

/// The total of a profile.
fn total(profile: &Path) -> Result<u64, String> {
    let text = fs::read_to_string(profile).map_err(|error| format!("{profile:?}: {error}"))?;
    let mut lines = text.lines();
    let total = lines.find_map(|line| line.strip_prefix("totals: ")?.trim().parse().ok());
    total
        .filter(|&total| total > 0)
        .ok_or_else(|| format!("{profile:?}: the call is not in the profile"))
}
