//! objdump, asked for what is in the archive.

use crate::object::FORMAT;
use std::env;
use std::path::Path;
use std::process::Command;

/// The variable that names another program to ask.
const VARIABLE: &str = "OBJDUMP";

/// The programs that are tried without it. The first may know no processor but
/// the one that it runs on.
const PROGRAMS: [&str; 3] = ["objdump", "x86_64-linux-gnu-objdump", "llvm-objdump"];

/// All symbols, the code of all sections, with relocations and with zeros, and
/// without the bytes of the instructions.
const WORDS: [&str; 5] = ["-t", "-d", "-r", "-z", "--no-show-raw-insn"];

/// What the first program prints of the archive that can read it.
pub fn dump(archive: &Path) -> Result<String, String> {
    if !archive.is_file() {
        return Err(format!("{}: there is no such file", archive.display()));
    }
    let own = env::var(VARIABLE).ok();
    let programs = own.as_deref().map_or(PROGRAMS.to_vec(), |own| vec![own]);
    let mut reasons = Vec::new();
    for program in programs {
        match ask(program, archive) {
            Ok(text) => return Ok(text),
            Err(why) => reasons.push(format!("{program}: {why}")),
        }
    }
    Err(format!(
        "no objdump reads {FORMAT} here, and one is needed: that of binutils or of LLVM \
         ({VARIABLE} can name it)\n  {}",
        reasons.join("\n  ")
    ))
}

/// What this program prints of the archive.
fn ask(program: &str, archive: &Path) -> Result<String, String> {
    let output = Command::new(program)
        .args(WORDS)
        .arg(archive)
        .env("LC_ALL", "C")
        .output()
        .map_err(|error| error.to_string())?;
    let text = String::from_utf8(output.stdout).map_err(|error| error.to_string())?;
    if !output.status.success() || !text.contains(FORMAT) {
        let errors = String::from_utf8_lossy(&output.stderr);
        let first = errors.lines().find(|line| !line.trim().is_empty());
        return Err(first
            .unwrap_or("it says nothing of the archive")
            .to_string());
    }
    Ok(text)
}
