//! Links the archive that the variable MISTROGU_ARCHIVE names.
//!
//! Where there is no such archive, or where it is for another processor or lacks a
//! call, the build ends here with one sentence that says what to do. So no program
//! over this crate gets as far as a linker that misses what it wants.

use std::env;
use std::fs;
use std::path::{Path, PathBuf};

const VARIABLE: &str = "MISTROGU_ARCHIVE";

/// The declarations of the calls.
const CALLS: &str = include_str!("src/raw.rs");

/// How an archive begins.
const MAGIC: &[u8] = b"!<arch>\n";
/// The bytes of the head of an archive's member, of which ten from 48 on are the
/// member's size in decimal digits.
const MEMBER: usize = 60;

fn main() {
    println!("cargo::rerun-if-env-changed={VARIABLE}");
    println!("cargo::rerun-if-changed=build.rs");
    match archive().and_then(|archive| link(&archive)) {
        Ok(()) => {}
        Err(sentence) => println!("cargo::error={sentence}"),
    }
}

/// The line that makes an archive for the machine at hand and names it.
fn line() -> String {
    let crate_folder = env::var_os("CARGO_MANIFEST_DIR").unwrap_or_default();
    let script = PathBuf::from(crate_folder).with_file_name("archive.sh");
    format!("`export {VARIABLE}=$({})`", script.display())
}

/// The archive that the variable names.
fn archive() -> Result<PathBuf, String> {
    let named = env::var_os(VARIABLE).filter(|named| !named.is_empty());
    let Some(named) = named else {
        return Err(format!(
            "{VARIABLE} does not say which archive to link: run {}, or name one in .cargo/config.toml",
            line()
        ));
    };
    let archive = PathBuf::from(named);
    let shown = archive.display();
    if !archive.is_absolute() {
        return Err(format!(
            "{VARIABLE} has to be a whole path, and {shown} is not"
        ));
    }
    if !archive.is_file() {
        return Err(format!(
            "{VARIABLE} names {shown}, which is not there: run {}",
            line()
        ));
    }
    Ok(archive)
}

/// Links this archive, and does so again when the file changes.
fn link(archive: &Path) -> Result<(), String> {
    let shown = archive.display();
    println!("cargo::rerun-if-changed={shown}");
    let bytes = fs::read(archive).map_err(|error| format!("{shown}: {error}"))?;
    if !bytes.starts_with(MAGIC) {
        return Err(format!("{VARIABLE} names {shown}, which is no archive"));
    }
    let wanted = env::var("CARGO_CFG_TARGET_ARCH").unwrap_or_default();
    if let Some(found) = processor(&bytes).filter(|found| *found != wanted) {
        return Err(format!(
            "{VARIABLE} names {shown}, which is for {found}, and this is compiled for {wanted}: run {}",
            line()
        ));
    }
    if let Some(call) = calls().find(|call| !has(&bytes, call)) {
        return Err(format!(
            "{VARIABLE} names {shown}, which has no {call}: run {}",
            line()
        ));
    }
    let (Some(folder), Some(name)) = (archive.parent(), library_name(archive)) else {
        return Err(format!(
            "{VARIABLE} names {shown}, and an archive has to be called libNAME.a"
        ));
    };
    println!("cargo::rustc-link-search=native={}", folder.display());
    println!("cargo::rustc-link-lib=static={name}");
    Ok(())
}

/// The names of the calls.
fn calls() -> impl Iterator<Item = &'static str> {
    let declared = CALLS.split("pub fn ").skip(1);
    declared.filter_map(|call| Some(call.split_once('(')?.0))
}

/// Whether an archive has this name among its symbols, which end with a byte of 0.
fn has(archive: &[u8], name: &str) -> bool {
    let symbols = archive.split(|&byte| byte == 0);
    symbols
        .into_iter()
        .any(|symbol| symbol.ends_with(name.as_bytes()))
}

/// What stands between `lib` and `.a`, as the compiler wants it.
fn library_name(archive: &Path) -> Option<&str> {
    let file = archive.file_name()?.to_str()?;
    file.strip_prefix("lib")?.strip_suffix(".a")
}

/// The processor that an archive's first ELF object is for, by Rust's name of it,
/// if it is one that the library is made for.
fn processor(archive: &[u8]) -> Option<&'static str> {
    let mut rest = &archive[MAGIC.len()..];
    loop {
        let size = rest.get(48..58)?;
        let size: usize = str::from_utf8(size).ok()?.trim().parse().ok()?;
        let member = rest.get(MEMBER..)?.get(..size)?;
        if member.starts_with(b"\x7FELF") {
            return match member.get(18..20)? {
                [62, 0] => Some("x86_64"),
                [183, 0] => Some("aarch64"),
                _ => None,
            };
        }
        // A member begins at an even place.
        rest = rest.get(MEMBER + size.next_multiple_of(2)..)?;
    }
}
