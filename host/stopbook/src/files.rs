//! Files, with `-` for standard input and standard output.
//!
//! What is written takes the place of an old file only once all of it is there:
//! it is written beside the old one and renamed. Where that fails the old file
//! is as it was, and nothing is left beside it.

use crate::outcome::{Failure, Streams};
use crate::text::shown_os;
use std::ffi::{OsStr, OsString};
use std::fs::{self, File, Metadata, OpenOptions};
use std::io::{self, IsTerminal, Read, Write};
use std::os::unix::ffi::OsStrExt;
use std::os::unix::fs::{fchown, MetadataExt, OpenOptionsExt};
use std::path::{Path, PathBuf};
use std::process;

/// So many links are followed from one to the next, as systems do.
const MOST_LINKS: usize = 40;
/// So many bytes of a file's name go into the name of the one beside it, so that
/// the longer name is none too long.
const MOST_OF_NAME: usize = 200;
/// So many names are tried for the file beside another: one may be left of a program
/// that was killed.
const MOST_ATTEMPTS: usize = 100;
/// Folders whose files are open already, such as standard output by its path.
const OPEN_FILES: [&str; 2] = ["/proc", "/dev/fd"];

/// Whether this word means standard input or standard output.
pub fn is_standard(path: &OsStr) -> bool {
    path == "-"
}

/// What messages call the file that is read.
pub fn input_name(path: &OsStr) -> String {
    if is_standard(path) {
        return "standard input".to_string();
    }
    shown_os(path)
}

/// What messages call the file that is written.
pub fn output_name(path: &OsStr) -> String {
    if is_standard(path) {
        return "standard output".to_string();
    }
    shown_os(path)
}

/// Reads a file, or standard input, but no more than so many bytes.
pub fn read(path: &OsStr, most: u64) -> Result<Vec<u8>, Failure> {
    let mut bytes = Vec::new();
    let result = if is_standard(path) {
        io::stdin().lock().take(most).read_to_end(&mut bytes)
    } else {
        File::open(path).and_then(|file| file.take(most).read_to_end(&mut bytes))
    };
    match result {
        Ok(_) => Ok(bytes),
        Err(error) => Err(cannot(&input_name(path), "be read", &error)),
    }
}

/// Writes a file, or standard output.
pub fn write(path: &OsStr, bytes: &[u8], streams: &mut Streams) -> Result<(), Failure> {
    if is_standard(path) {
        streams.out.write_all(bytes)?;
        return Ok(streams.out.flush()?);
    }
    put(Path::new(path), bytes).map_err(|error| cannot(&output_name(path), "be written", &error))
}

/// Writes to what a path names. A regular file is replaced or made; a device, a
/// pipe and a file that is open already are written to directly.
fn put(path: &Path, bytes: &[u8]) -> io::Result<()> {
    let target = behind_links(path)?;
    match fs::metadata(&target) {
        Ok(old) if !old.is_file() || is_open_file(&target) => fs::write(&target, bytes),
        Ok(old) => {
            // A file that may not be written to is not replaced either.
            OpenOptions::new().write(true).open(&target)?;
            replace(&target, bytes, Some(&old))
        }
        Err(error) if error.kind() == io::ErrorKind::NotFound => replace(&target, bytes, None),
        Err(error) => Err(error),
    }
}

/// Where a path leads: to itself, or where it is a link, to what that points to,
/// be it there or not. A file that is open already is not looked behind.
fn behind_links(path: &Path) -> io::Result<PathBuf> {
    let mut path = path.to_path_buf();
    for _ in 0..MOST_LINKS {
        match fs::read_link(&path) {
            Ok(next) if !is_open_file(&path) => path = folder(&path).join(next),
            _ => return Ok(path),
        }
    }
    Err(io::Error::other("too many links"))
}

/// Whether a path names a file that is open already.
fn is_open_file(path: &Path) -> bool {
    let folder = fs::canonicalize(folder(path));
    folder.is_ok_and(|folder| OPEN_FILES.iter().any(|open| folder.starts_with(open)))
}

/// The folder that a file is in.
fn folder(path: &Path) -> &Path {
    match path.parent() {
        Some(folder) if !folder.as_os_str().is_empty() => folder,
        _ => Path::new("."),
    }
}

/// Writes a file beside this one and renames it, so that at each moment either the
/// old bytes are there or the new ones.
fn replace(target: &Path, bytes: &[u8], old: Option<&Metadata>) -> io::Result<()> {
    let (mut file, beside) = make_beside(target, old)?;
    let written = fill(&mut file, bytes, old).and_then(|()| fs::rename(&beside, target));
    if written.is_err() {
        // The reason why it was not written is told; nothing else can be done.
        let _ = fs::remove_file(&beside);
    }
    written
}

/// A new file beside this one, and its path. Where there is an old file, nobody
/// else may read the new one until it has the old one's permissions.
fn make_beside(target: &Path, old: Option<&Metadata>) -> io::Result<(File, PathBuf)> {
    let mut options = OpenOptions::new();
    let mode = if old.is_some() { 0o600 } else { 0o666 };
    options.write(true).create_new(true).mode(mode);
    for attempt in 0..MOST_ATTEMPTS {
        let beside = folder(target).join(name_beside(target, attempt)?);
        match options.open(&beside) {
            Ok(file) => return Ok((file, beside)),
            Err(error) if error.kind() == io::ErrorKind::AlreadyExists => {}
            Err(error) => {
                let text = format!("no file can be made in its folder: {error}");
                return Err(io::Error::new(error.kind(), text));
            }
        }
    }
    Err(io::Error::other(
        "its folder has too many files of the like",
    ))
}

/// The name of the file beside this one, at some attempt: its own, and a suffix that
/// no other running program has.
fn name_beside(target: &Path, attempt: usize) -> io::Result<OsString> {
    let name = target.file_name().ok_or(io::ErrorKind::NotFound)?;
    let bytes = name.as_bytes();
    let mut name = OsStr::from_bytes(&bytes[..bytes.len().min(MOST_OF_NAME)]).to_os_string();
    name.push(format!(".new-{}-{attempt}", process::id()));
    Ok(name)
}

/// Writes all bytes to the storage, in a file with the owner, where that may be
/// given, and the permissions of the old one.
fn fill(file: &mut File, bytes: &[u8], old: Option<&Metadata>) -> io::Result<()> {
    if let Some(old) = old {
        let _ = fchown(&*file, Some(old.uid()), Some(old.gid()));
        file.set_permissions(old.permissions())?;
    }
    file.write_all(bytes)?;
    file.sync_all()
}

/// Refuses to write bytes that are no text to a terminal.
pub fn spare_terminal(path: &OsStr) -> Result<(), Failure> {
    if is_standard(path) && io::stdout().is_terminal() {
        let text = "a book is no text for a terminal; give a file with -o FILE";
        return Err(Failure::usage(text));
    }
    Ok(())
}

/// Refuses to write over the file that is read.
pub fn spare_input(input: &OsStr, output: &OsStr) -> Result<(), Failure> {
    if is_standard(input) || is_standard(output) {
        return Ok(());
    }
    match (fs::canonicalize(input), fs::canonicalize(output)) {
        (Ok(one), Ok(other)) if one == other => {
            let name = output_name(output);
            let text = format!("{name} is read and would be written over; give another file");
            Err(Failure::usage(text))
        }
        _ => Ok(()),
    }
}

/// A file that cannot be used.
fn cannot(name: &str, what: &str, error: &io::Error) -> Failure {
    Failure::File(format!("{name} cannot {what}: {error}"))
}

#[cfg(test)]
mod tests {
    use super::*;

    #[test]
    fn a_dash_is_called_by_what_it_is() {
        assert_eq!(input_name(OsStr::new("-")), "standard input");
        assert_eq!(output_name(OsStr::new("-")), "standard output");
        assert_eq!(input_name(OsStr::new("a.txt")), "a.txt");
    }

    #[test]
    fn the_file_beside_has_the_name_and_a_suffix_and_is_not_too_long() {
        let beside = name_beside(Path::new("a/stops.book"), 0).unwrap();
        assert!(beside.as_bytes().starts_with(b"stops.book.new-"));
        let longest = "x".repeat(255);
        let beside = name_beside(Path::new(&longest), MOST_ATTEMPTS - 1).unwrap();
        assert!(beside.len() <= 255, "{}", beside.len());
        assert!(name_beside(Path::new(".."), 0).is_err());
        assert!(name_beside(Path::new(""), 0).is_err());
    }

    #[test]
    fn a_file_without_a_folder_is_in_this_one() {
        assert_eq!(folder(Path::new("stops.book")), Path::new("."));
        assert_eq!(folder(Path::new("a/stops.book")), Path::new("a"));
        assert_eq!(folder(Path::new("/stops.book")), Path::new("/"));
    }

    #[test]
    fn a_missing_file_is_named() {
        match read(OsStr::new("no such file"), 10) {
            Err(Failure::File(text)) => assert!(text.starts_with("no such file cannot be read:")),
            other => panic!("{other:?}"),
        }
    }
}
