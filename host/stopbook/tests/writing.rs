//! What is written to a file takes the old one's place whole, or not at all.

mod common;

use common::{Folder, EXAMPLE};
use std::fs::{self, OpenOptions, Permissions};
use std::io::Read;
use std::os::unix::fs::{symlink, FileTypeExt, MetadataExt, PermissionsExt};
use std::os::unix::process::CommandExt;
use std::process::{Command, Output};

/// The program.
const PROGRAM: &str = env!("CARGO_BIN_EXE_stopbook");
/// A user who owns nothing.
const NOBODY: u32 = 65_534;

/// A folder with the names of document 01 and an old book.
fn with_old_book() -> Folder {
    let folder = Folder::with("mar.txt", b"Mar\nMarina\nMarket Square\n");
    folder.write("old.book", b"the old book");
    folder
}

/// A folder with 500 names, whose book has more than 4,096 bytes, and an old book.
fn with_many_names() -> Folder {
    let names: String = (0..500)
        .map(|number| format!("Stop {number:04}\n"))
        .collect();
    let folder = Folder::with("many.txt", names.as_bytes());
    folder.write("old.book", b"the old book");
    folder
}

/// The names of all files in a folder, sorted.
fn files_in(folder: &Folder) -> Vec<String> {
    let entries = fs::read_dir(folder.path()).expect("the folder is there");
    let name = |entry: fs::DirEntry| entry.file_name().into_string().expect("it is text");
    let mut names: Vec<String> = entries.map(|entry| name(entry.unwrap())).collect();
    names.sort();
    names
}

/// Runs the program in a folder, where no file may grow past a kilobyte and a write
/// that would fails.
fn run_where_files_are_small(folder: &Folder, words: &[&str]) -> Output {
    let script = "trap '' XFSZ; ulimit -f 1; exec \"$0\" \"$@\"";
    Command::new("sh")
        .args(["-c", script, PROGRAM])
        .args(words)
        .current_dir(folder.path())
        .output()
        .expect("there is a shell")
}

#[test]
fn a_write_that_fails_in_the_middle_leaves_the_old_book_whole() {
    let folder = with_many_names();
    let ran = run_where_files_are_small(&folder, &["build", "many.txt", "-o", "old.book"]);
    let said = String::from_utf8(ran.stderr).expect("notes are text");
    assert_eq!((ran.status.code(), &ran.stdout[..]), (Some(2), &b""[..]));
    assert!(
        said.starts_with("stopbook: old.book cannot be written: "),
        "{said}"
    );
    assert_eq!(folder.read("old.book"), b"the old book");
    assert_eq!(files_in(&folder), ["many.txt", "old.book"]);
    // Where no book was, none is left in half.
    let ran = run_where_files_are_small(&folder, &["build", "many.txt", "-o", "new.book"]);
    assert_eq!(ran.status.code(), Some(2));
    assert_eq!(files_in(&folder), ["many.txt", "old.book"]);
    // With room it is written.
    let ran = folder.run(&["build", "many.txt", "-o", "old.book"]);
    assert_eq!((ran.status, ran.err.as_str()), (0, ""));
    assert!(folder.read("old.book").len() > 4_096);
    assert_eq!(files_in(&folder), ["many.txt", "old.book"]);
}

/// Builds a book over an old one on a file system of two pages, which a shell mounts
/// for itself alone, and prints the exit status, the files there and the old book.
const FULL_DISK: &str = "mkdir small && mount -t tmpfs -o size=8k none small || exit 0
cp old.book small && \"$0\" build many.txt -o small/old.book
echo \"status $?\" && ls -A small && cat small/old.book";

#[test]
fn a_full_disk_leaves_the_old_book_whole() {
    let folder = with_many_names();
    let ran = Command::new("unshare")
        .args(["-Urm", "sh", "-c", FULL_DISK, PROGRAM])
        .current_dir(folder.path())
        .output();
    // Not every system lets everybody mount something: the test above does without.
    let Some(ran) = ran.ok().filter(|ran| !ran.stdout.is_empty()) else {
        return;
    };
    let out = String::from_utf8(ran.stdout).expect("it is text");
    assert_eq!(out, "status 2\nold.book\nthe old book");
    let said = String::from_utf8(ran.stderr).expect("notes are text");
    assert!(said.starts_with("stopbook: small/old.book cannot be written: "));
}

#[test]
fn every_command_that_writes_leaves_the_old_file_whole() {
    let folder = with_many_names();
    let ran = folder.run(&["build", "many.txt", "-o", "many.book"]);
    assert_eq!(ran.status, 0);
    let before = files_in(&folder);
    for words in [
        &["merge", "many.txt", "many.txt", "-o", "old.book"][..],
        &["salvage", "many.book", "-o", "old.book"],
        &["tree", "many.book", "--svg", "old.book"],
        &["tree", "many.book", "--dot", "old.book"],
    ] {
        let ran = run_where_files_are_small(&folder, words);
        assert_eq!(ran.status.code(), Some(2), "{words:?}");
        assert_eq!(folder.read("old.book"), b"the old book", "{words:?}");
        assert_eq!(files_in(&folder), before, "{words:?}");
    }
}

#[test]
fn an_old_book_is_replaced_and_keeps_its_permissions() {
    let folder = with_old_book();
    let path = folder.path().join("old.book");
    for mode in [0o600, 0o644, 0o664] {
        fs::set_permissions(&path, Permissions::from_mode(mode)).unwrap();
        let before = fs::metadata(&path).unwrap();
        let ran = folder.run(&["build", "mar.txt", "--block", "2", "-o", "old.book"]);
        assert_eq!((ran.status, ran.err.as_str()), (0, ""));
        let after = fs::metadata(&path).unwrap();
        assert_eq!(after.permissions().mode() & 0o7777, mode);
        assert_eq!((after.uid(), after.gid()), (before.uid(), before.gid()));
        // Another file took its place: the old one was not written to.
        assert_ne!(after.ino(), before.ino());
        assert_eq!(folder.read("old.book"), EXAMPLE);
    }
    assert_eq!(files_in(&folder), ["mar.txt", "old.book"]);
}

#[test]
fn a_file_that_a_killed_program_left_is_no_hindrance() {
    let folder = with_old_book();
    // The shell's number is the program's, which takes its place.
    let script = "echo left > old.book.new-$$-0; exec \"$0\" build mar.txt --block 2 -o old.book";
    let mut command = Command::new("sh");
    command.args(["-c", script, PROGRAM]);
    let ran = command.current_dir(folder.path()).output().unwrap();
    assert!(ran.status.success() && ran.stderr.is_empty(), "{ran:?}");
    assert_eq!(folder.read("old.book"), EXAMPLE);
    // It is not the program's own, so it stays.
    let files = files_in(&folder);
    assert_eq!(files.len(), 3, "{files:?}");
    assert_eq!(folder.read(&files[2]), b"left\n");
}

#[test]
fn a_file_with_the_longest_name_is_written() {
    let folder = with_old_book();
    let name = "x".repeat(255);
    for _ in 0..2 {
        let ran = folder.run(&["build", "mar.txt", "--block", "2", "-o", &name]);
        assert_eq!((ran.status, ran.err.as_str()), (0, ""));
        assert_eq!(folder.read(&name), EXAMPLE);
    }
}

#[test]
fn a_link_stays_and_what_it_points_to_is_written() {
    let folder = with_old_book();
    fs::create_dir(folder.path().join("books")).unwrap();
    // A link to a link to a file, and a link to a file that is not there yet.
    symlink("old.book", folder.path().join("near")).unwrap();
    symlink("near", folder.path().join("far")).unwrap();
    symlink("books/new.book", folder.path().join("ahead")).unwrap();
    for (link, target) in [("far", "old.book"), ("ahead", "books/new.book")] {
        let ran = folder.run(&["build", "mar.txt", "--block", "2", "-o", link]);
        assert_eq!((ran.status, ran.err.as_str()), (0, ""));
        assert_eq!(folder.read(target), EXAMPLE);
        assert!(fs::symlink_metadata(folder.path().join(link))
            .unwrap()
            .is_symlink());
    }
    // A link in a ring leads nowhere.
    symlink("ring", folder.path().join("ring")).unwrap();
    let ran = folder.run(&["build", "mar.txt", "-o", "ring"]);
    ran.assert_fails(2, &["ring cannot be written: "]);
}

#[test]
fn a_pipe_is_written_to_and_stays_a_pipe() {
    let folder = with_old_book();
    let path = folder.path().join("pipe");
    let made = Command::new("mkfifo").arg(&path).status();
    assert!(made.expect("there is mkfifo").success());
    // Open for reading and writing, so that neither end waits for the other.
    let mut reader = OpenOptions::new()
        .read(true)
        .write(true)
        .open(&path)
        .unwrap();
    let ran = folder.run(&["build", "mar.txt", "--block", "2", "-o", "pipe"]);
    assert_eq!((ran.status, ran.err.as_str()), (0, ""));
    let mut book = [0; EXAMPLE.len()];
    reader
        .read_exact(&mut book)
        .expect("the book is in the pipe");
    assert_eq!(book, EXAMPLE);
    assert!(fs::metadata(&path).unwrap().file_type().is_fifo());
}

#[test]
fn standard_output_by_its_path_is_written_to_directly() {
    let folder = with_old_book();
    let words = ["tree", "old.book", "--dot", "/dev/stdout"];
    folder.write("old.book", EXAMPLE);
    let dot = folder.run(&["tree", "old.book", "--dot", "-"]);
    folder.run(&words).assert(0, dot.out());
    // A file behind it stays the file that was opened.
    let file = fs::File::create(folder.path().join("out.dot")).unwrap();
    let before = file.metadata().unwrap().ino();
    let mut command = Command::new(PROGRAM);
    command.args(words).current_dir(folder.path()).stdout(file);
    assert!(command.status().unwrap().success());
    let after = fs::metadata(folder.path().join("out.dot")).unwrap();
    assert_eq!(after.ino(), before);
    assert_eq!(folder.read("out.dot"), dot.bytes);
}

/// Runs a copy of the program in a folder as somebody whom permissions hold: as
/// nobody where this is root, whom they don't. Nothing where that cannot be had.
fn run_held(folder: &Folder, words: &[&str]) -> Option<Output> {
    let copies = Folder::new();
    let program = copies.path().join("stopbook");
    fs::copy(PROGRAM, &program).expect("the program can be copied");
    fs::set_permissions(copies.path(), Permissions::from_mode(0o755)).unwrap();
    let mut command = Command::new(program);
    if fs::metadata(copies.path()).unwrap().uid() == 0 {
        command.uid(NOBODY).gid(NOBODY);
    }
    command.args(words).current_dir(folder.path()).output().ok()
}

#[test]
fn in_a_folder_that_may_not_be_written_to_the_old_book_stays() {
    let folder = with_old_book();
    let old = folder.path().join("old.book");
    // The book itself may be written to by all; but not in half.
    fs::set_permissions(&old, Permissions::from_mode(0o666)).unwrap();
    fs::set_permissions(folder.path(), Permissions::from_mode(0o555)).unwrap();
    let ran = run_held(&folder, &["build", "mar.txt", "-o", "old.book"]);
    fs::set_permissions(folder.path(), Permissions::from_mode(0o755)).unwrap();
    let Some(ran) = ran else {
        return;
    };
    let said = String::from_utf8(ran.stderr).expect("notes are text");
    assert_eq!(ran.status.code(), Some(2), "{said}");
    let expected = "old.book cannot be written: no file can be made in its folder: ";
    assert!(said.contains(expected), "{said}");
    assert_eq!(folder.read("old.book"), b"the old book");
    assert_eq!(files_in(&folder), ["mar.txt", "old.book"]);
}

#[test]
fn a_book_that_may_not_be_written_to_is_not_replaced() {
    let folder = with_old_book();
    let old = folder.path().join("old.book");
    fs::set_permissions(&old, Permissions::from_mode(0o444)).unwrap();
    fs::set_permissions(folder.path(), Permissions::from_mode(0o777)).unwrap();
    let Some(ran) = run_held(&folder, &["build", "mar.txt", "-o", "old.book"]) else {
        return;
    };
    let said = String::from_utf8(ran.stderr).expect("notes are text");
    assert_eq!(ran.status.code(), Some(2), "{said}");
    assert!(said.contains("old.book cannot be written: "), "{said}");
    assert_eq!(folder.read("old.book"), b"the old book");
    assert_eq!(files_in(&folder), ["mar.txt", "old.book"]);
}
