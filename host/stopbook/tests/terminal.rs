//! `stopbook ask` on a terminal: what is lit is in reverse video there.
#![cfg(target_os = "linux")]

mod common;

use common::Folder;
use std::ffi::{c_char, c_int, CStr};
use std::fs::{File, OpenOptions};
use std::io::Read;
use std::os::fd::FromRawFd;
use std::os::unix::fs::OpenOptionsExt;
use std::process::{Command, Stdio};

extern "C" {
    fn posix_openpt(flags: c_int) -> c_int;
    fn grantpt(file: c_int) -> c_int;
    fn unlockpt(file: c_int) -> c_int;
    fn ptsname_r(file: c_int, name: *mut c_char, length: usize) -> c_int;
}

/// Reading and writing, for a terminal that is not to be this program's own.
const READING_AND_WRITING: c_int = 2;
const NOT_OUR_OWN: c_int = 0o400;

/// A new terminal: the end from which its screen is read, and the end that a
/// program writes to; nothing where the system has none to give.
fn terminal() -> Option<(File, File)> {
    // SAFETY: this takes a number and gives one.
    let number = unsafe { posix_openpt(READING_AND_WRITING | NOT_OUR_OWN) };
    if number < 0 {
        return None;
    }
    // SAFETY: the file was opened just now, and is nobody else's.
    let screen = unsafe { File::from_raw_fd(number) };
    let mut name: [c_char; 100] = [0; 100];
    // SAFETY: the file is open, and the name has space for so many bytes.
    let failed = unsafe {
        grantpt(number) != 0
            || unlockpt(number) != 0
            || ptsname_r(number, name.as_mut_ptr(), name.len()) != 0
    };
    assert!(!failed, "{}", std::io::Error::last_os_error());
    // SAFETY: a name that was given ends with a zero.
    let name = unsafe { CStr::from_ptr(name.as_ptr()) };
    let line = OpenOptions::new()
        .read(true)
        .write(true)
        .custom_flags(NOT_OUR_OWN)
        .open(name.to_str().expect("a path of plain letters"))
        .expect("the terminal can be opened");
    Some((screen, line))
}

/// Asks for the nearest of Café and Marina on a terminal, with a variable set, and
/// asserts what the terminal gets to show.
fn assert_shown(variable: (&str, &str), question: &str, expected: &str) {
    let Some((mut screen, line)) = terminal() else {
        return;
    };
    let folder = Folder::with("c.txt", "Café\nMarina\n".as_bytes());
    assert_eq!(folder.run(&["build", "c.txt"]).status, 0);
    let mut child = Command::new(env!("CARGO_BIN_EXE_stopbook"))
        .args(["ask", "c.book", "nearest", question])
        .current_dir(folder.path())
        .env_remove("NO_COLOR")
        .env("TERM", "xterm")
        .env(variable.0, variable.1)
        .stdin(Stdio::null())
        .stdout(line)
        .spawn()
        .expect("the program starts");
    assert!(child.wait().expect("the program ends").success());
    let mut bytes = Vec::new();
    // Where nobody can write to it any more, a terminal ends with an error.
    let _ = screen.read_to_end(&mut bytes);
    let text = String::from_utf8(bytes).expect("answers are text");
    assert_eq!(text, format!("nearest to {question} is {expected}\r\n"));
}

#[test]
fn what_is_lit_is_in_reverse_video() {
    for variable in [("TERM", "xterm"), ("NO_COLOR", "")] {
        let expected = "\x1B[7mMa\x1B[27mrina, stop 1; 2 bytes lit";
        assert_shown(variable, "Mango", expected);
        let expected = "\x1B[7mCaf\x1B[27mé, stop 0; 3 bytes lit";
        assert_shown(variable, "Cafè", expected);
    }
}

#[test]
fn what_is_lit_is_in_brackets_where_reverse_video_is_not_wanted_or_not_shown() {
    for variable in [("NO_COLOR", "1"), ("TERM", "dumb")] {
        assert_shown(variable, "Mango", "[Ma]rina, stop 1; 2 bytes lit");
        assert_shown(variable, "Cafè", "[Caf]é, stop 0; 3 bytes lit");
    }
}
