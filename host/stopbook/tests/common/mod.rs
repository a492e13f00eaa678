//! What the end-to-end tests share: running the program on files of their own,
//! and the plain sorted list that decides every answer.

// Each test file uses some of this.
#![allow(dead_code)]

use std::fs;
use std::io::Write;
use std::path::{Path, PathBuf};
use std::process::{self, Command, Stdio};
use std::sync::atomic::{AtomicUsize, Ordering};

/// Document 01's book of Mar, Marina, Market Square with blocks of 2, as document
/// 02 has it.
pub const EXAMPLE: &[u8] = b"\x00\x03Mar\x03\x03ina\x00\x0DMarket Square\
    \x00\x00\x0A\x00\
    \x00\x00\x03\x00\x00\x00\x03\x00\x04\x00\x0D\x00\
    \x00\x00\x04\x00\x00\x00\x01\x00\x01\x00\x03\x00\
    \x6A\x00\x07\x00\x01\x00\x01\x00\x01\x00\x06\x00\
    \x6C\x00\x0E\x00\x02\x00\x01\x00\x01\x00\x0D\x00\
    \x03\x00\x02\x00\x19\x00\x1D\x00\x04\x00\x5D\x00\x4E\x42\x4B\x32";

/// A book without names, with blocks of 2.
pub const NO_NAMES: &[u8] = b"\x00\x00\x02\x00\x00\x00\x00\x00\x00\x00\x10\x00\x4E\x42\x4B\x32";

/// A folder that goes away with the test.
pub struct Folder(PathBuf);

impl Folder {
    /// A new folder.
    pub fn new() -> Folder {
        static NEXT: AtomicUsize = AtomicUsize::new(0);
        let number = NEXT.fetch_add(1, Ordering::Relaxed);
        let name = format!("stopbook-{}-{number}", process::id());
        let path = std::env::temp_dir().join(name);
        fs::create_dir_all(&path).expect("a folder can be made");
        Folder(path)
    }

    /// A folder with one file in it.
    pub fn with(name: &str, bytes: &[u8]) -> Folder {
        let folder = Folder::new();
        folder.write(name, bytes);
        folder
    }

    /// Where it is.
    pub fn path(&self) -> &Path {
        &self.0
    }

    /// Writes a file.
    pub fn write(&self, name: &str, bytes: &[u8]) {
        fs::write(self.0.join(name), bytes).expect("a file can be written");
    }

    /// Reads a file.
    pub fn read(&self, name: &str) -> Vec<u8> {
        fs::read(self.0.join(name)).expect("the file is there")
    }

    /// Whether there is such a file.
    pub fn has(&self, name: &str) -> bool {
        self.0.join(name).exists()
    }

    /// Runs the program in this folder with nothing on standard input.
    pub fn run(&self, words: &[&str]) -> Ran {
        self.run_with(words, b"")
    }

    /// Runs the program in this folder.
    pub fn run_with(&self, words: &[&str], input: &[u8]) -> Ran {
        let mut child = Command::new(env!("CARGO_BIN_EXE_stopbook"))
            .args(words)
            .current_dir(&self.0)
            .stdin(Stdio::piped())
            .stdout(Stdio::piped())
            .stderr(Stdio::piped())
            .spawn()
            .expect("the program starts");
        let mut stdin = child.stdin.take().expect("it has an input");
        let input = input.to_vec();
        // Another thread writes, so that neither waits for the other. The
        // program need not read all of it.
        let writer = std::thread::spawn(move || {
            let _ = stdin.write_all(&input);
        });
        let output = child.wait_with_output().expect("the program ends");
        writer.join().expect("the writer ends");
        Ran {
            status: output.status.code().expect("it was not killed"),
            bytes: output.stdout,
            err: String::from_utf8(output.stderr).expect("notes are text"),
        }
    }
}

impl Drop for Folder {
    fn drop(&mut self) {
        let _ = fs::remove_dir_all(&self.0);
    }
}

/// What a run gave.
#[derive(Debug)]
pub struct Ran {
    /// The exit status.
    pub status: i32,
    /// Standard output.
    pub bytes: Vec<u8>,
    /// Standard error.
    pub err: String,
}

impl Ran {
    /// Standard output as text.
    pub fn out(&self) -> &str {
        std::str::from_utf8(&self.bytes).expect("answers are text")
    }

    /// Asserts status and standard output, and silence on standard error.
    pub fn assert(&self, status: i32, out: &str) {
        assert_eq!(
            (self.status, self.out(), self.err.as_str()),
            (status, out, "")
        );
    }

    /// Asserts status, no output, and what standard error has in it.
    pub fn assert_fails(&self, status: i32, parts: &[&str]) {
        assert_eq!((self.status, self.out()), (status, ""), "{}", self.err);
        for part in parts {
            assert!(self.err.contains(part), "{part:?} is not in {:?}", self.err);
        }
        assert!(!self.err.contains("panicked"), "{}", self.err);
    }
}

/// How many names are less than the question.
pub fn place(names: &[String], question: &str) -> usize {
    names.iter().filter(|name| name.as_str() < question).count()
}

/// How many leading bytes two texts share.
pub fn shared(one: &str, other: &str) -> usize {
    let both = one.bytes().zip(other.bytes());
    both.take_while(|(one, other)| one == other).count()
}

/// Numbers that look random and are the same in each run.
pub struct Numbers(pub u64);

impl Numbers {
    /// A number below this one.
    pub fn below(&mut self, bound: usize) -> usize {
        self.0 ^= self.0 << 13;
        self.0 ^= self.0 >> 7;
        self.0 ^= self.0 << 17;
        (self.0 % bound as u64) as usize
    }

    /// A word of few letters, so that words share beginnings, and half a letter
    /// now and then.
    pub fn word(&mut self, longest: usize) -> String {
        let length = 1 + self.below(longest);
        let letters = ['a', 'b', ' ', 'é', 'è', '駅', '&'];
        (0..length)
            .map(|_| letters[self.below(letters.len())])
            .collect()
    }

    /// Words, sorted by their bytes and each once.
    pub fn names(&mut self, count: usize) -> Vec<String> {
        let mut names: Vec<String> = (0..count).map(|_| self.word(8)).collect();
        names.sort();
        names.dedup();
        names
    }
}
