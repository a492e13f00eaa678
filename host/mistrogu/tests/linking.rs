//! A program over this crate is built where there is an archive to link, and where
//! there is none its build ends with one sentence, before the linker has a word.

use std::fs;
use std::path::{Path, PathBuf};
use std::process::{Command, Output};

const VARIABLE: &str = "MISTROGU_ARCHIVE";

/// The archive that these tests are linked with.
fn archive() -> PathBuf {
    PathBuf::from(std::env::var_os(VARIABLE).expect("the tests are linked with an archive"))
}

/// A folder with a program of its own, outside of this workspace, which makes a call.
fn program() -> PathBuf {
    let folder = Path::new(env!("CARGO_TARGET_TMPDIR")).join("linking/guest");
    let _ = fs::remove_dir_all(&folder);
    fs::create_dir_all(folder.join("src")).expect("there is room for files");
    let here = env!("CARGO_MANIFEST_DIR");
    let manifest = format!(
        "[package]\nname = \"guest\"\nversion = \"1.0.0\"\nedition = \"2021\"\n\n\
         [dependencies]\nmistrogu = {{ path = \"{here}\" }}\n\n[workspace]\n"
    );
    fs::write(folder.join("Cargo.toml"), manifest).expect("the manifest is written");
    let source = "fn main() {\n    println!(\"{:?}\", mistrogu::check(b\"Mar\"));\n}\n";
    fs::write(folder.join("src/main.rs"), source).expect("the program is written");
    folder
}

/// Runs `cargo run` in this folder, with the variable set so or not at all.
fn run(folder: &Path, named: Option<&Path>) -> Output {
    let mut cargo = Command::new(env!("CARGO"));
    cargo.args(["run", "--offline", "--quiet"]);
    cargo.current_dir(folder).env_remove(VARIABLE);
    cargo
        .env_remove("RUSTFLAGS")
        .env_remove("CARGO_ENCODED_RUSTFLAGS");
    cargo.env("CARGO_TARGET_DIR", folder.with_file_name("target"));
    cargo.envs(named.map(|named| (VARIABLE, named)));
    cargo.output().expect("cargo runs")
}

/// Asserts that the program is built and run.
fn assert_runs(output: Output) {
    let [out, err] = [output.stdout, output.stderr].map(|text| String::from_utf8(text).unwrap());
    assert_eq!(out, "Err(NoBook)\n", "{err}");
}

/// Asserts that the build ends with one sentence, in which these words stand.
fn assert_told(output: Output, words: &[&str]) {
    let err = String::from_utf8(output.stderr).unwrap();
    assert!(!output.status.success(), "{words:?}");
    let sentences: Vec<&str> = err.lines().filter(|line| line.contains(VARIABLE)).collect();
    let [sentence] = sentences[..] else {
        panic!("one sentence was wanted: {err}");
    };
    for word in words {
        assert!(sentence.contains(word), "{sentence}");
    }
    for page in [
        "panicked",
        "undefined",
        "backtrace",
        "linking with",
        "warning",
    ] {
        assert!(!err.contains(page), "{err}");
    }
    assert!(err.lines().count() <= 3, "{err}");
}

#[test]
fn a_build_works_or_ends_with_one_sentence() {
    let archive = archive();
    let folder = program();
    let line = "run `export MISTROGU_ARCHIVE=$(";
    assert_told(run(&folder, None), &[line, "archive.sh)`", "config.toml"]);
    assert_told(run(&folder, Some(Path::new(""))), &[line]);
    assert_told(
        run(&folder, Some(Path::new("libmistrogu.a"))),
        &["a whole path"],
    );
    let missing = folder.join("libmistrogu.a");
    assert_told(run(&folder, Some(&missing)), &["not there", line]);
    fs::write(&missing, "no archive").expect("the file is written");
    assert_told(run(&folder, Some(&missing)), &["no archive"]);

    let bytes = fs::read(&archive).expect("the archive is there");
    let unnamed = folder.join("mistrogu.a");
    fs::write(&unnamed, &bytes).expect("the file is written");
    assert_told(run(&folder, Some(&unnamed)), &["libNAME.a"]);
    let other = folder.join("libother.a");
    fs::write(&other, for_another_processor(&bytes)).expect("the file is written");
    assert_told(run(&folder, Some(&other)), &["which is for ", line]);
    let older = folder.join("libolder.a");
    fs::write(&older, replaced(&bytes, b"book_salvage", b"book_savings")).unwrap();
    assert_told(run(&folder, Some(&older)), &["has no book_salvage", line]);

    assert_runs(run(&folder, Some(&archive)));
    assert_told(run(&folder, None), &[line]);

    // As the README shows it: by the path from the folder that .cargo is in.
    fs::create_dir_all(folder.join(".cargo")).expect("there is room for a folder");
    fs::write(&missing, &bytes).expect("the file is written");
    let config = format!("[env]\n{VARIABLE} = {{ value = \"libmistrogu.a\", relative = true }}\n");
    fs::write(folder.join(".cargo/config.toml"), config).expect("the file is written");
    assert_runs(run(&folder, None));
}

/// The archive with its first object marked as another processor's.
fn for_another_processor(archive: &[u8]) -> Vec<u8> {
    let object = archive.windows(4).position(|bytes| bytes == b"\x7FELF");
    let machine = object.expect("the archive has an object") + 18;
    let mut bytes = archive.to_vec();
    bytes[machine] = match bytes[machine] {
        62 => 183,
        _ => 62,
    };
    bytes
}

/// The bytes with one run of them replaced by another, wherever it stands.
fn replaced(bytes: &[u8], old: &[u8], new: &[u8]) -> Vec<u8> {
    let mut bytes = bytes.to_vec();
    while let Some(at) = bytes.windows(old.len()).position(|found| found == old) {
        bytes[at..at + old.len()].copy_from_slice(new);
    }
    bytes
}
