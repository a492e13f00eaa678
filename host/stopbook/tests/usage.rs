//! Help, version and wrong usage from end to end.

mod common;

use common::{Folder, EXAMPLE};
use std::io::Read;
use std::process::{Command, Stdio};

const COMMANDS: [&str; 10] = [
    "build", "convert", "merge", "list", "ask", "clip", "route", "check", "salvage", "tree",
];

#[test]
fn the_help_names_every_command_and_every_exit_status() {
    let folder = Folder::new();
    for words in [&["--help"][..], &["-h"], &["help"]] {
        let ran = folder.run(words);
        assert_eq!((ran.status, ran.err.as_str()), (0, ""));
        for command in COMMANDS {
            assert!(ran.out().contains(&format!("stopbook {command} ")));
        }
        for status in ["Exit status: 0 ", "; 1 ", "; 2 ", "; 3 "] {
            assert!(ran.out().contains(status), "{status}");
        }
    }
}

/// Asserts that the page for users has this output, between its fences.
fn assert_in_readme(output: &str) {
    let readme = include_str!("../../../README.md");
    let block = format!("\n```text\n{output}```\n");
    assert!(readme.contains(&block), "{block}");
}

#[test]
fn the_outputs_in_the_readme_are_what_the_program_prints() {
    let folder = Folder::with("stops.txt", include_bytes!("../../../sample/stops.txt"));
    let ran = folder.run(&["build", "stops.txt", "-o", "stops.book"]);
    assert_in_readme(ran.out());
    let words = [
        "list",
        "stops.book",
        "--long",
        "--from",
        "11",
        "--count",
        "3",
    ];
    assert_in_readme(folder.run(&words).out());
    let ran = folder.run(&["ask", "stops.book", "exact", "Marina", "--looked"]);
    assert_in_readme(ran.out());
    let lines = b"exact Mar\nrange Harb\n";
    let ran = folder.run_with(&["ask", "stops.book", "--tsv"], lines);
    assert_in_readme(ran.out());
    let converted = [
        &["convert", "stops.book", "-o", "columns.book"][..],
        &["convert", "columns.book", "-o", "rows.book"],
        &["check", "columns.book"],
    ]
    .map(|words| folder.run(words).out().to_string());
    assert_in_readme(&converted.concat());
    let clips: String = (301..=320).map(|clip| format!("{clip}\n")).collect();
    folder.write("clips.txt", clips.as_bytes());
    let typed = ["Mar", "Mark", "Harb"];
    let spoken = typed.map(|text| folder.run(&["clip", "stops.book", "clips.txt", text]));
    assert_in_readme(&spoken.map(|ran| ran.out().to_string()).concat());
    let stops = b"Harbour\nMarket Square\nStation\n";
    let ran = folder.run_with(&["route", "stops.book", "clips.txt", "--names"], stops);
    assert_in_readme(ran.out());
    let ran = folder.run(&["build", "stops.txt", "--fold", "-o", "typed.book"]);
    assert_eq!(ran.status, 0);
    let asked = [
        ("stops.book", "Marknet Square"),
        ("stops.book", "Old Marina"),
        ("stops.book", "market sq"),
        ("typed.book", "market sq"),
    ];
    let answer = |(book, text)| folder.run(&["ask", book, "nearest", text]);
    let answers = asked.map(|question| answer(question).out().to_string());
    assert_in_readme(&answers.concat());
}

#[test]
fn every_command_has_help_with_an_example() {
    let folder = Folder::new();
    for command in COMMANDS {
        let ran = folder.run(&[command, "--help"]);
        assert_eq!((ran.status, ran.err.as_str()), (0, ""));
        assert!(ran.out().starts_with(&format!("stopbook {command} ")));
        assert!(ran.out().contains("Example"));
        assert_eq!(folder.run(&["help", command]).bytes, ran.bytes);
        assert!(ran.out().lines().all(|line| line.len() <= 110));
    }
}

#[test]
fn the_version_is_that_of_the_crate() {
    let version = concat!("stopbook ", env!("CARGO_PKG_VERSION"), "\n");
    Folder::new().run(&["--version"]).assert(0, version);
}

#[test]
fn wrong_usage_has_exit_status_2_and_says_where_to_look() {
    let folder = Folder::with("mar.book", EXAMPLE);
    folder.write("mar.txt", b"1\n2\n3\n");
    let cases: [(&[&str], &str); 28] = [
        (&[], "give a command"),
        (&["bild", "x"], "bild is no command"),
        (&["help", "bild"], "bild is no command"),
        (&["build"], "give the file with the names"),
        (&["build", "a", "b"], "b is too many"),
        (
            &["build", "mar.txt", "--fold", "--columns"],
            "give --fold or --columns, not both",
        ),
        (&["convert"], "give one book"),
        (&["convert", "a", "b", "-o", "c"], "give one book"),
        (&["convert", "mar.book"], "give where the new book goes"),
        (&["merge"], "give two files with names"),
        (&["merge", "a"], "give two files with names"),
        (&["merge", "a", "b", "c"], "c is too many"),
        (&["merge", "-", "-"], "standard input can be read once"),
        (&["list"], "give one book"),
        (&["check", "a", "b"], "give one book"),
        (&["clip"], "give a book, a text of clips"),
        (&["clip", "a", "b"], "and what is typed"),
        (&["clip", "a", "b", "c", "d"], "give one text"),
        (&["clip", "-", "-", "c"], "standard input can be read once"),
        (&["route", "a"], "give a book, a text of clips and a route"),
        (&["route", "-", "a"], "the clips must be files"),
        (&["route", "a", "-"], "the clips must be files"),
        (
            &["route", "mar.book", "mar.txt", "0", "Mar"],
            "Mar is no position; give numbers, or names with --names",
        ),
        (&["salvage"], "give one damaged book"),
        (&["salvage", "a", "b"], "give one damaged book"),
        (
            &["salvage", "mar.book", "-o", "a", "--output", "b"],
            "give one",
        ),
        (
            &["list", "mar.book", "--form", "1"],
            "there is no option --form",
        ),
        (&["tree", "mar.book", "--svg"], "--svg takes a value"),
    ];
    for (words, text) in cases {
        folder
            .run(words)
            .assert_fails(2, &["stopbook: ", text, "--help"]);
    }
    for words in [
        &["list", "gone"][..],
        &["check", "gone"],
        &["convert", "gone", "-o", "new.book"],
        &["salvage", "gone"],
        &["tree", "gone"],
        &["ask", "gone"],
        &["clip", "gone", "mar.txt", "Mar"],
        &["clip", "mar.book", "gone", "Mar"],
        &["route", "gone", "mar.txt"],
        &["route", "mar.book", "gone"],
    ] {
        folder.run(words).assert_fails(2, &["gone cannot be read"]);
    }
}

#[test]
fn a_reader_that_stops_early_is_no_error() {
    let names: String = (0..2_000).map(|number| format!("{number:04}\n")).collect();
    let folder = Folder::with("n.txt", names.as_bytes());
    assert_eq!(folder.run(&["build", "n.txt"]).status, 0);
    // More than a pipe holds, so that the program is still writing.
    let mut child = Command::new(env!("CARGO_BIN_EXE_stopbook"))
        .args(["tree", "n.book", "--limit", "9999", "--svg", "-"])
        .current_dir(folder.path())
        .stdout(Stdio::piped())
        .stderr(Stdio::piped())
        .spawn()
        .expect("the program starts");
    let mut output = child.stdout.take().expect("it has an output");
    let mut front = [0; 5];
    output.read_exact(&mut front).expect("it writes");
    drop(output);
    let ended = child.wait_with_output().expect("the program ends");
    assert_eq!(&front, b"<svg ");
    assert_eq!((ended.status.code(), ended.stderr), (Some(0), Vec::new()));
}
