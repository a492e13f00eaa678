//! The stored vectors are what the second program writes today.
//!
//! They stand in the program crate that runs the proved library on them: each
//! set's cases in its data folder, all expected lines in its file `stdout`. Those
//! that a test of the linked archive runs stand beside that test.

use model::{book_of, listing, make_book, write_list, BookKind};
use std::fs;
use std::path::{Path, PathBuf};
use vectors::folded;
use vectors::sets::LONGEST_FILE;
use vectors::{expected_of_all, lists, SETS, TESTED_SETS};

/// The folder of a program.
fn program_folder(name: &str) -> PathBuf {
    Path::new(env!("CARGO_MANIFEST_DIR"))
        .join("../../crates")
        .join(name)
}

/// Asserts that the file holds exactly these bytes.
fn assert_stored(path: &Path, today: &[u8]) {
    let stored = fs::read(path).unwrap_or_else(|error| panic!("{}: {error}", path.display()));
    let same = stored.iter().zip(today).take_while(|(a, b)| a == b).count();
    assert!(
        stored == today,
        "{} differs from what is written today, from byte {same} on; \
         `cargo run -p vectors -- SET FOLDER` writes it anew",
        path.display()
    );
}

#[test]
fn the_stored_vectors_are_what_the_second_program_writes_today() {
    let folder = program_folder("cases");
    for set in SETS {
        let file = folder.join(format!("data/{}.cases", set.name()));
        assert_stored(&file, &set.case_file());
    }
    assert_stored(&folder.join("stdout"), expected_of_all().as_bytes());
}

#[test]
fn the_vectors_beside_the_linked_archive_are_what_the_second_program_writes_today() {
    let folder = Path::new(env!("CARGO_MANIFEST_DIR")).join("../proved/tests/data");
    for set in TESTED_SETS {
        let file = |ending: &str| folder.join(format!("{}.{ending}", set.name()));
        assert_stored(&file("cases"), &set.case_file());
        assert_stored(&file("expected"), set.expected().as_bytes());
    }
}

#[test]
fn every_file_is_small_enough() {
    for set in SETS.into_iter().chain(TESTED_SETS) {
        let length = set.case_file().len();
        assert!(length < LONGEST_FILE, "{}: {length}", set.name());
    }
}

#[test]
fn the_stored_book_is_what_the_second_program_builds() {
    let list = write_list(&lists::example());
    let folder = program_folder("make_book");
    assert_stored(&folder.join("stdin"), &list);
    let book = make_book(&list).expect("a good list");
    assert_stored(&folder.join("stdout"), &book);
}

#[test]
fn the_stored_listings_are_what_the_second_program_prints() {
    let book = book_of(BookKind::Plain, 2, &lists::example());
    let folder = program_folder("list_book");
    assert_stored(&folder.join("stdin"), &book);
    assert_stored(&folder.join("stdout"), &listing(&book));

    let escaped: [&[u8]; 5] = [
        b"\x00\x1F ~",
        b"\x00\x1F ~\x7F",
        b"A\\B",
        b"\xC3\x87ay",
        b"\xFF",
    ];
    let others = [
        vec![],
        b"\x03Mar\x06Marina".to_vec(),
        book_of(BookKind::Plain, 64, &[]),
        book_of(BookKind::Plain, 3, &escaped.map(<[u8]>::to_vec)),
        book_of(BookKind::Folded, 4, &folded::spelt_example()),
        book_of(BookKind::Columns, 2, &lists::example()),
    ];
    let today: Vec<u8> = others.iter().flat_map(|bytes| listing(bytes)).collect();
    assert_stored(&program_folder("list_others").join("stdout"), &today);
}
