//! `stopbook salvage` from end to end.

mod common;

use common::{Folder, Numbers, Ran, EXAMPLE, NO_NAMES};

/// Five stops, no two of which share a letter in front: with blocks of 2 the blocks
/// start at 0, 16 and 31.
const STOPS: [&str; 5] = ["Airport", "Beach", "Castle", "Docks", "Elm"];
const STARTS: [usize; 3] = [0, 16, 31];

/// A folder with a card of these five stops.
fn with_stops() -> Folder {
    let folder = Folder::with("n.txt", STOPS.join("\n").as_bytes());
    let ran = folder.run(&["build", "n.txt", "--block", "2", "-o", "sound.book"]);
    assert_eq!(ran.status, 0, "{}", ran.err);
    folder
}

/// A folder with the card with these stops, where these bytes are others.
fn with_worn(changes: &[(usize, u8)]) -> Folder {
    let folder = with_stops();
    let mut card = folder.read("sound.book");
    for &(at, byte) in changes {
        card[at] = byte;
    }
    folder.write("worn.book", &card);
    folder
}

/// Salvages that card.
fn salvaged(changes: &[(usize, u8)]) -> Ran {
    with_worn(changes).run(&["salvage", "worn.book"])
}

/// Asserts the names that are left and what is said, a line for each.
fn assert_left(ran: Ran, status: i32, names: &[&str], said: &[&str]) {
    let out: String = names.iter().map(|name| format!("{name}\n")).collect();
    let err: String = said
        .iter()
        .map(|line| format!("stopbook: worn.book: {line}\n"))
        .collect();
    assert_eq!(
        (ran.status, ran.out(), ran.err.as_str()),
        (status, out.as_str(), err.as_str())
    );
}

#[test]
fn of_a_sound_card_all_names_are_written() {
    let ran = salvaged(&[]);
    assert_left(
        ran,
        0,
        &STOPS,
        &["kept: 5 names in 3 blocks; lost: nothing"],
    );
    let folder = Folder::with("mar.book", EXAMPLE);
    for option in ["-o", "--output"] {
        let ran = folder.run(&["salvage", "mar.book", option, "left.txt"]);
        assert_eq!((ran.status, ran.out()), (0, ""));
        assert_eq!(
            ran.err,
            "stopbook: mar.book: kept: 3 names in 2 blocks; lost: nothing\n"
        );
        assert_eq!(folder.read("left.txt"), b"Mar\nMarina\nMarket Square\n");
    }
    let ran = folder.run_with(&["salvage", "-"], EXAMPLE);
    assert_eq!((ran.status, ran.out()), (0, "Mar\nMarina\nMarket Square\n"));
    assert!(ran
        .err
        .starts_with("stopbook: standard input: kept: 3 names"));
}

#[test]
fn a_block_in_the_middle_is_lost_between_two_names() {
    let ran = salvaged(&[(STARTS[1], 1)]);
    let said = [
        "block 1 is lost: 2 names, between Beach and Elm",
        "kept: 3 names in 2 blocks; lost: 2 names in 1 block",
    ];
    assert_left(ran, 3, &["Airport", "Beach", "Elm"], &said);
}

#[test]
fn the_first_block_is_lost_before_a_name() {
    let ran = salvaged(&[(STARTS[0] + 1, 8)]);
    let said = [
        "block 0 is lost: 2 names, before Castle",
        "kept: 3 names in 2 blocks; lost: 2 names in 1 block",
    ];
    assert_left(ran, 3, &["Castle", "Docks", "Elm"], &said);
}

#[test]
fn the_last_block_is_lost_behind_a_name() {
    let ran = salvaged(&[(STARTS[2] + 1, 0)]);
    let said = [
        "block 2 is lost: 1 name, behind Docks",
        "kept: 4 names in 2 blocks; lost: 1 name in 1 block",
    ];
    assert_left(ran, 3, &["Airport", "Beach", "Castle", "Docks"], &said);
}

#[test]
fn neighbours_are_told_together() {
    let ran = salvaged(&[(STARTS[1], 1), (STARTS[2], 1)]);
    let said = [
        "blocks 1 to 2 are lost: 3 names, 2 in each but 1 in the last, behind Beach",
        "kept: 2 names in 1 block; lost: 3 names in 2 blocks",
    ];
    assert_left(ran, 3, &["Airport", "Beach"], &said);
}

/// What is said where a salvage would write no name.
const NONE_LEFT: &str = "stopbook: worn.book has no names left, so nothing is written; \
                         if that is meant, give --empty\n";

/// Asserts that this card is salvaged over a good text only where an empty one is
/// asked for, with this exit status, and what is said either way.
fn assert_none_left(folder: &Folder, status: i32, said: &[&str]) {
    let good = STOPS.join("\n");
    folder.write("good.txt", good.as_bytes());
    let words = ["salvage", "worn.book", "-o", "good.txt"];
    let ran = folder.run(&words);
    ran.assert_fails(1, said);
    assert_eq!(ran.err.lines().count(), said.len() + 1);
    assert!(ran.err.ends_with(NONE_LEFT), "{}", ran.err);
    assert_eq!(folder.read("good.txt"), good.as_bytes());
    assert_eq!(folder.run(&["salvage", "worn.book"]).err, ran.err);
    let asked = folder.run(&[&words[..], &["--empty"]].concat());
    assert_left(asked, status, &[], said);
    assert_eq!(folder.read("good.txt"), b"");
}

#[test]
fn where_all_blocks_are_lost_the_old_text_stays() {
    let folder = with_worn(&STARTS.map(|start| (start, 1)));
    let said = [
        "blocks 0 to 2 are lost: 5 names, 2 in each but 1 in the last, all there were",
        "kept: 0 names in 0 blocks; lost: 5 names in 3 blocks",
    ];
    assert_none_left(&folder, 3, &said);
}

#[test]
fn damaged_nodes_cost_nothing() {
    let mut card = EXAMPLE.to_vec();
    card[29..77].fill(0xFF);
    let folder = Folder::with("worn.book", &card);
    assert_eq!(folder.run(&["check", "worn.book"]).status, 1);
    let ran = folder.run(&["salvage", "worn.book"]);
    let names = ["Mar", "Marina", "Market Square"];
    assert_left(
        ran,
        0,
        &names,
        &["kept: 3 names in 2 blocks; lost: nothing"],
    );
}

#[test]
fn where_the_map_makes_no_sense_nothing_is_written() {
    let folder = Folder::new();
    let sentence = "worn.book cannot be salvaged: the trailer or the block table makes no sense";
    for (at, byte) in [(25, 1), (27, 0), (78, 8), (79, 0), (87, 0x5E), (92, b'1')] {
        let mut card = EXAMPLE.to_vec();
        card[at] = byte;
        folder.write("worn.book", &card);
        let ran = folder.run(&["salvage", "worn.book", "-o", "no.txt"]);
        ran.assert_fails(1, &[sentence]);
        assert_eq!(ran.err.lines().count(), 1);
    }
    for card in [&EXAMPLE[1..], &EXAMPLE[..15], b"", &[0; 100_000]] {
        folder.write("worn.book", card);
        let ran = folder.run(&["salvage", "worn.book", "-o", "no.txt"]);
        ran.assert_fails(1, &[sentence]);
    }
    assert!(!folder.has("no.txt"));
}

#[test]
fn a_card_without_names_has_nothing_to_lose_and_the_old_text_stays() {
    let folder = Folder::with("worn.book", NO_NAMES);
    assert_none_left(&folder, 0, &["kept: 0 names in 0 blocks; lost: nothing"]);
}

#[test]
fn blocks_that_do_not_rise_are_written_and_told() {
    // Yastle and Zocks for Castle and Docks.
    let ran = salvaged(&[(STARTS[1] + 2, b'Y'), (STARTS[1] + 10, b'Z')]);
    let names = ["Airport", "Beach", "Yastle", "Zocks", "Elm"];
    let said = [
        "Zocks, the last name of block 1, is not below Elm, the first of block 2; \
         so one of the two has other names than it had",
        "kept: 5 names in 3 blocks; lost: nothing",
    ];
    assert_left(ran, 0, &names, &said);
    // Across a block that is lost.
    let ran = salvaged(&[(STARTS[0] + 11, b'Z'), (STARTS[1], 1)]);
    let said = [
        "block 1 is lost: 2 names, between Zeach and Elm",
        "Zeach, the last name of block 0, is not below Elm, the first of block 2; \
         so one of the two has other names than it had",
        "kept: 3 names in 2 blocks; lost: 2 names in 1 block",
    ];
    assert_left(ran, 3, &["Airport", "Zeach", "Elm"], &said);
}

#[test]
fn bytes_that_are_no_text_are_escaped_as_in_a_plain_list() {
    let mut card = EXAMPLE.to_vec();
    card[8] = b'\n';
    card[9] = 0xFF;
    let folder = Folder::with("odd.book", &card);
    let ran = folder.run(&["salvage", "odd.book"]);
    let listed = folder.run(&["list", "odd.book", "--plain"]);
    assert_eq!((ran.status, &ran.bytes), (0, &listed.bytes));
    assert_eq!(ran.out(), "Mar\nMari\\0A\\FF\nMarket Square\n");
    assert!(ran.err.starts_with(&listed.err));
    assert!(listed.err.contains("1 name with bytes that are no line"));
}

#[test]
fn a_damaged_letter_is_not_noticed_without_a_checksum() {
    // One bit of one letter: Marina becomes Marine.
    let mut card = EXAMPLE.to_vec();
    assert_eq!(card[9], b'a');
    card[9] ^= 1 << 2;
    let folder = Folder::with("mar.book", &card);
    let ran = folder.run(&["check", "mar.book"]);
    ran.assert(
        0,
        "mar.book is a plain book: 3 names in blocks of 2, 4 nodes, 93 bytes\n",
    );
    let ran = folder.run(&["salvage", "mar.book"]);
    assert_eq!((ran.status, ran.out()), (0, "Mar\nMarine\nMarket Square\n"));
    assert_eq!(
        ran.err,
        "stopbook: mar.book: kept: 3 names in 2 blocks; lost: nothing\n"
    );
    // So the help of both says it, and what to do.
    for command in ["check", "salvage"] {
        let ran = folder.run(&[command, "--help"]);
        assert!(ran.out().contains("A book has no checksum"), "{command}");
        assert!(ran.out().contains("Marine of"), "{command}");
    }
    let ran = folder.run(&["check", "--help"]);
    assert!(ran.out().contains("sha256sum --check"));
}

#[test]
fn a_book_is_built_from_what_is_left() {
    let folder = with_stops();
    let ran = folder.run(&["salvage", "sound.book", "-o", "left.txt"]);
    assert_eq!(ran.status, 0);
    let ran = folder.run(&["build", "left.txt", "--block", "2"]);
    assert_eq!((ran.status, ran.err.as_str()), (0, ""));
    assert_eq!(folder.read("left.book"), folder.read("sound.book"));
}

#[test]
fn the_card_is_not_written_over() {
    let folder = Folder::with("mar.book", EXAMPLE);
    let ran = folder.run(&["salvage", "mar.book", "-o", "./mar.book"]);
    ran.assert_fails(2, &["mar.book is read and would be written over"]);
    assert_eq!(folder.read("mar.book"), EXAMPLE);
    let ran = folder.run(&["salvage", "mar.book", "-o", "no/such/folder"]);
    ran.assert_fails(2, &["no/such/folder cannot be written"]);
}

#[test]
fn a_damaged_book_is_told_what_may_help() {
    let mut card = EXAMPLE.to_vec();
    card[5] = 4;
    let folder = Folder::with("worn.book", &card);
    let ran = folder.run(&["check", "worn.book"]);
    assert_eq!(ran.status, 1);
    assert!(ran.out().ends_with("see what stopbook salvage finds\n"));
}

#[test]
fn a_changed_byte_never_makes_a_salvage_fail_badly() {
    let folder = Folder::new();
    let mut numbers = Numbers(13);
    for at in 0..EXAMPLE.len() {
        let mut card = EXAMPLE.to_vec();
        card[at] = numbers.below(256) as u8;
        folder.write("worn.book", &card);
        let ran = folder.run(&["salvage", "worn.book"]);
        assert!([0, 1, 3].contains(&ran.status), "{at} {ran:?}");
        assert!(!ran.err.contains("panicked"), "{at} {ran:?}");
        let whole = ran.err.contains("lost: nothing");
        assert_eq!(ran.status == 0, whole, "{at} {ran:?}");
    }
}
