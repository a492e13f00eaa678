//! Demand 3 and refusal 2: which runs of bytes are a book.

mod common;

use common::{
    built, many_names, mar_names, names, names_for_book_length, no, yes, Random, BOOK_BY_2,
    BOOK_BY_4, EMPTY_BOOK,
};
use model::{book_check, book_of, build_kind, open, write_list, BookKind};

/// Asserts that the bytes are either refused with 2, or are the book of the
/// names and the block size that are read from them. Tells which.
fn is_accepted(bytes: &[u8]) -> bool {
    let answer = book_check(bytes);
    let Some((kind, block, names)) = open(bytes) else {
        assert_eq!(answer, no(2));
        return false;
    };
    assert_eq!(answer, yes(names.len(), block));
    let mut room = vec![0; bytes.len()];
    let list = write_list(&names);
    let built = build_kind(kind, &list, block, &mut room);
    assert_eq!(built, yes(bytes.len(), 0));
    assert_eq!(room, bytes);
    true
}

/// Changes every byte to every other value, one at a time, and gives for each
/// offset how many of the 255 changes are accepted.
fn accepted_changes(book: &[u8]) -> Vec<usize> {
    let mut accepted = vec![0; book.len()];
    let mut bytes = book.to_vec();
    for offset in 0..book.len() {
        for change in 1..=255 {
            bytes[offset] = book[offset] ^ change;
            if is_accepted(&bytes) {
                accepted[offset] += 1;
            }
        }
        bytes[offset] = book[offset];
    }
    accepted
}

// Single bytes changed

#[test]
fn every_changed_byte_of_blocks_of_2_is_refused_or_makes_another_sound_book() {
    // Free are the letters behind those that the nodes show: na of Marina and
    // et Square. Mar itself stands in two blocks, so one change parts them. And
    // the mark may become the folded one, since no letter here parts from its
    // capital.
    let mut expected = vec![0; 93];
    expected[8..10].fill(255);
    expected[16..25].fill(255);
    expected[93 - 2] = 1;
    assert_eq!(accepted_changes(&BOOK_BY_2), expected);
}

#[test]
fn every_changed_byte_of_blocks_of_4_is_refused_or_makes_another_sound_book() {
    // Here Mar is stored once and may become any three bytes. k may be any
    // other size that holds three names in one block: 3 and 5 to 64.
    let mut expected = vec![0; 88];
    expected[2..5].fill(255);
    expected[8..10].fill(255);
    expected[13..22].fill(255);
    expected[88 - 14] = 61;
    expected[88 - 2] = 1;
    assert_eq!(accepted_changes(&BOOK_BY_4), expected);
}

#[test]
fn every_changed_byte_of_the_empty_book_is_refused_but_for_its_k_and_its_kind() {
    let mut expected = vec![0; 16];
    expected[2] = 63;
    // without nodes all three kinds have the same bytes but for the mark
    expected[14] = 2;
    assert_eq!(accepted_changes(&EMPTY_BOOK), expected);
}

// Bytes missing or added

#[test]
fn every_cut_book_is_refused() {
    for length in 0..93 {
        assert_eq!(book_check(&BOOK_BY_2[..length]), no(2), "front {length}");
    }
    for start in 1..=93 {
        assert_eq!(book_check(&BOOK_BY_2[start..]), no(2), "from {start}");
    }
}

#[test]
fn bytes_before_or_after_a_book_make_it_no_book() {
    for book in [&BOOK_BY_2[..], &BOOK_BY_4, &EMPTY_BOOK] {
        for byte in 0..=255u8 {
            assert_eq!(book_check(&[book, &[byte]].concat()), no(2));
            assert_eq!(book_check(&[&[byte], book].concat()), no(2));
        }
        assert_eq!(book_check(&[book, book].concat()), no(2));
    }
}

#[test]
fn every_byte_left_out_or_doubled_is_refused() {
    for offset in 0..93 {
        let left_out = [&BOOK_BY_2[..offset], &BOOK_BY_2[offset + 1..]].concat();
        let doubled = [&BOOK_BY_2[..=offset], &BOOK_BY_2[offset..]].concat();
        assert_eq!(book_check(&left_out), no(2), "left out {offset}");
        assert_eq!(book_check(&doubled), no(2), "doubled {offset}");
    }
}

// Names that read well from a book that is none

#[test]
fn a_shared_count_smaller_than_possible_is_refused() {
    // The 88 bytes, but Market Square stored as 02 0B rket Square or as
    // 00 0D Market Square inside its block; tables and trailer moved along.
    for shared in 0..3usize {
        let rest = &b"Market Square"[shared..];
        let mut bytes = BOOK_BY_4[..10].to_vec();
        bytes.extend([shared as u8, rest.len() as u8]);
        bytes.extend(rest);
        bytes.extend(&BOOK_BY_4[22..]);
        let longer = (3 - shared) as u8;
        let trailer = bytes.len() - 16;
        bytes[trailer + 4] += longer;
        bytes[trailer + 6] += longer;
        bytes[trailer + 10] += longer;
        assert_eq!(book_check(&bytes), no(2), "shared {shared}");
    }
}

#[test]
fn a_nonzero_count_at_a_block_s_first_name_is_refused() {
    // The 93 bytes, but Market Square stored as 03 0A ket Square although it
    // begins the second block; tables and trailer moved along.
    let mut bytes = BOOK_BY_4[..22].to_vec();
    bytes.extend([0x00, 0x00, 0x0A, 0x00]);
    bytes.extend(&BOOK_BY_2[29..77]);
    bytes.extend([3, 0, 2, 0, 22, 0, 26, 0, 4, 0, 90, 0]);
    bytes.extend(b"NBK2");
    assert_eq!(bytes.len(), 90);
    assert_eq!(book_check(&bytes), no(2));
}

#[test]
fn an_unused_gap_between_the_parts_is_refused() {
    // One byte more before the block table, the node table or the trailer,
    // with every number of the trailer moved along.
    for (offset, moves_block_table, moves_node_table) in [(25, 1, 1), (29, 0, 1), (77, 0, 0)] {
        let mut bytes = [&BOOK_BY_2[..offset], &[0], &BOOK_BY_2[offset..]].concat();
        let trailer = bytes.len() - 16;
        bytes[trailer + 4] += moves_block_table;
        bytes[trailer + 6] += moves_node_table;
        bytes[trailer + 10] += 1;
        assert_eq!(book_check(&bytes), no(2), "gap at {offset}");
    }
}

#[test]
fn nodes_in_another_order_are_refused() {
    // The leaves of Mar and Marina have swapped places.
    let mut bytes = BOOK_BY_2;
    bytes[41..53].copy_from_slice(&BOOK_BY_2[53..65]);
    bytes[53..65].copy_from_slice(&BOOK_BY_2[41..53]);
    assert_eq!(book_check(&bytes), no(2));
}

#[test]
fn a_width_that_is_not_the_greatest_length_is_refused() {
    // Offsets of the sixth fields of the root and of the three leaves, with
    // one less, one more and the depth; for the root also the first child's.
    let wrong = [
        (39, vec![12, 14, 3, 6, 0]),
        (51, vec![2, 4, 13, 0]),
        (63, vec![5, 7, 13, 0]),
        (75, vec![12, 14, 0]),
    ];
    for (offset, values) in wrong {
        for value in values {
            let mut bytes = BOOK_BY_2;
            bytes[offset] = value;
            assert_eq!(book_check(&bytes), no(2), "{value} at {offset}");
        }
        let mut bytes = BOOK_BY_2;
        bytes[offset + 1] = 1;
        assert_eq!(book_check(&bytes), no(2), "256 more at {offset}");
    }
}

#[test]
fn a_book_with_the_old_mark_is_refused() {
    // The old layout as document 01 has it, five fields a node.
    let mut old = BOOK_BY_2[..29].to_vec();
    for node in BOOK_BY_2[29..77].chunks(12) {
        old.extend(&node[..10]);
    }
    old.extend([3, 0, 2, 0, 25, 0, 29, 0, 4, 0, 85, 0]);
    old.extend(b"NBK1");
    assert_eq!(old.len(), 85);
    assert_eq!(book_check(&old), no(2));
    old[84] = b'2';
    assert_eq!(book_check(&old), no(2), "the old layout under the new mark");
    for book in [&BOOK_BY_2[..], &BOOK_BY_4, &EMPTY_BOOK] {
        let mut bytes = book.to_vec();
        *bytes.last_mut().expect("a book has bytes") = b'1';
        assert_eq!(
            book_check(&bytes),
            no(2),
            "the new layout under the old mark"
        );
    }
}

#[test]
fn another_block_size_with_the_same_blocks_is_another_book() {
    let mut accepted = Vec::new();
    for block in 0..=255u8 {
        let mut bytes = BOOK_BY_4;
        bytes[88 - 14] = block;
        if is_accepted(&bytes) {
            accepted.push(block);
        }
    }
    let expected: Vec<u8> = (3..=64).collect();
    assert_eq!(accepted, expected);
}

// Laid out well, but for a list or block size that demand 3 does not allow

#[test]
fn a_block_size_outside_1_to_64_is_refused() {
    for block in [0, 65, 128, 256, 65_535] {
        assert_eq!(
            book_check(&book_of(BookKind::Plain, block, &mar_names())),
            no(2)
        );
        assert_eq!(book_check(&book_of(BookKind::Plain, block, &[])), no(2));
    }
    for block in 1..=64 {
        assert_eq!(
            book_check(&book_of(BookKind::Plain, block, &mar_names())),
            yes(3, block)
        );
    }
}

#[test]
fn a_book_of_2001_names_is_refused() {
    let book = book_of(BookKind::Plain, 64, &many_names(2001));
    assert!(book.len() < 65_536);
    assert_eq!(book_check(&book), no(2));
    let book = book_of(BookKind::Plain, 64, &many_names(2000));
    assert_eq!(book_check(&book), yes(2000, 64));
}

#[test]
fn a_book_with_a_name_of_201_bytes_is_refused() {
    assert_eq!(
        book_check(&book_of(BookKind::Plain, 1, &[vec![b'a'; 200]])),
        yes(1, 1)
    );
    assert_eq!(
        book_check(&book_of(BookKind::Plain, 1, &[vec![b'a'; 201]])),
        no(2)
    );
    // Here the rest has one byte, but the name has 201.
    let list = [vec![b'a'; 200], vec![b'a'; 201]];
    assert_eq!(book_check(&book_of(BookKind::Plain, 2, &list)), no(2));
}

#[test]
fn a_book_with_an_empty_name_is_refused() {
    assert_eq!(book_check(&book_of(BookKind::Plain, 1, &[vec![]])), no(2));
    assert_eq!(
        book_check(&book_of(BookKind::Plain, 2, &names(&["", "Mar"]))),
        no(2)
    );
}

#[test]
fn a_book_with_equal_or_falling_names_is_refused() {
    for list in [
        names(&["Mar", "Mar"]),
        names(&["Marina", "Mar"]),
        names(&["Mar", "Market Square", "Marina"]),
    ] {
        for block in [1, 2, 64] {
            assert_eq!(book_check(&book_of(BookKind::Plain, block, &list)), no(2));
        }
    }
}

#[test]
fn a_book_of_65536_bytes_is_refused() {
    for block in [1, 16] {
        let longest = book_of(
            BookKind::Plain,
            block,
            &names_for_book_length(65_535, block),
        );
        assert_eq!(longest.len(), 65_535);
        assert_eq!(book_check(&longest), yes(320, block));
        let longer = book_of(
            BookKind::Plain,
            block,
            &names_for_book_length(65_536, block),
        );
        assert_eq!(longer.len(), 65_536);
        assert_eq!(book_check(&longer), no(2));
    }
}

// Any bytes at all

#[test]
fn short_runs_of_equal_bytes_are_no_books() {
    for length in 0..=200 {
        for byte in [0, 1, 2, 16, 255] {
            assert_eq!(book_check(&vec![byte; length]), no(2));
        }
    }
}

#[test]
fn a_trailer_that_promises_65535_names_is_refused() {
    for byte in [0u8, 1, 255] {
        let mut bytes = vec![byte; 65_535];
        let trailer = bytes.len() - 16;
        bytes[trailer..].copy_from_slice(&BOOK_BY_2[77..]);
        bytes[trailer..trailer + 2].fill(255);
        assert_eq!(book_check(&bytes), no(2));
    }
}

#[test]
fn a_very_long_run_of_bytes_is_refused() {
    let mut bytes = vec![1; 300_000];
    bytes.extend(BOOK_BY_2);
    assert_eq!(book_check(&bytes), no(2));
}

#[test]
fn random_bytes_are_no_books_and_the_check_ends() {
    for seed in 0..2000 {
        let mut random = Random::from_seed(seed);
        let length = random.below(120);
        let bytes: Vec<u8> = (0..length).map(|_| random.byte()).collect();
        assert_eq!(book_check(&bytes), no(2), "seed {seed}");
    }
}

#[test]
fn random_bytes_before_a_good_trailer_are_refused_or_a_book() {
    for seed in 0..2000 {
        let mut random = Random::from_seed(seed);
        let mut bytes = BOOK_BY_2;
        for byte in &mut bytes[..77] {
            *byte = random.one_of(&[0, 1, 2, 3, 4, 13, b'M', 255]);
        }
        is_accepted(&bytes);
    }
}

#[test]
fn several_changed_bytes_are_refused_or_make_another_sound_book() {
    let list = names(&["Bar", "Bark", "Mar", "Marina", "Market Square", "Max"]);
    for seed in 0..4000 {
        let mut random = Random::from_seed(seed);
        let block = 1 + random.below(7);
        let mut bytes = built(&list, block);
        for _ in 0..2 + random.below(4) {
            let offset = random.below(bytes.len());
            // Small numbers and near values do the most harm.
            bytes[offset] = match random.below(3) {
                0 => random.byte(),
                1 => random.below(8) as u8,
                _ => bytes[offset].wrapping_add(random.one_of(&[1, 255])),
            };
        }
        is_accepted(&bytes);
    }
}

// One list and one block size

#[test]
fn different_names_or_block_sizes_never_give_the_same_book() {
    let lists = [
        names(&[]),
        names(&["Mar"]),
        names(&["Mar", "Marina"]),
        names(&["Mar", "Marina", "Market Square"]),
        names(&["Mar", "Marine", "Market Square"]),
        names(&["Mar", "Marina", "Market", "Market Square"]),
        names(&["Marina", "Market Square"]),
    ];
    let mut books = Vec::new();
    for list in &lists {
        for block in 1..=64 {
            books.push(built(list, block));
        }
    }
    let count = books.len();
    books.sort();
    books.dedup();
    assert_eq!(books.len(), count);
}
