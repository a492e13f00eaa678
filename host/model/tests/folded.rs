//! Document 02, change request 7: books in which capitals have the symbols of
//! small letters. Sentence by sentence, on books that are written out by hand.

mod common;

use common::answers::{book_exact, book_nearest, book_place, book_range, book_width};
use common::{answer, built, built_as, marked_as, names, no, no_record, yes, FILLING, UNSET};
use model::names::{is_less, shared_symbols, symbols};
use model::tree::tree;
use model::{
    book_batch, book_build, book_build_folded, book_check, book_read, book_salvage, listing, open,
    write_list, Answer, BookKind, Kept, Row, Rule,
};

/// The folded book of MAR and marina with k = 2, worked out by hand. As bytes the
/// two share nothing; as symbols they share three, and then the end symbol
/// stands against 106, the symbol of i.
#[rustfmt::skip]
const MAR_MARINA: [u8; 67] = [
    // entries: 00 03 MAR, 00 06 marina
    0x00, 0x03, 0x4D, 0x41, 0x52,
    0x00, 0x06, 0x6D, 0x61, 0x72, 0x69, 0x6E, 0x61,
    // block table
    0x00, 0x00,
    // nodes: (0,3,0,2,3,6), (0,4,0,1,1,3), (106,7,1,1,1,6)
    0x00, 0x00, 0x03, 0x00, 0x00, 0x00, 0x02, 0x00, 0x03, 0x00, 0x06, 0x00,
    0x00, 0x00, 0x04, 0x00, 0x00, 0x00, 0x01, 0x00, 0x01, 0x00, 0x03, 0x00,
    0x6A, 0x00, 0x07, 0x00, 0x01, 0x00, 0x01, 0x00, 0x01, 0x00, 0x06, 0x00,
    // trailer: n 2, k 2, block table at 13, node table at 15, m 3, length 67
    0x02, 0x00, 0x02, 0x00, 0x0D, 0x00, 0x0F, 0x00, 0x03, 0x00, 0x43, 0x00,
    0x4E, 0x42, 0x46, 0x32,
];

/// The folded book of mar, Marina and MARKET Square with k = 4. MARKET Square
/// shares one byte with Marina, the M, and so its count is 1; by symbols the two
/// share three. The node of K has the symbol of k, 108.
#[rustfmt::skip]
const MIXED_BY_4: [u8; 93] = [
    // entries: 00 03 mar, 00 06 Marina, 01 0C ARKET Square
    0x00, 0x03, 0x6D, 0x61, 0x72,
    0x00, 0x06, 0x4D, 0x61, 0x72, 0x69, 0x6E, 0x61,
    0x01, 0x0C, 0x41, 0x52, 0x4B, 0x45, 0x54, 0x20, 0x53, 0x71, 0x75, 0x61, 0x72, 0x65,
    // block table
    0x00, 0x00,
    // nodes: (0,3,0,3,4,13), (0,4,0,1,1,3), (106,7,1,1,1,6), (108,14,2,1,1,13)
    0x00, 0x00, 0x03, 0x00, 0x00, 0x00, 0x03, 0x00, 0x04, 0x00, 0x0D, 0x00,
    0x00, 0x00, 0x04, 0x00, 0x00, 0x00, 0x01, 0x00, 0x01, 0x00, 0x03, 0x00,
    0x6A, 0x00, 0x07, 0x00, 0x01, 0x00, 0x01, 0x00, 0x01, 0x00, 0x06, 0x00,
    0x6C, 0x00, 0x0E, 0x00, 0x02, 0x00, 0x01, 0x00, 0x01, 0x00, 0x0D, 0x00,
    // trailer: n 3, k 4, block table at 27, node table at 29, m 4, length 93
    0x03, 0x00, 0x04, 0x00, 0x1B, 0x00, 0x1D, 0x00, 0x04, 0x00, 0x5D, 0x00,
    0x4E, 0x42, 0x46, 0x32,
];

/// The names of that book.
fn mixed_names() -> Vec<Vec<u8>> {
    names(&["mar", "Marina", "MARKET Square"])
}

/// Builds a folded book of these texts into a room of 1,000 bytes.
fn build_texts(texts: &[&str], block: usize) -> Answer {
    let mut room = [FILLING; 1000];
    let answer = book_build_folded(&write_list(&names(texts)), block, &mut room);
    if answer.code != 0 {
        assert_eq!(room, [FILLING; 1000], "a refused build writes nothing");
    }
    answer
}

// "the symbol of bytes 65 to 90 is that of the byte 32 higher"

#[test]
fn bytes_65_to_90_have_the_symbol_of_the_byte_32_higher_and_no_others() {
    for byte in 0..=255u8 {
        let own = usize::from(byte) + 1;
        let expected = match byte {
            65..=90 => own + 32,
            _ => own,
        };
        assert_eq!(Rule::Folded.symbol(byte), expected, "{byte}");
        assert_eq!(Rule::Plain.symbol(byte), own, "{byte}");
    }
    assert_eq!(symbols(Rule::Folded, b"MAR"), [110, 98, 115, 0]);
    assert_eq!(
        symbols(Rule::Folded, b"@AZ[`az{"),
        [65, 98, 123, 92, 97, 98, 123, 124, 0]
    );
}

#[test]
fn the_bytes_around_the_letters_stand_before_or_behind_all_of_them() {
    let rising = names(&["@", "[", "`", "A", "z", "{"]);
    assert_eq!(
        book_check(&built_as(BookKind::Folded, &rising, 2)),
        yes(6, 2)
    );
    // plainly it is another order
    assert_eq!(build_texts(&["@", "A", "Z", "["], 2), no_record(6, 3));
    assert_eq!(
        book_check(&built(&names(&["@", "A", "Z", "["]), 2)),
        yes(4, 2)
    );
}

#[test]
fn capitals_with_accents_do_not_fold() {
    // É is C3 89 and é is C3 A9.
    let both = names(&["É", "é"]);
    let book = built_as(BookKind::Folded, &both, 1);
    assert_eq!(book_exact(&book, "É".as_bytes()), yes(0, 1));
    assert_eq!(book_exact(&book, "é".as_bytes()), yes(1, 1));
    let cafe = built_as(BookKind::Folded, &names(&["CAFé"]), 1);
    assert_eq!(book_exact(&cafe, "café".as_bytes()), yes(0, 1));
    assert_eq!(book_exact(&cafe, "CAFÉ".as_bytes()), yes(0, 0));
}

// "the stored shared counts stay counts of equal bytes, so spelling comes back
// unchanged"

#[test]
fn mar_and_marina_share_no_bytes_and_three_symbols() {
    let both = names(&["MAR", "marina"]);
    assert_eq!(built_as(BookKind::Folded, &both, 2), MAR_MARINA);
    assert_eq!(shared_symbols(Rule::Folded, b"MAR", b"marina"), 3);
    assert_eq!(shared_symbols(Rule::Plain, b"MAR", b"marina"), 0);
    assert_eq!(tree(Rule::Folded, &both).unwrap().depth, 3);
}

#[test]
fn a_count_may_lie_between_0_and_the_depth() {
    assert_eq!(built_as(BookKind::Folded, &mixed_names(), 4), MIXED_BY_4);
}

#[test]
fn spelling_comes_back_unchanged() {
    for (position, name) in mixed_names().iter().enumerate() {
        let mut room = [FILLING; 20];
        let answer = book_read(&MIXED_BY_4, position, &mut room);
        assert_eq!(answer, yes(name.len(), 0));
        assert_eq!(&room[..name.len()], name.as_slice());
        assert!(room[name.len()..].iter().all(|&byte| byte == FILLING));
    }
}

#[test]
fn the_listing_shows_the_stored_counts_of_bytes() {
    let expected = "names 3 block 4 nodes 4 bytes 93\n\
                    0 0 0 3 mar\n\
                    1 0 0 6 Marina\n\
                    2 0 1 13 MARKET Square\n";
    assert_eq!(listing(&MIXED_BY_4), expected.as_bytes());
}

#[test]
fn a_count_by_symbols_would_spell_another_name() {
    // The 67 bytes, but marina stored as 03 03 ina; tables and trailer moved along.
    let mut bytes = [&MAR_MARINA[..5], b"\x03\x03ina", &MAR_MARINA[13..]].concat();
    let trailer = bytes.len() - 16;
    for number in [4, 6, 10] {
        bytes[trailer + number] -= 3;
    }
    let other = names(&["MAR", "MARina"]);
    assert_eq!(open(&bytes), Some((BookKind::Folded, 2, other)));
}

#[test]
fn a_count_of_fewer_bytes_than_are_shared_is_refused() {
    // The 93 bytes, but MARKET Square stored as 00 0D MARKET Square inside its
    // block; tables and trailer moved along.
    let entry = b"\x00\x0DMARKET Square";
    let mut bytes = [&MIXED_BY_4[..13], entry, &MIXED_BY_4[27..]].concat();
    let trailer = bytes.len() - 16;
    for number in [4, 6, 10] {
        bytes[trailer + number] += 1;
    }
    assert_eq!(book_check(&bytes), no(2));
}

// "Order, depths, exact, beginnings and nearest go by symbols"

#[test]
fn exact_finds_any_spelling() {
    for question in ["mar", "MAR", "Mar", "mAr"] {
        assert_eq!(book_exact(&MIXED_BY_4, question.as_bytes()), yes(0, 1));
    }
    assert_eq!(book_exact(&MIXED_BY_4, b"market square"), yes(2, 1));
    assert_eq!(book_exact(&MIXED_BY_4, b"MARIN"), yes(0, 0));
}

#[test]
fn place_range_and_width_go_by_symbols() {
    for (question, place, count, width) in [
        ("", 0, 3, 13),
        ("MAR", 0, 3, 13),
        ("mARi", 1, 1, 6),
        ("mark", 2, 1, 13),
        ("MAS", 3, 0, 0),
        ("ZOO", 3, 0, 0),
        ("[", 0, 0, 0),
        ("{", 3, 0, 0),
    ] {
        let question = question.as_bytes();
        assert_eq!(book_place(&MIXED_BY_4, question), yes(place, 0));
        assert_eq!(book_range(&MIXED_BY_4, question), yes(place, count));
        assert_eq!(book_width(&MIXED_BY_4, question), yes(width, 0));
    }
}

#[test]
fn nearest_counts_by_symbols() {
    // The same positions as on the worked example, and the same numbers.
    for (question, position, lit) in [
        ("MANGO", 0, 2),
        ("mAXIM", 1, 2),
        ("zoo", 0, 0),
        ("m", 0, 1),
        ("mARKt", 2, 4),
        ("MARKET SQUARES", 2, 13),
    ] {
        let answer = book_nearest(&MIXED_BY_4, question.as_bytes());
        assert_eq!(answer, yes(position, lit), "{question}");
    }
}

#[test]
fn nearest_s_number_is_cut_by_the_question_s_own_bytes() {
    let book = built_as(BookKind::Folded, &names(&["café", "KÖln"]), 2);
    for (question, position, lit) in [
        // CAFÈ shares the first byte of its last letter, too.
        ("CAFÈ", 0, 3),
        ("CAFé", 0, 5),
        ("CAFE", 0, 3),
        // Ö is C3 96 and ö is C3 B6.
        ("köLN", 1, 1),
        ("kÖLN", 1, 5),
    ] {
        let answer = book_nearest(&book, question.as_bytes());
        assert_eq!(answer, yes(position, lit), "{question}");
    }
    // What is shared ends inside a letter of the question: all of it is lit.
    assert_eq!(book_nearest(&book, b"CAF\xC3"), yes(0, 4));
}

#[test]
fn a_batch_folds_as_single_questions_do() {
    let buffer = b"MARINAmARKtMAS";
    let row = |kind, start, length| Row {
        kind,
        start,
        length,
    };
    let rows = [
        row(1, 0, 6),
        row(2, 6, 5),
        row(3, 0, 3),
        row(4, 6, 5),
        row(5, 6, 4),
        row(3, 11, 3),
        row(6, 0, 1),
    ];
    let mut answers = [UNSET; 7];
    assert_eq!(
        book_batch(&MIXED_BY_4, buffer, &rows, &mut answers),
        yes(7, 0)
    );
    assert_eq!(
        answers,
        [
            yes(1, 1),
            yes(3, 0),
            yes(0, 3),
            yes(2, 4),
            yes(13, 0),
            yes(3, 0),
            no(11)
        ]
    );
}

#[test]
fn check_gives_n_and_k_and_does_not_tell_the_kind() {
    assert_eq!(book_check(&MAR_MARINA), yes(2, 2));
    assert_eq!(book_check(&MIXED_BY_4), yes(3, 4));
    assert_eq!(
        open(&MIXED_BY_4),
        Some((BookKind::Folded, 4, mixed_names()))
    );
}

// "names, block size and symbol rule give one book"

#[test]
fn small_letters_alone_give_the_plain_book_with_another_mark() {
    let small = names(&["a", "mar", "marina", "market square", "ß", "é{"]);
    for block in [1, 2, 64] {
        let plain = built(&small, block);
        let folded = built_as(BookKind::Folded, &small, block);
        assert_eq!(folded, marked_as(BookKind::Folded, &plain));
        assert_eq!(book_check(&folded), book_check(&plain));
    }
}

#[test]
fn no_names_give_the_trailer_alone_with_the_folded_mark() {
    let empty = built_as(BookKind::Folded, &[], 9);
    assert_eq!(
        empty,
        [0, 0, 9, 0, 0, 0, 0, 0, 0, 0, 16, 0, 0x4E, 0x42, 0x46, 0x32]
    );
    assert_eq!(book_check(&empty), yes(0, 9));
    assert_eq!(book_exact(&empty, b"mar"), yes(0, 0));
    assert_eq!(book_nearest(&empty, b"mar"), no(10));
}

#[test]
fn under_the_other_mark_a_book_is_taken_only_where_it_is_that_kind_s() {
    let swapped = |kind: BookKind, other: BookKind, texts: &[&str]| {
        let swapped = marked_as(other, &built_as(kind, &names(texts), 2));
        book_check(&swapped)
    };
    let (plain, folded) = (BookKind::Plain, BookKind::Folded);
    // One name: its leaf has no symbol of its own.
    assert_eq!(swapped(plain, folded, &["MAR"]), yes(1, 2));
    // Capitals that are shared as bytes, and small letters where names part.
    assert_eq!(swapped(plain, folded, &["MAR", "MARina"]), yes(2, 2));
    assert_eq!(swapped(folded, plain, &["MAR", "MARina"]), yes(2, 2));
    // Names part in capitals: another symbol in their nodes.
    assert_eq!(swapped(plain, folded, &["MAR", "MARINA"]), no(2));
    assert_eq!(swapped(folded, plain, &["MAR", "MARINA"]), no(2));
    // Another depth.
    assert_eq!(swapped(folded, plain, &["MAR", "marina"]), no(2));
    assert_eq!(swapped(plain, folded, &["MAR", "marina"]), no(2));
    // Names that do not rise by the other rule.
    assert_eq!(swapped(plain, folded, &["Z", "["]), no(2));
    assert_eq!(swapped(folded, plain, &["[", "Z"]), no(2));
    assert_eq!(swapped(plain, folded, &["MAR", "mar"]), no(2));
}

#[test]
fn every_changed_byte_is_refused_or_makes_another_sound_book() {
    let mut bytes = MAR_MARINA;
    let mut accepted = [0; 67];
    for at in 0..67 {
        for change in 1..=255 {
            bytes[at] = MAR_MARINA[at] ^ change;
            if book_check(&bytes).code == 0 {
                accepted[at] += 1;
            }
        }
        bytes[at] = MAR_MARINA[at];
    }
    // AR and ar may be the other case of themselves, and so may i, since no byte of
    // theirs is shared. M and m may not: then the two would share it, and its
    // count would have to say so. na may be anything, and k may be 3 to 64.
    let mut expected = [0; 67];
    expected[3..5].fill(1);
    expected[8..11].fill(1);
    expected[11..13].fill(255);
    expected[53] = 62;
    assert_eq!(accepted, expected);
}

// "Refusals: 6 also for names equal once folded."

#[test]
fn names_equal_once_folded_are_refused_with_6_and_the_record() {
    assert_eq!(build_texts(&["Mar", "MAR"], 2), no_record(6, 1));
    assert_eq!(build_texts(&["MAR", "mar"], 2), no_record(6, 1));
    assert_eq!(build_texts(&["a", "Mar", "mar", "n"], 2), no_record(6, 2));
    assert_eq!(build_texts(&["Mar", "Mar"], 2), no_record(6, 1));
    assert_eq!(build_texts(&["MARINA", "mar"], 2), no_record(6, 1));
    // plainly the first two are different names
    assert_eq!(book_check(&built(&names(&["MAR", "mar"]), 2)), yes(2, 2));
}

#[test]
fn a_list_may_rise_by_one_rule_and_not_by_the_other() {
    let plain_only = write_list(&names(&["Zoo", "abbey"]));
    let folded_only = write_list(&names(&["abbey", "Zoo"]));
    let mut room = [0; 1000];
    assert_eq!(book_build(&plain_only, 2, &mut room).code, 0);
    assert_eq!(
        book_build_folded(&plain_only, 2, &mut room),
        no_record(6, 1)
    );
    assert_eq!(book_build(&folded_only, 2, &mut room), no_record(6, 1));
    assert_eq!(book_build_folded(&folded_only, 2, &mut room).code, 0);
    assert!(is_less(Rule::Folded, b"abbey", b"Zoo"));
    assert!(is_less(Rule::Plain, b"Zoo", b"abbey"));
}

#[test]
fn the_other_refusals_are_those_of_a_plain_build_in_their_order() {
    let both = write_list(&names(&["Mar", "MAR"]));
    let mut room = [FILLING; 66];
    let mut build = |list: &[u8], block| book_build_folded(list, block, &mut room);
    assert_eq!(build(&both, 0), no(8));
    assert_eq!(build(&both, 65), no(8));
    assert_eq!(build(b"\x03MAR\x00", 2), no_record(5, 1));
    assert_eq!(build(b"\x03MAR\x03mar\x00", 2), no_record(6, 1));
    assert_eq!(build(&write_list(&names(&["MAR", "marina"])), 2), no(4));
    assert_eq!(room, [FILLING; 66]);
    let mut enough = [FILLING; 68];
    let list = write_list(&names(&["MAR", "marina"]));
    assert_eq!(book_build_folded(&list, 2, &mut enough), yes(67, 0));
    assert_eq!(enough[..67], MAR_MARINA);
    assert_eq!(enough[67], FILLING);
}

#[test]
fn numbers_of_names_and_bytes_are_limited_as_in_a_plain_book() {
    // Bytes below 65, and those from 128 on, are in one order by both rules.
    let digits = |count: usize| -> Vec<Vec<u8>> {
        let name = |number: usize| vec![(number / 50) as u8, (number % 50) as u8];
        (0..count).map(name).collect()
    };
    let mut room = vec![0; 65_535];
    let mut build = |names: &[Vec<u8>]| book_build_folded(&write_list(names), 64, &mut room);
    assert_eq!(build(&digits(2000)).code, 0);
    assert_eq!(build(&digits(2001)), no_record(7, 2000));
    let long: Vec<Vec<u8>> = (128..228u8)
        .flat_map(|first| {
            let name = move |second: u8| [vec![first, second], vec![b'x'; 198]].concat();
            [0, 1, 2, 3].map(name)
        })
        .collect();
    assert_eq!(build(&long), answer(9, 0, 0));
}

// "Merging and salvage stay with the plain rule; salvage answers 13 to a folded
// mark."

#[test]
fn salvage_answers_13_to_a_folded_mark() {
    for book in [
        &MAR_MARINA[..],
        &MIXED_BY_4,
        &built_as(BookKind::Folded, &[], 2),
    ] {
        for rows in 0..3 {
            let mut room = [FILLING; 100];
            let unset = Kept { kept: 7, names: 7 };
            let mut report = vec![unset; rows];
            assert_eq!(book_salvage(book, &mut room, &mut report), no(13));
            assert_eq!(room, [FILLING; 100]);
            assert!(report.iter().all(|row| *row == unset));
        }
    }
    // The bytes under the plain mark have a map; what their blocks hold is judged
    // by the plain rule, and there marina rises, too.
    let plain = marked_as(BookKind::Plain, &MAR_MARINA);
    let (mut room, mut report) = ([0; 100], [Kept::default()]);
    assert_eq!(book_salvage(&plain, &mut room, &mut report), yes(11, 0));
    assert_eq!(report, [Kept { kept: 1, names: 2 }]);
    let falls = built_as(BookKind::Folded, &names(&["marina", "MARKET"]), 2);
    let worn = marked_as(BookKind::Plain, &falls);
    assert_eq!(book_salvage(&worn, &mut room, &mut report), yes(0, 0));
    assert_eq!(report, [Kept { kept: 0, names: 0 }]);
}
